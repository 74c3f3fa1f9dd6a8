"""`rowkeeper plan`: how large the areas are that a maker must lend for a join over two files, before any join is made. It is one call of the
proved library over all rows."""
import contextlib
from array import array

import rowkeeper

from .books import put
from .build import told
from .cells import frame_words
from .joined import expected
from .pricing import ROWS
from .run import Run
from .sink import sink
from .sorting import Side

# The bytes of a word.
WORD = 8


def in_order(run, table):
    """The rows of a table in order, with their columns."""
    if not run.args.sort:
        yield from table.pairs(later=True)
        return
    side = Side(run.kinds.coded_order(), table, 1)
    with contextlib.closing(side.sorter):
        for block, columns in table.pairs(later=True):
            side.take(columns, block.height)
        yield from side.pairs(ROWS)


def words_of(run, table):
    """The compared columns of a table as the library's words."""
    found = [(array('q'), array('q')) for _ in run.kinds.all()]
    for _, columns in in_order(run, table):
        for (values, marks), (more, there) in zip(found, columns):
            values.extend(more)
            marks.extend(array('q', [1]) * len(more) if there is None else there)
    return frame_words(found, 0, len(found[0][0]))


def heights(rows, most):
    """Frames of so many rows each, and at last one of those that are left."""
    return array('q', [most] * (rows // most) + [rows % most] * (rows % most > 0))


def said(name, words):
    """A line on so many words."""
    return f'{name:<13} {words:,} words, {WORD * words:,} bytes'


def figures(args, plan, lefts, rights):
    """The lines that are printed."""
    width, many = len(args.left), lambda count, what: f'{count:,} {what}{"" if count == 1 else "s"}'
    left = sum(2 + 2 * height * width for height in lefts)
    right = 2 * plan.rows * (width + args.carried)
    output = 2 + 2 * max(lefts, default=0) * (1 + args.carried + args.distance)
    return [f'{"notices held":<13} {plan.rows:,} at most',
            f'{"turns":<13} {many(plan.turns, "call")}, {plan.rights:,} of them for notices',
            f'{"frames":<13} {many(len(lefts), "frame")} of sales, {plan.rights:,} of {many(len(rights), "frame")} of notices taken',
            said('left area', left), said('right area', right), said('output', output), said('in all', left + right + output)]


def plan(args):
    """Prints how many words and bytes are to be lent."""
    with contextlib.ExitStack() as stack:
        run = Run(args, stack, ('sales', 'notices'))
        for each in ((args.sales, args.left), (args.notices, args.right)):
            run.source(*each)
        run.kinds.share(run.sources)
        target = sink(args.output, [args.sales, args.notices])
        sales, notices = (words_of(run, table) for table in run.judged())
        lefts, rights = heights(sales[0], args.sales_frame), heights(notices[0], args.notices_frame)
        order = run.kinds.coded_order()
        with expected('a plan'):
            found = told(lambda: rowkeeper.plan(
                sales, notices, lefts, rights, by=len(order.columns) - 1, strategy=args.strategy, allow_exact_matches=args.exact,
                descending=order.descending, nulls_last=order.nulls_last, ranks=order.ranks))
        put(run.begun(target, mark=False), figures(args, found, lefts, rights))
