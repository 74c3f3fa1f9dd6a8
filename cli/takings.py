"""`rowkeeper takings`: the sales joined to their notices, and the amounts of these added and counted by group. The proved library joins and
adds; files of takings that were written before are added too."""
import contextlib
from array import array
from itertools import islice

import rowkeeper
from rowkeeper.interface import BEYOND

from .amounts import MOST_AMOUNT, Amounts, count
from .books import put
from .build import told
from .cells import Text
from .feed import Feed
from .groups import Missing
from .joined import Join, expected
from .pricing import ROWS, Matching, counted, free
from .problem import BAD_USAGE, Problem, at, say
from .records import written
from .run import Run
from .sink import same_file, sink
from .sorting import Side, turned

# The columns behind the by-columns, and what stands in front of one whose name a by-column has.
TOTAL, SALES, PREFIX = 'total', 'sales', 'takings_'


class Nothing:
    """What is to be known of the notices while they are held: nothing, since the join carries their amounts."""

    def add(self, part):
        """Keeps nothing."""

    def drop(self, pruned):
        """Forgets nothing."""


class Sums:
    """Takings that grow by frames and by other takings. Each frame makes takings of its own, which are joined with those before when
    these are not much larger: with many groups no row is copied more often than the number of frames can be halved."""

    def __init__(self, order):
        self.order = order
        self.parts = [self.empty()]

    def empty(self):
        """Takings of nothing."""
        order = self.order
        return told(lambda: rowkeeper.Takings(by=len(order.columns) - 1, descending=order.descending, nulls_last=order.nulls_last,
                                              ranks=order.ranks))

    def take(self, takings):
        """Takes takings; those before that have at most twice as many groups are joined with them."""
        self.parts.append(takings)
        while len(self.parts) > 1 and len(self.parts[-2]) <= 2 * len(self.parts[-1]):
            self.join_last()

    def join_last(self):
        """Makes the last two one."""
        last = self.parts.pop()
        try:
            self.parts[-1].join(last)
        except rowkeeper.Refused as refused:
            if refused.number != BEYOND:
                raise Problem(f'the library refused takings by {refused.number}: {refused.text}') from None
            raise Problem('the takings together have more than 2^31 sales, or more than 2^31 without an amount') from None

    def whole(self):
        """All of them as one."""
        while len(self.parts) > 1:
            self.join_last()
        return self.parts[0]


class Subtotal:
    """A file of takings that was written before: its groups in any order, then the line that counts the sales without an amount."""

    def __init__(self, source, names, amounts):
        self.source, self.amounts = source, amounts
        self.names, self.places = names, [source.place(name) for name in names]

    def cell(self, read, line, place, *how):
        """What is read of a cell; a Problem with its line and column where it cannot be."""
        try:
            return read(line[1][self.places[place]], *how)
        except ValueError as why:
            raise Problem(f'{at(self.source.path, line[0], self.names[place])}: {why}') from None

    def group(self, line, by):
        """A group's row: its by-values, total and sales."""
        if None in by:
            raise Problem(f'{at(self.source.path, line[0], self.names[by.index(None)])}: there is an empty cell: only the last line of takings, '
                          'which has no total either, has no group')
        total, sales = self.cell(self.amounts.total, line, -2), self.cell(count, line, -1, 1)
        if abs(total) > sales * MOST_AMOUNT:
            raise Problem(f'{at(self.source.path, line[0], self.names[-2])}: {self.amounts.text(total)} is more than {sales:,} '
                          f'sale{"" if sales == 1 else "s"} can have together')
        return (*by, total, sales)

    def rows(self, table):
        """The groups, each with its line; and the sales without an amount."""
        found, width, last = [], len(self.places) - 2, None
        for block, columns in table.pairs():
            for row in range(block.height):
                line = block.line(row), block.cells(row)
                by = [None if marks is not None and not marks[row] else values[row] for values, marks in columns]
                if last is not None:
                    raise Problem(f'{at(self.source.path, line[0])}: there is a line behind the one without a total, which is the last of takings')
                if not line[1][self.places[-2]].strip() and by == [None] * width:
                    last = self.cell(count, line, -1, 0)
                else:
                    found.append((self.group(line, by), line[0]))
        if last is None:
            raise Problem(f'{at(self.source.path)}: the last line of takings is missing, which has no total and counts the sales without an amount')
        return found, last

    def read(self, table, sums):
        """The takings of the file, in the library's order."""
        rows, last = self.rows(table)
        width, found = len(self.places) - 2, sums.empty()
        ranks = sums.order.ranks_of([[row[place] for row, _ in rows] for place in range(width)]) if width else [()] * len(rows)
        ordered = sorted(zip(ranks, rows), key=lambda each: (each[0], each[1][1]))
        for (rank, _), (other, (_, line)) in zip(ordered, islice(ordered, 1, None)):
            if rank == other:
                raise Problem(f'{at(self.source.path, line)}: this group has a line already')
        if rows:
            found.table = rowkeeper.Table([array('q', column) for column in zip(*(row for _, (row, _) in ordered))])
        found.unpriced = last
        return found


class Adding(Run):
    """A run over sales, notices and subtotals."""

    def __init__(self, args, stack):
        super().__init__(args, stack, ('sales', 'notices', *['takings'] * len(args.add)), args.tolerance)
        self.amounts, self.names = Amounts(args.decimals), list(args.left[:-1])
        for name in (TOTAL, SALES):
            self.names.append(free(name, self.names, PREFIX))
        self.of_sales, self.of_notices = (self.source(*each) for each in ((args.sales, args.left), (args.notices, args.right)))
        self.kinds.share((self.of_sales, self.of_notices))
        self.missing = Missing(self.kinds.order)
        self.of_notices.beside, self.of_notices.read_beside = [self.of_notices.place(args.amount)], self.amount
        for place, path in enumerate(args.add):
            if any(same_file(path, other) for other in args.add[:place]):
                raise Problem(f'--add: {at(path)} is named twice, and would be added twice', BAD_USAGE)
        self.subtotals = [Subtotal(self.source(path, args.left[:-1], ordered=False, also=self.names), self.names, self.amounts)
                          for path in args.add]
        self.target = sink(args.output, [args.sales, args.notices, *args.add])
        self.sales = self.matched = 0
        self.first = self.wrong = None

    def amount(self, block, cells):
        """The amounts of a block's notices: values and marks. The first that cannot be read is told when both files have been found
        right else."""
        try:
            return self.amounts.column(cells, lambda row: at(self.of_notices.path, block.line(row), self.args.amount))
        except Problem as problem:
            self.wrong = self.wrong or problem
            return array('q', bytes(8 * len(cells))), None

    def priced(self, table):
        """The notices with their amounts as one column more."""
        if self.wrong is not None:
            raise self.wrong
        yield from table.pairs(later=True)

    def side(self, table, known):
        """A table on its way through a sorter."""
        side = Side(self.kinds.coded_order(), table, known)
        self.stack.enter_context(contextlib.closing(side.sorter))
        return side

    def sorted_sales(self, table):
        """The sales, sorted."""
        side = self.side(table, 1)
        for block, columns in table.pairs(later=True):
            side.take(columns, block.height)
            self.show('sorting')()
        yield from side.pairs(ROWS)

    def sorted_notices(self, table):
        """The notices, sorted, with their amounts."""
        side = self.side(table, 3)
        for block, (*columns, (values, marks)) in self.priced(table):
            side.take(columns, block.height, turned(values, 'Q', False), array('Q', marks or [1] * block.height))
            self.show('sorting')()
        for rows, columns in side.pairs(ROWS):
            yield rows, [*columns, (turned(rows.known[1], 'q', False), array('q', rows.known[2]))]

    def count(self, part, marks):
        """Counts sales, and keeps the number in its file of the first without a notice."""
        missing = marks.count(0)
        self.sales, self.matched = self.sales + len(marks), self.matched + len(marks) - missing
        if missing:
            rows = (row for row, mark in enumerate(marks, part.first) if not mark)
            first = min(map(part.block.known[0].__getitem__, rows)) if self.args.sort else part.block.number + next(rows)
            self.first = first if self.first is None else min(self.first, first)

    def add_all(self, sums, sales, notices):
        """Matches all sales and adds them. The notices are read to their end: an amount that cannot be read is told in any case."""
        args = self.args
        join = Join(sums.order, args.strategy, args.exact, self.kinds.distance(), carried=1)

        def found(part, values, marks, distances):
            """Adds a part of the sales."""
            takings, height, width = sums.empty(), join.output[0], join.output[1]
            with expected('takings'):
                takings.add(part.words, join.output[:2 + 2 * height * width])
            sums.take(takings)
            self.count(part, marks)
        Matching(join, Feed(sales), Feed(notices), Nothing(), found, missing=self.missing).run(self.show('adding'))
        for _ in notices:
            pass

    def line(self, table):
        """The line of the first sale without a notice; None if all have one."""
        rows = self.first
        for block in table.again() if rows is not None else ():
            if rows < block.height:
                return block.line(rows)
            rows -= block.height
        return None

    def texts(self, takings):
        """The lines of the output."""
        names = [sorted(kind.known) if isinstance(kind, Text) else None for kind in self.kinds.by]
        sign = self.of_sales.separator
        yield written(self.names, sign)
        for *by, total, sales in takings.rows():
            cells = [str(value) if known is None else known[value] for value, known in zip(by, names)]
            yield written([*cells, self.amounts.text(total), str(sales)], sign)
        yield written([''] * (len(names) + 1) + [str(takings.unpriced)], sign)

    def run(self):
        """Does it all; what is told at the end."""
        tables = self.judged()
        sums = Sums(self.kinds.coded_order())
        before = [each.read(table, sums) for each, table in zip(self.subtotals, tables[2:])]
        pairs = (self.sorted_sales(tables[0]), self.sorted_notices(tables[1])) if self.args.sort else \
            (tables[0].pairs(later=True), self.priced(tables[1]))
        self.add_all(sums, *pairs)
        own = sums.whole().unpriced
        said = counted(self.sales, self.matched, self.line(tables[0])) + self.missing.said(tables[1], self.kinds)
        for each in before:
            sums.take(each)
        takings = sums.whole()
        put(self.begun(self.target), self.texts(takings))
        said += f'; {own:,} of those with a notice ha{"s" if own == 1 else "ve"} no amount'
        if before:
            said += f'; with what was added {takings.unpriced:,} ha{"s" if takings.unpriced == 1 else "ve"} none'
        return said


def take(args):
    """Writes the takings; how many sales they leave out is told on standard error."""
    with contextlib.ExitStack() as stack:
        said = Adding(args, stack).run()
    say(said)
