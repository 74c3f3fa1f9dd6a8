"""`rowkeeper join` from its arguments on: both files are opened and judged to their ends before anything is written."""
import contextlib
import sys

from .arguments import PREFIX
from .clustered import Answered, connected, numbers
from .explain import explanation
from .feed import Feed, Held, streamed
from .groups import Missing
from .joined import Join
from .pricing import ROWS, Layout, Matching, Priced
from .problem import UNMATCHED, Problem, say
from .run import Run
from .sink import sink
from .sorting import Sorting


class Pricing(Run):
    """A run over sales and notices."""

    def __init__(self, args, stack, target=None):
        """`target` takes what is written, in the place of what the arguments name."""
        super().__init__(args, stack, ('sales', 'notices'), args.tolerance, args.stream)
        self.connection = args.cluster and stack.enter_context(connected(args.cluster))
        self.sales, self.notices = (self.source(*each) for each in ((args.sales, args.left), (args.notices, args.right)))
        self.kinds.share((self.sales, self.notices))
        self.priced = None
        self.missing, self.table = None if args.stream else Missing(self.kinds.order), None
        self.layout = Layout(self.sales, self.notices, args.columns, args.prefix or PREFIX, args.distance)
        self.target = target or sink(args.output, [args.sales, args.notices], whole=args.fail_unmatched and not args.stream)

    def join(self):
        """The join, opened when it is known what the columns hold."""
        args = self.args
        return Join(self.kinds.coded_order(), args.strategy, args.exact, self.kinds.distance(), args.check,
                    distance=args.distance is not None)

    def begin(self):
        """The output, when its first line is due."""
        return Priced(self.begun(self.target), self.layout, self.args.matched_only)

    def in_step(self, sales, notices, join=None):
        """Matches and writes at once: both tables are sorted."""
        join, held = join or self.join(), Held(self.layout.texts)
        self.priced = self.begin()
        self.matching = Matching(join, Feed(sales), Feed(notices), held, self.priced.part(held, self.args.stream),
                                 missing=self.missing)
        self.matching.run(self.show('writing'))

    def answered(self, *tables):
        """What the workers of the cluster answer, in the place of a join."""
        found = numbers(self.connection, tables, self.kinds.coded_order(), self.args, self.kinds.distance())
        return Answered(found)

    def by_sorting(self, sales, notices):
        """Sorts both tables, matches, and writes the sales in their own order."""
        order, join = self.kinds.coded_order(), self.join()
        sorting = self.stack.enter_context(contextlib.closing(Sorting(order, self.layout, (sales, notices))))
        show = self.show('sorting')
        sorting.take_sales(sales.pairs(later=True), show)
        sorting.take_notices(notices.pairs(), show)
        feeds = [Feed(each.pairs(ROWS)) for each in (sorting.sales, sorting.notices)]
        self.matching = Matching(join, *feeds, sorting.held, sorting.found, missing=self.missing)
        self.matching.run(self.show('matching'))
        self.priced = self.begin()
        sorting.write(sales.again(), self.priced, self.show('writing'))

    def by_streaming(self):
        """Writes rows as soon as they are matched. With the check on, the rest of the notices is read too: one that is out of order
        might have been a sale's notice."""
        pairs = [streamed(each, each.next(), self.show('writing')) for each in (self.sales, self.notices)]
        self.in_step(*pairs)
        while self.args.check and next(pairs[1], None):
            pass

    def stream(self):
        """Streams; a fault is told with how many rows were already written."""
        try:
            self.by_streaming()
        except Problem as problem:
            rows = self.priced.sales if self.priced is not None and self.args.output is None else 0
            if rows:
                raise Problem(f'{problem}; {rows:,} row{" was" if rows == 1 else "s were"} already written: do not use them', problem.status) from None
            raise

    def run(self):
        """Does it all."""
        if self.args.stream:
            self.stream()
        elif self.args.sort:
            sales, self.table = self.judged()
            self.by_sorting(sales, self.table)
        else:
            sales, notices = self.judged()
            self.table = notices
            self.in_step(sales.pairs(), notices.pairs(later=True), self.connection and self.answered(sales, notices))
        self.said = self.priced.said() + ('' if self.table is None else self.missing.said(self.table, self.kinds))
        if self.args.fail_unmatched and self.priced.matched < self.priced.sales:
            raise Problem(self.said, UNMATCHED)


def price(args):
    """Prices the sales; what was done is told on standard error."""
    with contextlib.ExitStack() as stack:
        pricing = Pricing(args, stack)
        pricing.run()
    if args.explain and sys.stderr is not None:
        sys.stderr.write(explanation(args, pricing))
    say(pricing.said)
