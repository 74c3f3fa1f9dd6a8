"""Takings by group: the amounts of matched sales, summed and counted, frame by frame or as subtotals joined later."""
from array import array

from . import interface as c
from .guard import Guard
from .join import Matches, expect, options
from .lent import Output, lent
from .library import library
from .tables import Table, words_of


class Takings:
    """A table of takings: for each group with a sale that has an amount its total and its sale count, in group order, and beside it
    `unpriced`, how many matched sales have no amount. It begins empty. The options are those of the Join that matched the sales;
    `carried` of them, and the first carried column is the amount.

    In whatever order frames are added and takings joined, the table and the number come out the same. What is refused changes
    nothing: Refused, by the library's number, tells an amount, a count or a sum beyond its limits (15), frames that do not go
    together (5), or nothing carried (13). Threads that share takings wait for one another. If a call is interrupted, by Ctrl-C or by
    an exception of a signal's handler, it is not known whether it was counted: every later call raises Interrupted.

    >>> takings = Takings(by=1)
    >>> left = Table([array('q', [1, 1, 2]), array('q', [10, 20, 5])])
    >>> answers = array('q', [3, 2, 0, 100, 1, 150, 2, 0, 1, 1, 1, 1, 1, 0])
    >>> takings.add(left, answers)
    >>> takings.rows(), takings.unpriced
    ([(1, 250, 2)], 1)
    """

    def __init__(self, by=0, descending=(), nulls_last=(), carried=1, ranks=None):
        self._options = options(by=by, descending=descending, nulls_last=nulls_last, carried=carried, ranks=ranks)
        self._width = min(by, c.MOST_BY) + 2
        self._guard, self._taken = Guard(), (Table._seen(array('q', [0, self._width]).tobytes()), 0)

    @property
    def table(self):
        """The groups as a Table. A host that goes on with takings of its own sets it; calls judge it."""
        return self._taken[0]

    @table.setter
    def table(self, table):
        self._taken = table, self.unpriced

    @property
    def unpriced(self):
        """How many matched sales have no amount; a host may set it too."""
        return self._taken[1]

    @unpriced.setter
    def unpriced(self, number):
        self._taken = self.table, number

    def __len__(self):
        """How many groups."""
        return len(self.table)

    def rows(self):
        """The groups in order: the by-values, the total and the sale count of each."""
        return self.table.rows()

    def _take(self, call, more, *others):
        """Makes a call with room for so many rows more, and takes what it wrote for its own: table and number at once."""
        def keep(taken):
            """Goes on with what was written, if the call was not refused."""
            if not taken.refusal:
                size = 2 + 2 * taken.rows * self._width
                self._taken = Table._seen(output.words()[:size].tobytes()), taken.number
        with self._guard.lock, lent(self.table.words, 'table') as table:
            output = Output(2 + 2 * (len(self) + more) * self._width)
            taken = self._guard.made(lambda: call(self._options, *table, self.unpriced, *others, *output.lent()), keep)
        expect(taken.refusal)

    def add(self, left, answers):
        """Adds a left frame, as words, as a Table or as a list of columns, and the answers that a turn wrote for it: Matches, or words
        with or without the distance."""
        left, answers = words_of(left, 'left'), answers.words if isinstance(answers, Matches) else answers
        with lent(left, 'left') as frame, lent(answers, 'answers') as written:
            self._take(library().rowkeeper_takings_add, max(0, frame[1] - 2) // (2 * (self._width - 1)), *frame, *written)

    def join(self, other):
        """Joins the takings of another, which stay as they are."""
        if not isinstance(other, Takings):
            raise ValueError('takings are joined with takings')
        table, unpriced = other._taken
        with lent(table.words, 'other') as words:
            self._take(library().rowkeeper_takings_join, len(table), *words, unpriced)
