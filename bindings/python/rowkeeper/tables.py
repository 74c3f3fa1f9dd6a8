"""The calls over whole tables, without a join: which points lie inside which intervals, two sorted books as one, which notices of a book
stand, how large an area a join over two tables wants, where a table is cut for groups, and two tables joined whole, pair by pair."""
import collections
from array import array

from . import asof_join
from . import interface as c
from .columns import Column
from .join import Refused, expect, number_or_bad, options
from .lent import Output, in_place, kept, lent, untouched
from .library import library

# The pairs that the output of one call of spans has room for: those of 16 intervals with any points of a frame.
PAIRS = 16 * c.MOST_ROWS
# The sides that a table can be of, in the order of the numbers that the library has for them.
SIDES = ('left', 'right')

Spans = collections.namedtuple('Spans', 'intervals points')
Spans.__doc__ = """Which points lie inside which intervals, in two columns of 64-bit numbers: the row of an interval, and the row of a point
that lies inside it."""
Standing = collections.namedtuple('Standing', 'stands last')
Standing.__doc__ = """For each row of a book whether it stands (an array of bool of numpy if it is there, else bytes of 0 and 1), and, if it does
not, the row that is the last of its group and key, its own if that row withdraws; -1 if it stands, and if its key or a by-value is
null."""

Plan = collections.namedtuple('Plan', 'rows turns rights')
Plan.__doc__ = """What a join over two tables comes to if all left frames wait and a right frame is handed in when a turn wants one: the most
right rows held at once, the turn calls up to the last frame written, and the right frames taken."""

Answers = collections.namedtuple('Answers', 'rows carried distances')
Answers.__doc__ = """What `join_cut` tells of each left row: `rows`, the place of the right row that it takes, or -1; `carried`, a Column for each
column that right rows carry, in which a row without a match is null too; `distances`, how far the two keys are apart, -1 where there is
no match or the distance is above 2^63 - 1, or None where they are not told."""


class Table:
    """A table of whole numbers in the library's words. It is made from columns, the by-columns in order, the key and what is carried:
    anything with the buffer protocol of whole numbers, an array of numpy, or a Column, which can have nulls. Times of numpy are taken as
    the whole numbers that they are stored as. Its words cannot be altered, so a call that is handed a Table copies nothing.

    >>> table = Table([array('q', [10, 20]), Column(array('q', [1800, 0]), b'\\1\\0')])
    >>> list(table.words), table.rows()
    ([2, 2, 10, 1800, 20, 0, 1, 1, 1, 0], [(10, 1800), (20, None)])
    """

    def __init__(self, columns):
        if not isinstance(columns, (list, tuple)) or not columns:
            raise ValueError('a table is made from a list of columns, and has a key at least')
        tools, names = asof_join.tools(), [f'column {place}' for place in range(len(columns))]
        found = [tools.signed(*pair) for pair in zip(columns, names)]
        for name, (values, _) in zip(names, found):
            if len(values) != len(found[0][0]):
                raise ValueError(f'{name} has {len(values)} rows, and column 0 has {len(found[0][0])}')
        self._see(tools.table_words(found).tobytes())

    def _see(self, words):
        """Takes the words of a table, which nobody alters, for its own."""
        self.words = memoryview(words).cast('B').cast('q')
        self.columns = self.words[1]

    @classmethod
    def _seen(cls, words):
        """A table in words that the library wrote, or that were kept."""
        table = cls.__new__(cls)
        table._see(words)
        return table

    def __len__(self):
        """How many rows."""
        return self.words[0]

    def column(self, place):
        """A column, from 0: its values and which of them are there, or None if all are. Both are copies."""
        if not 0 <= place < self.columns:
            raise IndexError(f'the table has {self.columns} columns, and {place} is none of them')
        return Column(*asof_join.tools().cells_of(self.words, place))

    def rows(self):
        """The rows as tuples; None is a null."""
        cells = 2 + len(self) * self.columns
        flat = iter([value if mark else None for value, mark in zip(self.words[2:cells], self.words[cells:])])
        return list(zip(*[flat] * self.columns))

    def frames(self):
        """The table as frames of a join, of 4,096 rows each, save the last."""
        cells, most = len(self) * self.columns, c.MOST_ROWS * self.columns
        for first in range(0, cells, most):
            end = min(cells, first + most)
            frame = array('q', [(end - first) // self.columns, self.columns])
            for start in (2, 2 + cells):
                frame.frombytes(self.words[start + first:start + end].cast('B'))
            yield frame


def words_of(table, what='table'):
    """The words of a table: those of a Table, of a list of columns, or any with the buffer protocol, which are copied. Nobody alters
    them any more, so what is judged here and what the library judges is the same."""
    if isinstance(table, (list, tuple)):
        table = Table(table)
    return kept(table.words if isinstance(table, Table) else table, what)


def width_of(words):
    """How many columns the words of a table say that it has; 0 where they are too few to say it."""
    return words[1] if len(words) >= 2 else 0


def judged_options(words, by, descending, nulls_last, carried, ranks, **how):
    """The options of a call over tables. Where nothing is said of carried columns, they are all that a table's words have behind the
    key; words that are no table are refused by the call."""
    if carried is None:
        carried = max(0, width_of(words) - by - 1)
    return options(by=by, descending=descending, nulls_last=nulls_last, carried=carried, ranks=ranks, **how)


def merge(house, festival, by=0, descending=(), nulls_last=(), carried=None, ranks=None):
    """Merges two sorted books into one sorted Table: every row of both, in the order that each book has them, and of rows that compare
    equal the house's first, whatever they carry. A book is a Table, a list of columns, or a table's words by the buffer protocol.
    Rows are compared by `by` by-columns and the key, as those of a Join are; the columns behind these, up to 8, are carried, and
    the options are named as a Join names them.

    ValueError says what is wrong with a column; Refused, by the library's number, what is wrong with options, with words, or that a
    book is not sorted (14).

    >>> merge([array('q', [10, 30]), array('q', [1800, 2500])], [array('q', [20]), array('q', [2200])]).rows()
    [(10, 1800), (20, 2200), (30, 2500)]
    """
    house, festival = words_of(house, 'house'), words_of(festival, 'festival')
    with lent(house, 'house') as one, lent(festival, 'festival') as other:
        given = judged_options(house, by, descending, nulls_last, carried, ranks)
        output = Output(max(0, one[1] + other[1] - 2))
        expect(library().rowkeeper_merge(given, *one, *other, *output.lent()).refusal)
    return Table._seen(output.words())


def standing(book, withdrawn, by=0, descending=(), nulls_last=(), carried=None, ranks=None):
    """Tells which notices of a sorted book stand, as Standing. A notice is corrected by a later one of the same group and key: the last
    of each stands, unless its carried column `withdrawn`, from 0, is 1. Books and options are those of `merge`; a column that is not
    there is refused by 13.

    A notice at minute 10, its correction, and one at minute 20 that withdraws itself:

    >>> found = standing([array('q', [10, 10, 20]), array('q', [0, 0, 1])], 0)
    >>> list(map(int, found.stands)), list(map(int, found.last))
    ([0, 1, 0], [1, -1, 2])
    """
    book = words_of(book, 'book')
    with lent(book, 'book') as words:
        given = judged_options(book, by, descending, nulls_last, carried, ranks)
        width = min(given.by, c.MOST_BY) + 1 + min(given.carried, c.MOST_CARRIED)
        output = Output(2 + 4 * (words[1] // (2 * width)))
        written = library().rowkeeper_standing(given, *words, number_or_bad(withdrawn), *output.lent())
        expect(written.refusal)
    return Standing(*asof_join.tools().notices_of(output.words()[:2 + 4 * written.rows]))


def cut(table, boundaries, side='left', by=None, descending=(), nulls_last=(), carried=None, ranks=None):
    """The places, in rows, at which a sorted table is cut for each of at most 16 boundary groups: before its first row whose group is
    not less than the boundary in the declared order, or behind its last row. A table of `side` 'left' has `by` by-columns and the
    key, one of 'right' may carry columns behind these. Boundaries are a Table, a list of columns or words, as the table is, of the
    by-columns alone: one group a row, ascending strictly, none null. Where `by` is None it is how many columns they have.

    Both tables of a join cut at these places, each pair of parts joined by itself and the answers appended, with the right rows of
    the parts before added to each right number, are the answers of the uncut tables.

    ValueError says what is wrong with a column or the side; Refused, by the library's number, what is wrong with options or words,
    that the table is not sorted (14), or that the boundaries are too many, null or out of order (18).

    Five sales of performances 1, 1, 2, 4 and 4, cut at 2 and 3:

    >>> cut([array('q', [1, 1, 2, 4, 4]), array('q', [10, 20, 5, 7, 9])], [array('q', [2, 3])])
    [2, 3]
    """
    if side not in SIDES:
        raise ValueError(f'side {side!r} is none of {", ".join(SIDES)}')
    table, boundaries = words_of(table), words_of(boundaries, 'boundaries')
    with lent(table, 'table') as rows, lent(boundaries, 'boundaries') as groups:
        by = width_of(boundaries) if by is None else by
        given = judged_options(table, by, descending, nulls_last, 0 if side == 'left' and carried is None else carried, ranks)
        output = Output(max(2, 2 + (groups[1] - 2) // max(1, min(by, c.MOST_BY))))
        written = library().rowkeeper_cut(given, SIDES.index(side), *rows, *groups, *output.lent())
        expect(written.refusal)
    return output.words()[2:2 + written.rows].tolist()


def answers_of(words, distance):
    """The answers that a call wrote as one table, by columns."""
    tools, end = asof_join.tools(), words[1] - bool(distance)
    carried = [Column(*tools.cells_of(words, place)) for place in range(1, end)]
    return Answers(tools.numbers_of(words, 0), carried, tools.numbers_of(words, 0, end) if distance else None)


def no_boundaries(by, left):
    """A frame of no groups, of so many by-columns, or of those that the left table has before its key. A number that no word can be is
    refused with the options."""
    by = max(0, width_of(left) - 1) if by is None else by
    return array('q', [0, by if 0 <= by < 2**63 else 0])


def joined_into(output, given, one, other, groups, left_words, right_words):
    """Makes the call that joins two tables which are lent. Where nothing is said of an area, it is long enough for any pair of their
    parts: no more right rows are held than there are, and left rows in frames have 2 words more for each 4,096 of them. The two areas
    are the same words, since the call only measures them."""
    left_words = one[1] + one[1] // c.MOST_ROWS if left_words is None else left_words
    right_words = other[1] if right_words is None else right_words
    if min(left_words, right_words) < 0:
        raise ValueError(f'areas of {left_words} and {right_words} words: none has fewer than 0')
    with in_place(untouched(max(left_words, right_words)), 'areas') as (area, _):
        return library().rowkeeper_join_cut(given, *one, *other, *groups, area, left_words, area, right_words, *output.lent())


def join_cut(left, right, boundaries=None, by=None, strategy='backward', allow_exact_matches=True, tolerance=None, descending=(),
             nulls_last=(), carried=None, ranks=None, distance=False, left_words=None, right_words=None):
    """Joins two sorted tables whole, in one call, cut at up to 16 boundary groups or at none: each pair of parts by itself, the answers
    as one. These are the Answers of the uncut tables, whatever the boundaries, with the places of right rows in the whole right table.
    Tables, boundaries and the order are those of `cut`, the other options those of a Join. Where `by` is None it is how many columns
    the boundaries have, or without boundaries those of the left table before its key.

    The call judges whether areas of `left_words` and `right_words` words are enough to join the pairs one after the other, by the `plan`
    of each, and uses no word of them: they take no memory. Where no number is said, it is one that is enough.

    ValueError says what is wrong with a column; Refused, by the library's number, what is wrong with options or words, that a table is
    not sorted (14), that the boundaries are too many, null or out of order (18), or that an area is too short (6).

    >>> sales = [array('q', [1, 1, 2, 4]), array('q', [10, 20, 5, 7])]
    >>> notices = [array('q', [1, 2, 4]), array('q', [15, 1, 9]), array('q', [1800, 2200, 2500])]
    >>> found = join_cut(sales, notices, [array('q', [2, 3])], distance=True)
    >>> [list(map(int, each)) for each in (found.rows, found.carried[0].values, found.distances)]
    [[-1, 0, 1, -1], [0, 1800, 2200, 0], [-1, 5, 4, -1]]
    """
    left, right = words_of(left, 'left'), words_of(right, 'right')
    with lent(left, 'left') as one, lent(right, 'right') as other:
        boundaries = no_boundaries(by, left) if boundaries is None else words_of(boundaries, 'boundaries')
        with lent(boundaries, 'boundaries') as groups:
            by = width_of(boundaries) if by is None else by
            given = judged_options(right, by, descending, nulls_last, carried, ranks, strategy=strategy,
                                   allow_exact_matches=allow_exact_matches, tolerance=tolerance, distance=distance)
            width = 1 + min(given.carried, c.MOST_CARRIED) + given.with_distance
            output = Output(2 + 2 * width * (one[1] // (2 * (min(given.by, c.MOST_BY) + 1))))
            written = joined_into(output, given, one, other, groups, left_words, right_words)
            expect(written.refusal)
    return answers_of(output.words()[:2 + 2 * written.rows * width], distance)


def heights_of(heights, words):
    """Heights as words: those that are given, or full frames of all rows and one of those that are left. Words that say they are more
    rows than there is room for are no table, and are refused."""
    if heights is None:
        rows = min(words[0], len(words) // 2) if len(words) else 0
        heights = [c.MOST_ROWS] * (rows // c.MOST_ROWS) + [rows % c.MOST_ROWS] * (rows % c.MOST_ROWS > 0)
    return array('q', heights) if isinstance(heights, (list, tuple)) else heights


def plan(left, right, left_heights=None, right_heights=None, by=0, strategy='backward', allow_exact_matches=True, descending=(),
         nulls_last=(), carried=None, ranks=None):
    """Works out, as a Plan, how many right rows a join over two sorted tables holds at most, with no match made. A join with
    `right_rows` of so many refuses no right frame by 6; one with a row less does, unless it is 0. Tables and options are those of
    `merge` and of a Join; the left table has no carried columns. The heights are the rows of each frame, in order; where none are given,
    frames are full. Refused, by 17, tells heights that are no frames' or do not add up to their table.

    >>> plan([array('q', [5, 15, 20, 25])], [array('q', [10, 20, 20, 30, 40])], [2, 2], [2, 2, 1])
    Plan(rows=4, turns=4, rights=2)
    """
    left, right = words_of(left, 'left'), words_of(right, 'right')
    left_heights, right_heights = heights_of(left_heights, left), heights_of(right_heights, right)
    with lent(left, 'left') as one, lent(right, 'right') as other:
        with lent(left_heights, 'left_heights') as these, lent(right_heights, 'right_heights') as those:
            given = judged_options(right, by, descending, nulls_last, carried, ranks, strategy=strategy,
                                   allow_exact_matches=allow_exact_matches)
            planned = library().rowkeeper_plan(given, *one, *other, *these, *those)
            expect(planned.refusal)
    return Plan(planned.rows, planned.turns, planned.rights)


class Covering:
    """The points in frames, and intervals that are handed in beside each of them, so many at once that their pairs have room."""

    def __init__(self, points, bounds, flags):
        self.tools, self.bounds, self.flags = asof_join.tools(), bounds, flags
        self.frames = [(first, self.tools.table_words([(points[first:first + c.MOST_ROWS], None)]))
                       for first in range(0, len(points), c.MOST_ROWS)]
        self.output = Output(2 + 4 * PAIRS)

    def pairs(self, first, height):
        """The pairs of so many intervals from one on, by the intervals. Refused by 6 if there are too many."""
        part = [(values[first:first + height], None if valid is None else valid[first:first + height]) for values, valid in self.bounds]
        found = []
        with in_place(self.tools.table_words(part), 'intervals') as intervals:
            for start, frame in self.frames:
                with in_place(frame, 'points') as points:
                    written = library().rowkeeper_spans(*points, *intervals, *self.flags, *self.output.lent())
                expect(written.refusal)
                if written.rows:
                    found.append(self.tools.pairs_of(self.output.words()[2:2 + 2 * written.rows], first, start))
        return self.tools.by_intervals(found)

    def all(self):
        """The pairs of all intervals. Where they find no room, half as many intervals are tried: 16 always do."""
        found, first, height = [], 0, c.MOST_ROWS
        while first < len(self.bounds[0][0]):
            try:
                found.append(self.pairs(first, height))
                first, height = first + height, min(c.MOST_ROWS, 2 * height)
            except Refused as refused:
                if refused.number != c.NO_ROOM:
                    raise
                height //= 2
        return self.tools.joined(found)


def spans(points, lower, upper, lower_inclusive=True, upper_inclusive=True):
    """Lists which points lie inside the bounds of which intervals, as a pass is good for the performances between two minutes: Spans,
    interval by interval, and for each in the points' order. Points ascend, and none is null; intervals are in any order, and one
    with a null bound has nothing inside. The flags say whether a bound is itself inside. Columns are of any length and kind that
    `asof` takes.

    ValueError, before anything is listed, says what is wrong with a column.

    >>> found = spans(array('q', [1, 10, 20, 30]), array('q', [10]), array('q', [30]), upper_inclusive=False)
    >>> list(zip(map(int, found.intervals), map(int, found.points)))
    [(0, 1), (0, 2)]
    """
    tools = asof_join.tools()
    (points, there), *bounds = tools.alike([points, lower, upper], ['points', 'lower', 'upper'])
    if len(bounds[0][0]) != len(bounds[1][0]):
        raise ValueError(f'upper has {len(bounds[1][0])} rows, and lower has {len(bounds[0][0])}')
    if there is not None and not all(there):
        raise ValueError(f'points has a null: row {list(there).index(0)}')
    tools.check_order(points, None, None, 'points')
    return Spans(*Covering(points, bounds, (bool(lower_inclusive), bool(upper_inclusive))).all())
