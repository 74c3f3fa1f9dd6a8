"""The calls over tables against plain readings, with numpy and without it."""
import doctest
import gc
import random
import unittest
from array import array
from unittest import mock

from rowkeeper import Column, Join, Plan, Refused, Table, asof_join, merge, plain, plan, spans, standing, tables
from rowkeeper.interface import (BAD_COLUMNS, BAD_FRAME, BAD_HEIGHTS, BAD_OPTIONS, BAD_RANKS, MOST_ROWS, NO_ROOM, REFUSALS,
                                 TOO_MANY_CARRIED, UNKNOWN_CODE, UNSORTED, WANTS_RIGHT, WROTE)

try:
    import numpy

    from rowkeeper import arrays
    KINDS = (plain, arrays)
except ImportError:
    numpy, KINDS = None, (plain,)

BOOKS, POINTS = 500, 400
# Numbers at the ends of the 64-bit range.
ENDS = (-2**63, -2**63 + 1, -1, 0, 2**63 - 2, 2**63 - 1)


def using(kind):
    """Columns are worked on by this module."""
    return mock.patch.object(asof_join, 'tools', lambda: kind)


def column(cells):
    """A column of cells, None for a null, which has another number than 0 beneath it."""
    values = array('q', [9 if cell is None else cell for cell in cells])
    return Column(values, bytes(cell is not None for cell in cells)) if None in cells else values


def words(rows, width):
    """Rows of one width as the words of a table; None is a null."""
    cells = [cell for row in rows for cell in row]
    return array('q', [len(rows), width, *(cell or 0 for cell in cells), *(cell is not None for cell in cells)])


class Books:
    """Two sorted books at random, with the options that say how they are sorted."""

    def __init__(self, r):
        self.by, self.carried = r.choice((0, 0, 1, 1, 2, 4)), r.choice((1, 1, 2, 8))
        self.descending, self.nulls_last = ([r.random() < 0.4 for _ in range(self.by)] for _ in range(2))
        self.ranks = (r.randrange(self.by), r.sample(range(3), 3)) if self.by and r.random() < 0.4 else None
        self.keys = r.choice((range(3), range(20), ENDS))
        self.house, self.festival = self.rows(r), self.rows(r)
        self.options = {'by': self.by, 'descending': self.descending, 'nulls_last': self.nulls_last, 'ranks': self.ranks}

    def rank(self, row):
        """What a row is sorted by."""
        ranks = []
        for place, cell in enumerate(row[:self.by]):
            if cell is not None and self.ranks and place == self.ranks[0]:
                cell = self.ranks[1].index(cell)
            side = 0 if cell is not None else 1 if self.nulls_last[place] else -1
            ranks.append((side, 0 if cell is None else -cell if self.descending[place] else cell))
        key = row[self.by]
        return ranks, key is not None, key or 0

    def rows(self, r):
        """A sorted book; what it carries is told apart by its numbers, and a quarter of it withdraws."""
        cell = lambda values: None if r.random() < 0.1 else r.choice(values)
        rows = [(*(cell(range(3)) for _ in range(self.by)), cell(self.keys), *(cell((1, 0, -1, 2**62)) for _ in range(self.carried)))
                for _ in range(r.choice((0, 1, 8, 40)))]
        return sorted(rows, key=self.rank)

    def book(self, rows, r):
        """A book in one of the ways in which it can be handed in."""
        width = self.by + 1 + self.carried
        columns = [column([row[place] for row in rows]) for place in range(width)]
        return r.choice((lambda: columns, lambda: Table(columns), lambda: words(rows, width), lambda: bytes_of(rows, width)))()

    def standing(self):
        """Which rows of the house's book stand, and the last row for each that does not, by a dictionary of last rows."""
        last = {row[:self.by + 1]: number for number, row in enumerate(self.house)}
        found = []
        for number, row in enumerate(self.house):
            kind = row[:self.by + 1]
            if None in kind:
                found.append((False, -1))
            else:
                stands = last[kind] == number and row[-1] != 1
                found.append((stands, -1 if stands else last[kind]))
        return found


def bytes_of(rows, width):
    """A table in words that cannot be written."""
    return memoryview(bytes(words(rows, width))).cast('q')


class Case(unittest.TestCase):
    """What a refused call raises."""

    def refused(self, number, call, *given, **more):
        """A call must be refused by this number."""
        with self.assertRaises(Refused) as caught:
            call(*given, **more)
        self.assertEqual((caught.exception.number, caught.exception.text), (number, REFUSALS[number]))


class TwoBooks(Case):
    """merge and standing."""

    def test_merge(self):
        """Random books, in every way of handing them in, against a sort that keeps equal rows in their order."""
        for kind in KINDS:
            rows = 0
            for seed in range(BOOKS):
                r = random.Random(seed)
                books = Books(r)
                with self.subTest(kind.__name__, seed=seed), using(kind):
                    merged = merge(books.book(books.house, r), books.book(books.festival, r), **books.options)
                    wanted = sorted(books.house + books.festival, key=books.rank)
                    self.assertEqual((merged.rows(), len(merged)), (wanted, len(wanted)))
                    self.assertEqual(merged.columns, books.by + 1 + books.carried)
                    rows += len(wanted)
            self.assertGreater(rows, 5 * BOOKS)

    def test_standing(self):
        """Random books against a dictionary of last rows; the rows that stand are a book again."""
        for kind in KINDS:
            kept = left_out = 0
            for seed in range(BOOKS):
                r = random.Random(seed)
                books = Books(r)
                with self.subTest(kind.__name__, seed=seed), using(kind):
                    found = standing(books.book(books.house, r), books.carried - 1, **books.options)
                    self.assertEqual([(bool(stands), int(last)) for stands, last in zip(*found)], books.standing())
                    again = words([row for row, stands in zip(books.house, found.stands) if stands], books.by + 1 + books.carried)
                    self.assertTrue(all(standing(again, books.carried - 1, **books.options).stands))
                kept, left_out = kept + sum(found.stands), left_out + sum(1 for last in found.last if last >= 0)
            self.assertGreater(min(kept, left_out), BOOKS)

    def test_long_books(self):
        """Books of more rows than a frame, and the merged one handed on to a join in frames."""
        house, festival = ([(each * step % 9973, each) for each in range(3 * MOST_ROWS)] for step in (7, 5))
        house.sort()
        festival.sort()
        for kind in KINDS:
            with using(kind):
                merged = merge(*([column(cells) for cells in zip(*book)] for book in (house, festival)))
                self.assertEqual(merged.rows(), sorted(house + festival, key=lambda row: row[0]))
                join, frames = Join(carried=1, right_rows=len(merged)), list(merged.frames())
                self.assertEqual([frame[0] for frame in frames], [MOST_ROWS] * 6)
                for frame in frames:
                    join.right(frame)
                join.end_right()
                join.left(words([(0,), (5000,), (20000,)], 1))
                rows = merged.rows()
                last = lambda key: max(number for number, row in enumerate(rows) if row[0] <= key)
                self.assertEqual(join.turn().matches.rows(), [(last(key), rows[last(key)][1]) for key in (0, 5000, 20000)])

    def test_refused(self):
        """What the library refuses, each by its number, and in its order: options, words, codes, the place, the order."""
        good, falling = [column([1, 2]), column([5, 6])], [column([2, 1]), column([5, 6])]
        for call in (lambda book, **more: merge(good, book, **more), lambda book, **more: merge(book, good, **more),
                     lambda book, **more: standing(book, 0, **more)):
            self.refused(UNSORTED, call, falling)
            self.refused(BAD_OPTIONS, call, good, by=5)
            self.refused(BAD_OPTIONS, call, good, by=-1)
            self.refused(TOO_MANY_CARRIED, call, good, carried=9)
            self.refused(BAD_RANKS, call, good, by=1, ranks=(1, [1]))
            self.refused(BAD_FRAME, call, good, carried=2)
            for bad in ([], [1], [0, 0], [2**62, 2], [1, 2, 3], [1, 2, 5, 5, 1, 2], [1, 2, 5, 5, 0, 1], [-1, 2]):
                self.refused(BAD_FRAME, call, array('q', bad), carried=1)
        self.refused(BAD_FRAME, merge, good, [column([1])])
        self.refused(BAD_FRAME, standing, good, 0, by=3)
        for place in (1, -1, 2**64):
            self.refused(BAD_COLUMNS, standing, good, place)
            self.refused(BAD_COLUMNS, standing, falling, place)
        self.refused(BAD_COLUMNS, standing, good[:1], 0)

    def test_unknown_code(self):
        """A value that the list of ranks lacks, in either book; nulls are on every list."""
        known, other = [column([None, 30, 10]), column([1, 1, 1])], [column([20]), column([1])]
        options = {'by': 1, 'ranks': (0, [30, 10])}
        self.assertEqual(merge(known, known, **options).rows()[1:4], [(None, 1), (30, 1), (30, 1)])
        self.refused(UNKNOWN_CODE, merge, known, other, **options)
        self.refused(UNKNOWN_CODE, merge, other, known, **options)
        self.refused(UNKNOWN_CODE, standing, [*other, column([0])], 0, **options)

    def test_bad_books(self):
        """What is no book is a ValueError of one line, before the library sees it."""
        good = [array('q', [1])]
        for kind in KINDS:
            for bad, said in (([], 'has a key at least'), ([array('q', [1]), array('q')], 'column 1 has 0 rows, and column 0 has 1'),
                              ([array('d', [1.0])], 'column 0'), ([array('Q', [2**63])], 'column 0 has numbers above 64 bits with a sign'),
                              ([Column(array('q', [1]), b'')], 'the validity of column 0'), (None, 'cannot be lent'),
                              (array('i', [1, 1]), '64-bit whole numbers'), (b'12345678', '64-bit whole numbers')):
                for call in (lambda: merge(good, bad), lambda: merge(bad, good), lambda: standing(bad, 0)):
                    with self.subTest(said), using(kind), self.assertRaisesRegex(ValueError, said) as caught:
                        call()
                    self.assertNotIn('\n', str(caught.exception))
            with self.assertRaisesRegex(ValueError, 'descending'):
                merge(good, good, descending=[True] * 5)

    def test_columns(self):
        """The columns of a table, and that they stay when the table goes."""
        for kind in KINDS:
            with using(kind):
                table = merge([column([1, 3]), column([None, 5])], [column([2]), column([7])])
                keys, carried = table.column(0), table.column(1)
                for place in (2, -1):
                    self.assertRaises(IndexError, table.column, place)
                del table
                gc.collect()
                self.assertEqual((list(keys.values), keys.valid), ([1, 2, 3], None))
                self.assertEqual((list(carried.values), list(map(bool, carried.valid))), ([0, 7, 5], [False, True, True]))
                self.assertEqual(Table([keys, carried]).rows(), [(1, None), (2, 7), (3, 5)])

    @unittest.skipUnless(numpy, 'numpy is not there')
    def test_numpy(self):
        """Arrays of numpy: other widths, masks, times, those that do not lie in one piece."""
        keys = numpy.array([1, 9, 2, 9, 3], dtype='i4')[::2]
        times = numpy.array(['2026-01-01', 'NaT', '2026-01-03'], dtype='M8[D]')
        masked = numpy.ma.array([7, 8, 9], mask=[False, True, False])
        self.assertEqual(Table([keys, times, masked]).rows(), [(1, 20454, 7), (2, None, None), (3, 20456, 9)])
        found = standing(numpy.array([2, 2, 5, 0, 5, 1, 1, 1, 1, 1]), 0)
        self.assertEqual((found.stands.dtype, found.stands.tolist(), found.last.tolist()), (bool, [False, False], [1, 1]))


class Passes(Case):
    """spans."""

    def test_random(self):
        """Random points and intervals, every flag, nulls and ends, against a double loop."""
        for kind in KINDS:
            listed = 0
            for seed in range(POINTS):
                r = random.Random(seed)
                numbers, count = r.choice((range(5), range(50), ENDS)), r.choice((0, 1, 9, 40))
                points = sorted(r.choice(numbers) for _ in range(count))
                cell = lambda: None if r.random() < 0.1 else r.choice(numbers)
                passes = [(cell(), cell()) for _ in range(r.choice((0, 1, 20)))]
                lower, upper = r.random() < 0.5, r.random() < 0.5
                with self.subTest(kind.__name__, seed=seed), using(kind):
                    found = spans(array('q', points), column([each[0] for each in passes]), column([each[1] for each in passes]), lower, upper)
                    wanted = inside(points, passes, lower, upper)
                    self.assertEqual([tuple(map(int, pair)) for pair in zip(*found)], wanted)
                listed += len(wanted)
            self.assertGreater(listed, 10 * POINTS)

    def test_many(self):
        """More points and intervals than frames have rows, and more pairs than an output has room for: none is missing, and they come
        interval by interval."""
        points, passes = list(range(2 * MOST_ROWS + 100)), [(0, 10), (MOST_ROWS - 2, MOST_ROWS + 2), (7, 3 * MOST_ROWS)]
        passes = passes * 8 + [(5 * MOST_ROWS, 6 * MOST_ROWS)] * MOST_ROWS + passes
        wanted = [(number, point) for number, (first, last) in enumerate(passes) for point in range(first, min(last + 1, len(points)))]
        for kind in KINDS:
            with using(kind):
                found = spans(array('q', points), *(array('q', each) for each in zip(*passes)))
                self.assertEqual(list(zip(map(int, found.intervals), map(int, found.points))), wanted)
        self.assertGreater(len(wanted), tables.PAIRS)

    def test_bad_columns(self):
        """What is wrong with a column is told in one line, before anything is listed."""
        some = array('q', [1, 2])
        for kind in KINDS:
            for given, said in (((array('q', [1, 3, 2]), some, some), 'points is not sorted: row 2 has a smaller key than row 1'),
                                ((column([1, None, 2]), some, some), 'points has a null: row 1'),
                                ((some, some, array('q', [1])), 'upper has 1 rows, and lower has 2'),
                                ((array('d', [1.0]), some, some), 'points'), ((some, array('d', [1.0]), some), 'lower'),
                                ((some, some, None), 'upper'), ((array('Q', [2**63]), some, some), 'above 64 bits with a sign')):
                with self.subTest(said), using(kind), self.assertRaisesRegex(ValueError, said) as caught:
                    spans(*given)
                self.assertNotIn('\n', str(caught.exception))

    def test_high_numbers(self):
        """Numbers of 64 bits without a sign, above those with one, in all three columns."""
        for kind in KINDS:
            with using(kind):
                found = spans(array('Q', [1, 2**63, 2**64 - 1]), array('Q', [0, 2]), array('Q', [5, 2**64 - 1]))
                self.assertEqual([tuple(map(int, pair)) for pair in zip(*found)], [(0, 0), (1, 1), (1, 2)])

    @unittest.skipUnless(numpy, 'numpy is not there')
    def test_times(self):
        """Times of one kind and unit; others are told."""
        days = numpy.array(['2026-01-01', '2026-01-05'], dtype='M8[D]')
        self.assertEqual([each.tolist() for each in spans(days, days[:1], days[1:], upper_inclusive=False)], [[0], [0]])
        with self.assertRaisesRegex(ValueError, 'times of one kind and unit'):
            spans(days, days, days.astype('M8[s]'))


def inside(points, passes, lower, upper):
    """The pairs of an interval and a point inside it."""
    found = []
    for number, (first, last) in enumerate(passes):
        for place, point in enumerate(points):
            if first is None or last is None or point < first or point > last:
                continue
            if (lower or point != first) and (upper or point != last):
                found.append((number, place))
    return found


def scheduled(options, lefts, rights, rows):
    """What the schedule comes to in a join with room for so many right rows: a Plan, or the number of the refusal that a right frame meets."""
    join = Join(left_rows=sum(map(len, lefts)) + 1, right_rows=rows, **options)
    found, written = [0, 0, 0], 0
    for frame in lefts:
        join.left(frame)
    if not rights:
        join.end_right()
    while written < len(lefts):
        found[1] += 1
        answer = join.turn_into(array('q', bytes(8 * join.output_words())))
        if answer == WROTE:
            written += 1
            continue
        assert answer == WANTS_RIGHT
        try:
            join.right(rights[found[2]])
        except Refused as refused:
            return refused.number
        found[0], found[2] = max(found[0], join.held), found[2] + 1
        if found[2] == len(rights):
            join.end_right()
    return Plan(*found)


class Plans(unittest.TestCase):
    """How large an area a join wants."""

    def test_random(self):
        """The figures are those of the schedule; with one row less a right frame meets a 6."""
        short = 0
        for seed in range(BOOKS // 2):
            r = random.Random(seed)
            books = Books(r)
            left, right = [row[:books.by + 1] for row in books.house], books.festival
            options = {**books.options, 'strategy': r.choice(('backward', 'forward', 'nearest'))}
            cut = []
            for rows in (left, right):
                heights, most = [], r.choice((1, 2, 5, 20))
                while sum(heights) < len(rows) or r.random() < 0.1:
                    heights.append(r.randrange(min(most, len(rows) - sum(heights)) + 1))
                cut.append(heights)
            frames = [[words(rows[sum(heights[:k]):sum(heights[:k + 1])], width) for k in range(len(heights))]
                      for rows, heights, width in ((left, cut[0], books.by + 1), (right, cut[1], books.by + 1 + books.carried))]
            with self.subTest(seed=seed):
                found = plan(words(left, books.by + 1), words(right, books.by + 1 + books.carried), *cut, **options)
                given = {**options, 'carried': books.carried}
                self.assertEqual(scheduled(given, *frames, found.rows), found)
                if found.rows:
                    self.assertEqual(scheduled(given, *frames, found.rows - 1), NO_ROOM)
                    short += 1
        self.assertGreater(short, BOOKS // 8)

    def test_full_frames(self):
        """Where no heights are given, frames are full."""
        left, right = [array('q', range(5000))], [array('q', range(0, 20000, 2))]
        found = plan(left, right)
        self.assertEqual(found, plan(left, right, [MOST_ROWS, 904], [MOST_ROWS, MOST_ROWS, 1808]))
        self.assertEqual(found, Plan(MOST_ROWS, 4 - 1, 1))
        self.assertEqual(plan([array('q')], right), Plan(0, 0, 0))

    def test_refusals(self):
        """Each by its number."""
        some, fallen = [array('q', [1, 2])], [array('q', [2, 1])]
        for given, options, number in (((fallen, some), {}, UNSORTED), ((some, fallen), {}, UNSORTED), ((some, some, [1]), {}, BAD_HEIGHTS),
                                       ((some, some, [2], [3, -1]), {}, BAD_HEIGHTS), ((some, some), {'by': 5}, BAD_OPTIONS),
                                       ((some, some), {'carried': 1}, BAD_FRAME), ((some, some), {'carried': 9}, TOO_MANY_CARRIED)):
            with self.subTest(number), self.assertRaises(Refused) as caught:
                plan(*given, **options)
            self.assertEqual(caught.exception.number, number)


class Papers(unittest.TestCase):
    """What the docstrings show."""

    def test_docstrings(self):
        """Each sample gives what is shown, with numpy and without it."""
        for kind in KINDS:
            with using(kind):
                result = doctest.testmod(tables)
            self.assertEqual((result.failed, result.attempted), (0, 13))


if __name__ == '__main__':
    unittest.main()
