"""Columns in memory against the plain join, with numpy and without it."""
import random
import subprocess
import sys
import unittest
from array import array
from unittest import mock

from rowkeeper import AsOf, Column, asof, asof_join, plain
from rowkeeper.interface import MOST_ROWS, STRATEGIES

from .judge import distances, positions

try:
    import numpy

    from rowkeeper import arrays
    KINDS = (plain, arrays)
except ImportError:
    numpy, KINDS = None, (plain,)

TABLES = 800
# Keys at the ends of the 64-bit range.
ENDS = (-2**63, -2**63 + 1, -1, 0, 2**63 - 2, 2**63 - 1)


def using(kind):
    """Columns are worked on by this module."""
    return mock.patch.object(asof_join, 'tools', lambda: kind)


def column(cells):
    """A column of cells, None for a null."""
    values = array('q', [cell or 0 for cell in cells])
    return Column(values, bytes(cell is not None for cell in cells)) if None in cells else values


class Tables:
    """Two tables at random: keys ascend within each group, and groups stand in any order."""

    def __init__(self, r):
        self.by = r.choice((0, 0, 1, 1, 2, 5))
        self.strategy = r.choice(STRATEGIES)
        self.exact = self.strategy == 'nearest' or r.random() < 0.6
        self.tolerance = r.choice((None, None, 0, 1, 3, 2**63 - 1))
        self.keys, self.groups = r.choice((range(4), range(30), ENDS)), r.choice((range(1, 3), range(5), ENDS))
        self.left, self.right = self.rows(r), self.rows(r)

    def rows(self, r):
        """The rows of a table."""
        cell = lambda values: None if r.random() < 0.08 else r.choice(values)
        rows = [(*(cell(self.groups) for _ in range(self.by)), cell(self.keys)) for _ in range(r.choice((0, 1, 8, 40)))]
        places = [place for place, row in enumerate(rows) if row[-1] is not None]
        for place, row in zip(places, sorted((rows[place] for place in places), key=lambda row: row[-1])):
            rows[place] = row
        return rows

    def found(self, **more):
        """What the module answers."""
        columns = [[column([row[place] for row in side]) for place in range(self.by + 1)] for side in (self.left, self.right)]
        (*left_by, left), (*right_by, right) = columns
        return asof(left, right, left_by, right_by, self.strategy, self.exact, self.tolerance, **more)


def ranked_side(kind, rows, codes):
    """A table of rows of a place and a key, as a side that hands in the code at the place."""
    columns = [array('q', cells) for cells in ([row[1] for row in rows], [row[0] for row in rows], [codes[row[0]] for row in rows])]
    keys, places, by = columns if kind is plain else map(numpy.array, columns)
    return asof_join.Side(keys, places, None, [by])


class Asof(unittest.TestCase):
    """The function asof."""

    def test_random(self):
        """Random tables with every strategy, groups and nulls, by both modules."""
        for kind in KINDS:
            matched = 0
            for seed in range(TABLES):
                tables = Tables(random.Random(seed))
                with self.subTest(kind=kind.__name__, seed=seed), using(kind):
                    found = list(tables.found())
                    self.assertEqual(found, positions(tables.left, tables.right, tables.strategy, tables.exact, tables.tolerance))
                    matched += sum(place >= 0 for place in found)
            self.assertGreater(matched, 3 * TABLES)

    def test_distances(self):
        """Random tables, both ends of the 64-bit range among their keys: the same places, and the distances, of both modules."""
        for kind in KINDS:
            told = above = 0
            for seed in range(TABLES):
                tables = Tables(random.Random(seed))
                with self.subTest(kind=kind.__name__, seed=seed), using(kind):
                    found = tables.found(distance=True)
                    self.assertIsInstance(found, AsOf)
                    self.assertEqual(list(found.rows), list(tables.found()))
                    self.assertEqual(list(found.distances), distances(tables.left, tables.right, found.rows))
                    told += sum(far >= 0 for far in found.distances)
                    above += sum(far < 0 <= place for place, far in zip(*found))
            self.assertGreater(told, 2 * TABLES)
            self.assertGreater(above, TABLES // 20)

    def test_distance_ends(self):
        """2^63 - 1 is told, 2^63 and 2^64 - 1 are not, though the rows match; numbers without a sign have the same distances."""
        for kind in KINDS:
            with using(kind):
                rows, far = asof(array('q', [-1, 0, 2**63 - 1]), array('q', [-2**63]), distance=True)
                self.assertEqual((list(rows), list(far)), ([0, 0, 0], [2**63 - 1, -1, -1]))
                rows, far = asof(array('Q', [2**63 - 1, 2**63, 2**64 - 1]), array('Q', [0]), distance=True)
                self.assertEqual((list(rows), list(far)), ([0, 0, 0], [2**63 - 1, -1, -1]))
                for right in (array('q'), array('q', [9])):
                    rows, far = asof(array('q', [5, 6]), right, distance=True)
                    self.assertEqual((list(rows), list(far)), ([-1, -1], [-1, -1]))

    def test_long(self):
        """More rows than a frame has, more right rows than the area holds at first, groups that are not sorted."""
        rows = 3 * MOST_ROWS + 17
        left, groups = array('q', range(rows)), array('q', [place % 7 for place in range(rows)])
        for kind in KINDS:
            with using(kind):
                self.assertEqual(list(asof(left, left)), list(range(rows)))
                self.assertEqual(list(asof(left, left, groups, groups)), list(range(rows)))
                self.assertEqual(list(asof(array('q', [10 * rows]), array('q', range(10 * rows)))), [10 * rows - 1])
                self.assertEqual(list(asof(left, array('q', [0]))), [0] * rows)
                self.assertEqual(list(asof(left, array('q', [0]), distance=True).distances), list(range(rows)))

    def test_ranked(self):
        """Tables whose by-column is handed in by codes and sorted by their places, with the list: the same matches."""
        for kind in KINDS:
            for seed in range(100):
                r = random.Random(seed)
                codes = r.sample((30, 10, 20, *ENDS), r.randrange(1, 6))
                rows = [sorted(((r.randrange(len(codes)), r.randrange(9)) for _ in range(r.choice((0, 5, 30)))), key=lambda row: row[1])
                        for _ in range(2)]
                with self.subTest(kind=kind.__name__, seed=seed), using(kind):
                    sides = [ranked_side(kind, side, codes) for side in rows]
                    found = asof_join.found_by(*sides, 'backward', True, None, (0, codes), distance=True)
                    self.assertEqual(list(found.rows), positions(*rows, 'backward'))
                    self.assertEqual(list(found.distances), distances(*rows, found.rows))

    def test_many_groups(self):
        """More groups than a pass of the sort tells apart, in by-columns far apart."""
        r = random.Random(1)
        groups = [r.randrange(200000) for _ in range(3000)]
        for scale in (1, 2**40):
            values = array('q', [scale * group for group in groups])
            last = {}
            due = [(last.setdefault(group, []).append(place), place)[1] for place, group in enumerate(groups)]
            for kind in KINDS:
                with using(kind):
                    self.assertEqual(list(asof(array('q', range(3000)), array('q', range(3000)), values, values)), due)

    def test_widths(self):
        """Whole numbers of any width, with a sign or without."""
        for kind in KINDS:
            for letter in 'bBhHiIlLqQ':
                with using(kind), self.subTest(kind=kind.__name__, letter=letter):
                    self.assertEqual(list(asof(array(letter, [5, 20, 25]), array('q', [10, 20, 20, 30]))), [-1, 2, 2])
            with using(kind):
                self.assertEqual(list(asof(array('Q', [1, 2**64 - 1]), array('Q', [2, 2**63, 2**64 - 2]))), [-1, 2])

    def test_errors(self):
        """What is wrong with columns and options, each in one line, before anything is joined."""
        good, long = array('q', [1, 2]), array('q', [1, 2, 3])
        cases = [
            ((array('d', [1.0]), good), {}, 'left_on has'), ((good, 'text'), {}, 'right_on'), ((good, None), {}, 'right_on'),
            ((array('q', [1, 3, 2]), good), {}, 'left_on is not sorted: row 2 has a smaller key than row 1'),
            ((good, array('q', [2, 1])), {}, 'right_on is not sorted: row 1 has a smaller key than row 0'),
            ((array('q', [5, 1, 4]), good, array('q', [1, 2, 1]), good), {}, 'left_on is not sorted: row 2 has a smaller key than row 0'),
            ((Column(array('q', [5, 9, 4]), b'\1\0\1'), good), {}, 'left_on is not sorted: row 2 has a smaller key than row 0'),
            ((good, good, long, good), {}, r'left_by\[0\] has 3 rows, and the key of its side has 2'),
            ((good, good, good, long), {}, r'right_by\[0\] has 3 rows'), ((good, good, good), {}, 'left_by has 1 columns and right_by has 0'),
            ((Column(good, b'\1'), good), {}, 'the validity of left_on has 1 rows'),
            ((array('Q', [2**63]), good), {}, 'above 64 bits with a sign'),
            ((good, good), {'strategy': 'sideways'}, 'strategy'), ((good, good), {'tolerance': -1}, 'tolerance'),
            ((good, good), {'tolerance': 1.5}, 'tolerance'), ((good, good), {'tolerance': 2**63}, 'tolerance'),
            ((good, good), {'strategy': 'nearest', 'allow_exact_matches': False}, 'nearest without exact matches'),
        ]
        for kind in KINDS:
            for columns, options, said in cases:
                with using(kind), self.subTest(kind=kind.__name__, said=said), self.assertRaisesRegex(ValueError, said) as caught:
                    asof(*columns, **options)
                self.assertNotIn('\n', str(caught.exception))

    @unittest.skipUnless(numpy, 'there is no numpy')
    def test_numpy(self):
        """Masked arrays, times with NaT, other byte orders and steps; what comes out is an array of 64-bit numbers."""
        times = numpy.array(['2026-01-01', 'NaT', '2026-01-03'], dtype='M8[D]')
        found = asof(times, times)
        self.assertEqual((found.dtype, list(found)), (numpy.dtype('i8'), [0, -1, 2]))
        masked = numpy.ma.masked_array([3, 9, 4], [False, True, False])
        self.assertEqual(list(asof(masked, numpy.array([1, 2, 3, 4])[::2])), [1, -1, 1])
        self.assertEqual(list(asof(numpy.array([1, 2], dtype='>i4'), numpy.array([1, 2], dtype='u1'))), [0, 1])
        spans = numpy.array([1, 5], dtype='m8[s]')
        self.assertEqual(list(asof(spans, spans, tolerance=3, allow_exact_matches=False)), [-1, -1])
        for other in (times.astype('M8[s]'), spans, numpy.array([1.0]), numpy.zeros((2, 2), 'i8'), numpy.array(['a'])):
            with self.assertRaises(ValueError):
                asof(times, other)

    def test_without_numpy(self):
        """Where numpy cannot be imported the module works, over arrays; merge_asof says what it needs."""
        program = '''import sys
sys.modules['numpy'] = sys.modules['pandas'] = None
import rowkeeper
from array import array
found = rowkeeper.asof(array('q', [5, 20]), array('q', [10, 20]))
assert type(found) is array and list(found) == [-1, 1], found
try:
    rowkeeper.merge_asof(None, None, on='k')
except ImportError as error:
    print(error)
'''
        ran = subprocess.run([sys.executable, '-B', '-c', program], stdout=subprocess.PIPE, stderr=subprocess.PIPE, env=paths())
        self.assertEqual((ran.returncode, ran.stderr), (0, b''))
        self.assertIn(b'merge_asof needs pandas', ran.stdout)

    def test_numpy_is_looked_for_late(self):
        """Importing the module, as the command does, does not import numpy."""
        program = "import sys, rowkeeper; sys.exit('numpy' in sys.modules)"
        self.assertEqual(subprocess.run([sys.executable, '-B', '-c', program], env=paths()).returncode, 0)


def paths():
    """An environment in which the module is found where it is found here."""
    import os

    import rowkeeper
    return {**os.environ, 'PYTHONPATH': os.path.dirname(os.path.dirname(rowkeeper.__file__))}


if __name__ == '__main__':
    unittest.main()
