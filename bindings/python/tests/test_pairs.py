"""Where tables are cut, and pairs joined apart and appended, against plain readings and the uncut join."""
import os
import random
import subprocess
import sys
import tempfile
import unittest
from array import array
from bisect import bisect_left

import rowkeeper
from rowkeeper import Refused, Table, cut, pairs
from rowkeeper.interface import BAD_BOUNDARIES, BAD_FRAME, BAD_OPTIONS, STRATEGIES, UNKNOWN_CODE, UNSORTED

from . import judge
from .test_tables import KINDS, using, words

TABLES = 400
# What a process does that joins a half, and one that appends both: none of them has more than files of words.
JOINS = """import sys
from rowkeeper import pairs
left, right, answer, before = sys.argv[1:]
found = pairs.join_pair(*(pairs.seen(open(name, 'rb').read()) for name in (left, right)), by=1, right_before=int(before))
open(answer, 'wb').write(found.tobytes())"""
APPENDS = """import sys
from rowkeeper import pairs
*answers, whole = sys.argv[1:]
open(whole, 'wb').write(pairs.append([open(name, 'rb').read() for name in answers]).tobytes())"""


class Tables:
    """Two sorted tables at random, the options that say how they are sorted and joined, and boundaries."""

    def __init__(self, r, most=60):
        self.by = r.choice((1, 1, 1, 2, 4))
        self.descending, self.nulls_last = ([r.random() < 0.4 for _ in range(self.by)] for _ in range(2))
        self.groups = r.choice((1, 3, 40)) if self.by == 1 else 3
        self.ranks = (r.randrange(self.by), r.sample(range(self.groups), self.groups)) if r.random() < 0.3 else None
        self.strategy = r.choice(STRATEGIES)
        self.exact = self.strategy == 'nearest' or r.random() < 0.7
        self.tolerance = r.choice((None, None, 0, 3))
        self.left, self.right = self.rows(r, most), self.rows(r, most)
        groups = {tuple(r.randrange(self.groups) for _ in range(self.by)) for _ in range(r.choice((0, 1, 2, 16, 17, 40)))}
        self.boundaries = sorted(groups, key=self.rank)
        self.order = {'by': self.by, 'descending': self.descending, 'nulls_last': self.nulls_last, 'ranks': self.ranks}
        self.options = {'strategy': self.strategy, 'allow_exact_matches': self.exact, 'tolerance': self.tolerance, **self.order}

    def rank(self, row):
        """What the group of a row is sorted by."""
        ranks = []
        for place, cell in enumerate(row[:self.by]):
            if cell is not None and self.ranks and place == self.ranks[0]:
                cell = self.ranks[1].index(cell)
            side = 0 if cell is not None else 1 if self.nulls_last[place] else -1
            ranks.append((side, 0 if cell is None else -cell if self.descending[place] else cell))
        return ranks

    def rows(self, r, most):
        """A sorted table, with nulls; of one group at times, and with none of some groups."""
        cell = lambda end: None if r.random() < 0.1 else r.randrange(end)
        rows = [(*(cell(self.groups) for _ in range(self.by)), cell(20)) for _ in range(r.choice((0, 1, most // 4, most)))]
        return sorted(rows, key=lambda row: (self.rank(row), row[-1] is not None, row[-1] or 0))

    def words(self):
        """Both tables and the boundaries in words."""
        return words(self.left, self.by + 1), words(self.right, self.by + 1), words(self.boundaries, self.by)

    def matches(self):
        """The matches of the uncut tables, by the plain reading."""
        return judge.positions(self.left, self.right, self.strategy, self.exact, self.tolerance)


class Cutting(unittest.TestCase):
    """The call that cuts."""

    def test_places(self):
        """The places are those of a plain bisection, by either side's columns; the right side's may carry more."""
        r = random.Random(19)
        for _ in range(TABLES):
            case = Tables(r)
            case.boundaries = case.boundaries[:16]
            left, right, boundaries = case.words()
            wanted = [bisect_left([case.rank(row) for row in case.left], case.rank(each)) for each in case.boundaries]
            self.assertEqual(cut(left, boundaries, **case.order), wanted)
            self.assertEqual(cut(left, boundaries, 'right', **case.order), wanted)
            carrying = words([(*row, None) for row in case.right], case.by + 2)
            wanted = [bisect_left([case.rank(row) for row in case.right], case.rank(each)) for each in case.boundaries]
            self.assertEqual(cut(carrying, boundaries, 'right', **case.order), wanted)

    def test_ways_in(self):
        """Tables, columns and words, with numpy and without it."""
        columns, groups = [array('q', [1, 1, 2, 4]), array('q', [3, 4, 1, 9])], [array('q', [2, 3])]
        for kind in KINDS:
            with using(kind):
                for table in (columns, Table(columns), Table(columns).words):
                    for boundaries in (groups, Table(groups), Table(groups).words):
                        self.assertEqual(cut(table, boundaries), [2, 3])
        self.assertEqual(cut(columns, [array('q')]), [])

    def refused(self, number, *words, **options):
        """The call is refused by a number."""
        with self.assertRaises(Refused) as caught:
            cut(*words, **options)
        self.assertEqual(caught.exception.number, number)

    def test_refusals(self):
        """Each by its number."""
        table, one = words([(1, 5), (2, 3)], 2), words([(2,)], 1)
        self.refused(UNSORTED, words([(2, 5), (1, 3)], 2), one)
        self.refused(BAD_BOUNDARIES, table, words([(2,), (2,)], 1))
        self.refused(BAD_BOUNDARIES, table, words([(None,)], 1))
        self.refused(BAD_BOUNDARIES, table, words([(each,) for each in range(17)], 1))
        self.refused(BAD_FRAME, table, one, by=2)
        self.refused(BAD_FRAME, array('q', [3, 2]), one)
        self.refused(BAD_FRAME, table, array('q', [1, 1, 5]))
        self.refused(BAD_OPTIONS, table, one, by=5)
        self.refused(BAD_OPTIONS, table, array('q'), by=-1)
        self.refused(UNKNOWN_CODE, table, one, ranks=(0, [1]))
        self.refused(BAD_FRAME, words([(1, 5, 7)], 3), one)
        for each in ('both', 0, None):
            with self.assertRaisesRegex(ValueError, '^side .* is none of left, right$'):
                cut(table, one, each)


class Apart(unittest.TestCase):
    """Pairs joined by themselves."""

    def test_against_the_uncut_join(self):
        """The answers appended are those of the uncut tables, whatever the boundaries: up to 40, absent groups and empty parts."""
        r, empty = random.Random(20), 0
        for number in range(TABLES):
            case = Tables(r)
            with using(KINDS[number % len(KINDS)]):
                left, right, boundaries = case.words()
                found = pairs.cut_apart(left, right, boundaries, **case.order)
                answers = [pairs.join_pair(each.left, each.right, right_before=each.right_before, **case.options) for each in found]
                whole = pairs.join_pair(left, right, **case.options)
            self.assertEqual(len(found), len(case.boundaries) + 1)
            self.assertEqual(pairs.append(answers), whole)
            self.assertEqual(whole.tolist(), case.matches())
            empty += any(0 in (each.left[0], each.right[0]) and each.left[0] + each.right[0] for each in found)
        self.assertGreater(empty, TABLES // 4)

    def test_long_tables(self):
        """Parts of several frames, more right rows held than the first area has room for, and carried columns, which are passed over."""
        r = random.Random(21)
        left = words(sorted((r.randrange(3), r.randrange(10**6)) for _ in range(20000)), 2)
        right = words(sorted((r.randrange(3), r.randrange(10**6), 7) for _ in range(30000)), 3)
        whole = pairs.join_pair(left, right, by=1, strategy='forward')
        found = pairs.cut_apart(left, right, words([(1,), (2,)], 1))
        answers = [pairs.join_pair(each.left, each.right, 1, 'forward', right_before=each.right_before).tobytes() for each in found]
        self.assertEqual(pairs.append(answers), whole)

    def test_out_of_order_beyond_a_call(self):
        """Boundaries beyond the first 16 that do not ascend are refused, and so are tables that are not sorted."""
        table = words([(each, 1) for each in range(50)], 2)
        for groups in ([*range(16), 15], [*range(16), 3], [*range(31), 30]):
            with self.assertRaises(Refused) as caught:
                pairs.places(table, words([(each,) for each in groups], 1))
            self.assertEqual(caught.exception.number, BAD_BOUNDARIES)
        self.assertEqual(pairs.places(table, words([(each,) for each in range(47)], 1)), list(range(47)))
        with self.assertRaises(Refused) as caught:
            pairs.cut_apart(table, words([(2, 1), (1, 1)], 2), words([(1,)], 1))
        self.assertEqual(caught.exception.number, UNSORTED)

    def test_processes(self):
        """Two processes, each with its half in files, appended by a third."""
        r = random.Random(22)
        left, right = (words(sorted((r.randrange(90), r.randrange(500)) for _ in range(9000)), 2) for _ in range(2))
        environment = {**os.environ, 'PYTHONPATH': os.path.dirname(os.path.dirname(rowkeeper.__file__))}
        run = lambda code, *words: subprocess.Popen([sys.executable, '-B', '-c', code, *words], env=environment)
        with tempfile.TemporaryDirectory() as folder:
            name = lambda *parts: os.path.join(folder, '-'.join(map(str, parts)))
            started = []
            for number, pair in enumerate(pairs.cut_apart(left, right, words([(45,)], 1))):
                for side in ('left', 'right'):
                    with open(name(side, number), 'wb') as file:
                        file.write(getattr(pair, side))
                started.append(run(JOINS, name('left', number), name('right', number), name('answer', number), str(pair.right_before)))
            self.assertEqual([each.wait() for each in started], [0, 0])
            self.assertEqual(run(APPENDS, name('answer', 0), name('answer', 1), name('whole')).wait(), 0)
            with open(name('whole'), 'rb') as file:
                self.assertEqual(pairs.append([file.read()]), pairs.join_pair(left, right, by=1))


if __name__ == '__main__':
    unittest.main()
