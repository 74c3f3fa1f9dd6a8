"""Two tables joined pair by pair in one call, against `asof`, against pairs joined apart, and against a join in plain Python."""
import random
import unittest
from array import array

import rowkeeper
from rowkeeper import Table, join_cut, pairs, plan
from rowkeeper.interface import (BAD_BOUNDARIES, BAD_FRAME, BAD_OPTIONS, BAD_RANKS, MOST_ROWS, NO_ROOM, TOO_MANY_CARRIED, UNKNOWN_CODE,
                                 UNSORTED)

from .test_pairs import Tables
from .test_tables import Case, KINDS, column, using, words

TABLES = 1000


class Joins(Tables):
    """Two sorted tables at random, of which the right one carries columns, with at most 16 boundaries: those of groups that are there
    and of others."""

    def __init__(self, r):
        super().__init__(r)
        self.carried, self.distance = r.choice((0, 0, 1, 2, 8)), r.random() < 0.5
        cell = lambda: None if r.random() < 0.2 else r.choice((-2**63, 0, 7, 2**63 - 1))
        self.cells = [[cell() for _ in range(self.carried)] for _ in self.right]
        self.boundaries = sorted(r.sample(self.boundaries, min(16, len(self.boundaries))), key=self.rank)
        if r.random() < 0.2:
            half = [row for row in self.left if self.boundaries and self.rank(row) < self.rank(self.boundaries[0])]
            self.left = r.choice(([], half))

    def tables(self):
        """Both tables and the boundaries in words."""
        right = [(*row, *cells) for row, cells in zip(self.right, self.cells)]
        return words(self.left, self.by + 1), words(right, self.by + 1 + self.carried), words(self.boundaries, self.by)

    def asof(self):
        """The rows and distances by `asof`, which is told nothing of the order of groups."""
        left, right = ([column([row[place] for row in rows]) for place in range(self.by + 1)] for rows in (self.left, self.right))
        found = rowkeeper.asof(left[-1], right[-1], left[:-1], right[:-1], self.strategy, self.exact, self.tolerance, distance=True)
        return [list(map(int, each)) for each in found]

    def apart(self, left, right, boundaries):
        """The rows by pairs that are joined apart."""
        found = pairs.cut_apart(left, right, boundaries, **self.order)
        return pairs.append([pairs.join_pair(each.left, each.right, right_before=each.right_before, **self.options) for each in found])


def cells_of(found):
    """A column as a list, None for a null."""
    there = [True] * len(found.values) if found.valid is None else found.valid
    return [int(value) if mark else None for value, mark in zip(found.values, there)]


class Whole(Case):
    """The answers."""

    def test_random(self):
        """Random tables against `asof`, against pairs joined apart and against the plain reading: every strategy, order and tolerance,
        lists of ranks, nulls, absent groups, parts without rows, what is carried, distances."""
        matched = cut_at = 0
        for seed in range(TABLES):
            case = Joins(random.Random(seed))
            left, right, boundaries = case.tables()
            with self.subTest(seed=seed), using(KINDS[seed % len(KINDS)]):
                found = join_cut(left, right, boundaries, distance=case.distance, **case.options)
                rows, distances = case.asof()
                self.assertEqual(list(map(int, found.rows)), rows)
                self.assertEqual(rows, case.matches())
                self.assertEqual(list(found.rows), list(case.apart(left, right, boundaries)))
                self.assertEqual(None if found.distances is None else list(map(int, found.distances)), distances if case.distance else None)
                wanted = [[case.cells[row][place] if row >= 0 else None for row in rows] for place in range(case.carried)]
                self.assertEqual([cells_of(each) for each in found.carried], wanted)
            matched, cut_at = matched + sum(row >= 0 for row in rows), cut_at + len(case.boundaries)
        self.assertGreater(min(matched, cut_at), TABLES)

    def test_any_boundaries(self):
        """None, one, 16 and those of absent groups give the same; halves without rows; 17 are too many."""
        left = words([(1, 5), (4, 6), (4, 7)], 2)
        right = words([(1, 5, 100), (2, 5, 200), (4, 7, None)], 3)
        for groups in ([], [3], [4], [-2**63, 2**63 - 1], range(-5, 11)):
            found = join_cut(left, right, words([(each,) for each in groups], 1))
            self.assertEqual((list(found.rows), cells_of(found.carried[0]), found.distances), ([0, -1, 2], [100, None, None], None))
            self.assertEqual(list(join_cut(left, words([], 3), words([(each,) for each in groups], 1)).rows), [-1, -1, -1])
            nothing = join_cut(words([], 2), right, words([(each,) for each in groups], 1), distance=True)
            self.assertEqual([len(each) for each in (nothing.rows, nothing.carried[0].values, nothing.distances)], [0, 0, 0])
        self.refused(BAD_BOUNDARIES, join_cut, left, right, words([(each,) for each in range(17)], 1))

    def test_ways_in(self):
        """Tables, columns and words, with numpy and without it; no boundaries at all, with by-columns and without."""
        left, right, groups = [array('q', [1, 1, 4]), array('q', [3, 9, 9])], [array('q', [1, 4]), array('i', [5, 9])], [array('q', [2, 3])]
        for kind in KINDS:
            with using(kind):
                for way in (lambda columns: columns, Table, lambda columns: Table(columns).words):
                    for boundaries in (way(groups), None):
                        self.assertEqual(list(map(int, join_cut(way(left), way(right), boundaries).rows)), [-1, 0, 1])
                found = join_cut([array('q', [5, 20, 25])], [array('q', [10, 20, 20, 30])], distance=True)
                self.assertEqual([list(map(int, each)) for each in (found.rows, found.distances)], [[-1, 2, 2], [-1, 0, 5]])
                far = join_cut([array('q', [2**63 - 1])], [array('q', [-2**63])], distance=True)
                self.assertEqual((int(far.rows[0]), int(far.distances[0])), (0, -1))

    def test_long_tables(self):
        """Tables of many frames, cut and not, against `asof`."""
        r = random.Random(23)
        left = sorted((r.randrange(40), r.randrange(10**6)) for _ in range(5 * MOST_ROWS + 1))
        right = sorted((r.randrange(40), r.randrange(10**6)) for _ in range(4 * MOST_ROWS))
        columns = [[array('q', cells) for cells in zip(*rows)] for rows in (left, right)]
        for strategy in ('backward', 'forward', 'nearest'):
            wanted = rowkeeper.asof(columns[0][1], columns[1][1], columns[0][0], columns[1][0], strategy)
            for groups in ([], [20], range(0, 48, 3)):
                found = join_cut(*columns, words([(each,) for each in groups], 1), strategy=strategy)
                self.assertEqual(list(found.rows), list(wanted))


def needed(left, right, boundaries, **options):
    """The words of the two areas that the pairs need, by where the tables are cut and by the plan of each pair."""
    words_needed = [0, 0]
    for pair in pairs.cut_apart(left, right, boundaries):
        rows = pair.left[0]
        held = plan(pair.left, pair.right, by=1, **options).rows
        waiting = 2 * -(-rows // MOST_ROWS) + 2 * rows * pair.left[1]
        words_needed = [max(each) for each in zip(words_needed, (waiting, 2 * held * pair.right[1]))]
    return words_needed


class Areas(Case):
    """What is lent and only measured."""

    def test_to_the_word(self):
        """Areas that are just enough by the cuts and the plans, and one word less."""
        left = words([(row // 3000, row % 3000) for row in range(10000)], 2)
        right = words([(row // 4000, row % 4000 * 2, row) for row in range(9000)], 3)
        for strategy in ('backward', 'forward', 'nearest'):
            whole = list(join_cut(left, right, strategy=strategy).rows)
            for groups in ([], [1], [0, 1, 2, 3, 9]):
                boundaries = words([(each,) for each in groups], 1)
                one, other = needed(left, right, boundaries, strategy=strategy)
                more = {'strategy': strategy, 'left_words': one, 'right_words': other}
                self.assertEqual(list(join_cut(left, right, boundaries, **more).rows), whole)
                for less in ({'left_words': one - 1}, {'right_words': other - 1}, {'left_words': 0}, {'right_words': 0}):
                    self.refused(NO_ROOM, join_cut, left, right, boundaries, **{**more, **less})

    def test_enough_by_itself(self):
        """Where nothing is said of areas, they are enough: about as many rows as some frames have, of the fewest columns."""
        for rows in (0, 1, MOST_ROWS - 1, MOST_ROWS, MOST_ROWS + 1, 2 * MOST_ROWS, 2 * MOST_ROWS + 1, 10 * MOST_ROWS + 1):
            keys = [array('q', range(rows))]
            self.assertEqual(list(join_cut(keys, keys).rows), list(range(rows)))

    def test_no_memory(self):
        """Areas of 64 GB each are lent: no page of them is touched."""
        keys = [array('q', [1, 2])]
        try:
            self.assertEqual(list(join_cut(keys, keys, left_words=2**33, right_words=2**33).rows), [0, 1])
        except OSError as error:
            self.skipTest(f'this process may not have so many addresses: {error}')
        for bad in ({'left_words': -1}, {'right_words': -1}):
            with self.assertRaisesRegex(ValueError, '^areas of .* none has fewer than 0$'):
                join_cut(keys, keys, **bad)


class Refusals(Case):
    """What is not joined."""

    def test_numbers(self):
        """Each by its number, and the first of two that would be due."""
        fine, fallen, one = words([(1, 5), (2, 3)], 2), words([(2, 5), (1, 3)], 2), words([(2,)], 1)
        codes = {'ranks': (0, [2, 1])}
        for number, given, more in ((BAD_OPTIONS, (array('q'), fine, one), {'by': 5}), (BAD_OPTIONS, (fine, fine), {'by': -1}),
                                    (BAD_OPTIONS, (fine, fine, one), {'tolerance': -1}), (BAD_OPTIONS, (fine, fine), {'by': 2**64}),
                                    (BAD_OPTIONS, (fine, fine, one), {'strategy': 'nearest', 'allow_exact_matches': False}),
                                    (TOO_MANY_CARRIED, (fine, fine, one), {'carried': 9, 'ranks': (1, [1])}),
                                    (BAD_RANKS, (array('q'), fine, one), {'ranks': (1, [1])}),
                                    (BAD_FRAME, (array('q'), fine, one), {}), (BAD_FRAME, (fine, array('q', [2, 2]), one), {}),
                                    (BAD_FRAME, (fallen, fine, array('q', [1, 1, 5])), {}), (BAD_FRAME, (fine, fine, one), {'by': 2}),
                                    (BAD_FRAME, (fine, fine, one), {'carried': 1}), (BAD_FRAME, (array('q'), array('q')), {}),
                                    (UNKNOWN_CODE, (fine, fallen, words([(3,), (3,)], 1)), codes),
                                    (UNKNOWN_CODE, (fallen, words([(4, 1)], 2), one), codes),
                                    (UNKNOWN_CODE, (words([(4, 1)], 2), fallen, one), codes),
                                    (UNSORTED, (fallen, fine, words([(2,), (1,)], 1)), {}), (UNSORTED, (fine, fallen, one), {}),
                                    (BAD_BOUNDARIES, (fine, fine, words([(2,), (1,)], 1)), {'left_words': 0}),
                                    (BAD_BOUNDARIES, (fine, fine, words([(2,), (2,)], 1)), {}),
                                    (BAD_BOUNDARIES, (fine, fine, words([(None,)], 1)), {}),
                                    (BAD_BOUNDARIES, (words([(1,)], 1), words([(1,)], 1), array('q', [1, 0])), {}),
                                    (NO_ROOM, (fine, fine, one), {'left_words': 0}), (NO_ROOM, (fine, fine, one), {'right_words': 0})):
            with self.subTest(number=number, more=more):
                self.refused(number, join_cut, *given, **more)

    def test_bad_tables(self):
        """What is no table is a ValueError of one line, before the library sees it."""
        fine = [array('q', [1]), array('q', [1])]
        for kind in KINDS:
            for bad, said in (([], 'has a key at least'), ([array('d', [1.0]), fine[0]], 'column 0'), (5, 'cannot be lent'),
                              ([fine[0], array('q')], 'column 1 has 0 rows, and column 0 has 1'), (b'12345678', '64-bit whole numbers')):
                for given in ((bad, fine, fine[:1]), (fine, bad, fine[:1]), (fine, fine, bad), (bad, fine), (fine, bad)):
                    with self.subTest(said), using(kind), self.assertRaisesRegex(ValueError, said) as caught:
                        join_cut(*given)
                    self.assertNotIn('\n', str(caught.exception))
        with self.assertRaisesRegex(ValueError, '^strategy'):
            join_cut(fine, fine, strategy='sideways')


if __name__ == '__main__':
    unittest.main()
