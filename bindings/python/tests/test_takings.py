"""Takings against a dictionary of sums: frames in any order, subtotals joined in any tree, amounts at their limits."""
import doctest
import random
import unittest
from array import array

from rowkeeper import Join, Refused, Takings, takings
from rowkeeper.interface import BAD_COLUMNS, BAD_FRAME, BEYOND, TOO_MANY_CARRIED, UNSORTED

# The greatest amount in size, and the most sales.
MOST, SALES = 10**9, 2**31


def words(rows, width):
    """Rows of one width as the words of a frame; None is a null."""
    cells = [cell for row in rows for cell in row]
    return array('q', [len(rows), width, *(cell or 0 for cell in cells), *(cell is not None for cell in cells)])


class House:
    """Options at random, and frames of sales with their answers."""

    def __init__(self, r):
        self.r, self.by, self.carried, self.distance = r, r.choice((0, 1, 1, 2, 4)), r.choice((1, 1, 2, 8)), r.random() < 0.5
        self.descending, self.nulls_last = ([r.random() < 0.4 for _ in range(self.by)] for _ in range(2))
        self.ranks = (r.randrange(self.by), r.sample(range(3), 3)) if self.by and r.random() < 0.4 else None
        self.options = {'by': self.by, 'descending': self.descending, 'nulls_last': self.nulls_last, 'carried': self.carried,
                        'ranks': self.ranks}
        self.amounts = r.choice((range(-5, 20), (-MOST, MOST, MOST - 1)))

    def place(self, group):
        """What a group without a null is sorted by."""
        listed = [self.ranks[1].index(cell) if self.ranks and self.ranks[0] == place else cell for place, cell in enumerate(group)]
        return [-cell if turned else cell for cell, turned in zip(listed, self.descending)]

    def frame(self):
        """The rows of a left frame and of its answer frame."""
        r, rows = self.r, self.r.choice((0, 1, 3, 12))
        groups = [tuple(None if r.random() < 0.1 else r.randrange(3) for _ in range(self.by)) for _ in range(rows)]
        left = [(*group, r.choice((None, 5, 9))) for group in groups]
        answers = []
        for _ in left:
            found = r.random() < 0.8
            row = [r.randrange(9), *(None if r.random() < 0.2 else r.choice(self.amounts) for _ in range(self.carried))]
            answers.append([*(row if found else [None] * len(row)), *([3 if found else None] if self.distance else [])])
        return left, answers

    def lend(self, left, answers):
        """Both in words."""
        return words(left, self.by + 1), words(answers, 1 + self.carried + self.distance)


def sums(house, frames):
    """The rows and the number of these frames, by a dictionary."""
    found, unpriced = {}, 0
    for left, answers in frames:
        for row, answer in zip(left, answers):
            group = row[:-1]
            if answer[0] is None or None in group:
                continue
            if answer[1] is None:
                unpriced += 1
            else:
                total, count = found.get(group, (0, 0))
                found[group] = total + answer[1], count + 1
    return [(*group, *found[group]) for group in sorted(found, key=house.place)], unpriced


class Sums(unittest.TestCase):
    """What comes out."""

    def test_examples(self):
        """The examples of the module."""
        self.assertEqual(doctest.testmod(takings).failed, 0)

    def test_random(self):
        """Frames added one after the other, and as subtotals joined in a random tree: the sums of the sales."""
        r, groups = random.Random(1), 0
        for _ in range(400):
            house = House(r)
            frames = [house.frame() for _ in range(r.randrange(6))]
            whole, parts = Takings(**house.options), [Takings(**house.options)]
            for frame in frames:
                whole.add(*house.lend(*frame))
                parts.append(Takings(**house.options))
                parts[-1].add(*house.lend(*frame))
            r.shuffle(parts)
            while len(parts) > 1:
                parts[0].join(parts.pop(r.randrange(1, len(parts))))
            for each in (whole, parts[0]):
                self.assertEqual((each.rows(), each.unpriced), sums(house, frames))
            groups += len(whole)
        self.assertGreater(groups, 400)

    def test_join(self):
        """The answers of a Join, as its turn gives them."""
        join, left = Join(by=1, carried=1), words([(1, 10), (1, 30), (2, 20)], 2)
        join.right(words([(1, 5, 100), (1, 20, 150), (2, 1, None)], 3))
        join.end_right()
        join.left(left)
        found = Takings(by=1)
        found.add(left, join.turn().matches)
        self.assertEqual((found.rows(), found.unpriced), ([(1, 250, 2)], 1))

    def test_refused(self):
        """What is refused changes nothing."""
        left, answers = words([(1,)], 1), words([(0, 5)], 2)
        for made, frame, wrote, number in (({'carried': 0}, left, words([(0,)], 1), BAD_COLUMNS), ({'carried': 9}, left, answers, TOO_MANY_CARRIED),
                                           ({}, left, words([(0, 5), (0, 5)], 2), BAD_FRAME), ({}, array('q', [1]), answers, BAD_FRAME),
                                           ({}, left, words([(0, MOST + 1)], 2), BEYOND), ({}, left, words([(0, -MOST - 1)], 2), BEYOND),
                                           ({}, left, words([(0, 5, 5, 5)], 4), BAD_COLUMNS)):
            found = Takings(**made)
            with self.assertRaises(Refused) as refused:
                found.add(frame, wrote)
            self.assertEqual((refused.exception.number, found.rows(), found.unpriced), (number, [], 0))
        found = Takings()
        found.unpriced = SALES
        with self.assertRaises(Refused) as refused:
            found.add(left, words([(0, None)], 2))
        self.assertEqual(refused.exception.number, BEYOND)

    def test_handed_in(self):
        """A table that a host handed in is judged: counts, totals, order."""
        for row, number in (((5, 0), BEYOND), ((5, -1), BEYOND), ((2 * MOST + 1, 2), BEYOND), ((0, SALES + 1), BEYOND), ((None, 1), UNSORTED)):
            one, other = Takings(), Takings()
            other.table = takings.Table._seen(words([row], 2))
            with self.assertRaises(Refused) as refused:
                one.join(other)
            self.assertEqual((refused.exception.number, one.rows()), (number, []))
        full, one = Takings(), Takings()
        full.table = takings.Table._seen(words([(-7, SALES)], 2))
        one.join(full)
        self.assertEqual(one.rows(), [(-7, SALES)])
        with self.assertRaises(Refused):
            one.add(words([(1,)], 1), words([(0, 5)], 2))
        self.assertRaises(ValueError, one.join, None)


if __name__ == '__main__':
    unittest.main()
