"""Columns without numpy: arrays of the standard library and views of memory. No loop of Python goes over rows: slices, and the
loops of the interpreter's own functions."""
import operator
from array import array
from itertools import chain, compress, count, islice, repeat

from .columns import WANTED, parted, same_length, unsorted
from .interface import MOST_ROWS

# The formats of whole numbers, and that of 64 bits without a sign.
WHOLE, SIGNED, UNSIGNED = 'bBhHiIlLqQ', 'ql', 'QL'
LOWEST = -2**63


def numbers(column, name):
    """The numbers of a column, whether they are of 64 bits without a sign, and which of them are there, or None."""
    values, valid = parted(column)
    try:
        view = memoryview(values)
    except TypeError:
        raise ValueError(f'{name} is a {type(values).__name__}: an object with the buffer protocol is wanted') from None
    letter = view.format.lstrip('@=<')
    if letter not in tuple(WHOLE) or view.ndim != 1:
        raise ValueError(f'{name} has the format {view.format!r} in {view.ndim} dimensions: {WANTED}')
    if valid is not None:
        valid = bytes(map(bool, valid))
        same_length(len(valid), len(view), f'the validity of {name}')
    unsigned = letter in tuple(UNSIGNED) and view.itemsize == 8
    return (view if unsigned else array('q', view)), unsigned, valid


def alike(columns, names):
    """Columns in numbers that compare as they do, each with which of them are there, or None."""
    found = [numbers(*pair) for pair in zip(columns, names)]
    high = all(unsigned for _, unsigned, _ in found)
    try:
        return [(array('q', map(LOWEST.__add__, values) if high else values), valid) for values, _, valid in found]
    except OverflowError:
        raise ValueError(f'{" and ".join(names)}: one has numbers above 64 bits with a sign, and the other has a sign') from None


def paired(left, right, names):
    """Two columns, one of each side, in numbers that compare as they do; with which of them are there."""
    one, other = alike((left, right), names)
    return (*one, *other)


def signed(column, name):
    """A column in its own numbers, with which of them are there, or None."""
    values, _, valid = numbers(column, name)
    try:
        return array('q', values), valid
    except OverflowError:
        raise ValueError(f'{name} has numbers above 64 bits with a sign') from None


def both(valid, other):
    """Which rows are there in two columns."""
    if valid is None or other is None:
        return other if valid is None else valid
    return bytes(map(operator.and_, valid, other))


def codes(columns):
    """A number for each row of both sides, the same for rows with the same by-values: the by-columns of both sides come in."""
    lefts, rights = columns
    if len(lefts) == 1:
        return lefts[0], rights[0]
    seen = {}
    return tuple(array('q', map(seen.setdefault, zip(*side), count(start))) for side, start in
                 ((lefts, 0), (rights, len(lefts[0]))))


def rows_in_order(groups, valid, rows):
    """The rows that are handed in, sorted by their groups and else as they stand; None if all are and stand so."""
    if groups is not None and any(map(operator.lt, islice(groups, 1, None), groups)):
        order = sorted(range(rows), key=groups.__getitem__)
        return array('q', order if valid is None else filter(valid.__getitem__, order))
    return None if valid is None else array('q', compress(range(rows), valid))


def pick(values, order):
    """The values of some rows."""
    return values if order is None else array('q', map(values.__getitem__, order))


def check_order(keys, groups, order, name):
    """ValueError with the row if, among the rows that are handed in, a key is smaller than the one before it in its group."""
    keys = pick(keys, order)
    falls = map(operator.lt, islice(keys, 1, None), keys)
    if groups is not None:
        groups = pick(groups, order)
        falls = map(operator.and_, falls, map(operator.eq, islice(groups, 1, None), groups))
    fault = next(compress(count(1), falls), None)
    if fault is not None:
        raise unsorted(name, *((fault, fault - 1) if order is None else (order[fault], order[fault - 1])))


class Frames:
    """The frames of these columns, none of which has a null: of 4,096 rows each, save the last, one after another in the
    same words, since a call copies those of a frame."""

    def __init__(self, columns, order, rows):
        self.columns, self.rows, self.first = [pick(column, order) for column in columns], rows, 0
        self.words = array('q', [1]) * (2 + 2 * MOST_ROWS * len(columns))

    def next(self):
        """Writes the next frame; how many words it has, 0 if there is none."""
        width, height = len(self.columns), min(MOST_ROWS, self.rows - self.first)
        if not height:
            return 0
        self.words[0], self.words[1] = height, width
        if height < MOST_ROWS:
            self.words[2 + height * width:2 + 2 * height * width] = array('q', [1]) * (height * width)
        for place, column in enumerate(self.columns, 2):
            self.words[place:2 + height * width:width] = column[self.first:self.first + height]
        self.first += height
        return 2 + 2 * height * width


class Found:
    """The matches of all left rows, put together from those of frames."""

    def __init__(self, rows, left_order, right_order, distance=False):
        self.rows, self.left_order, self.right_order, self.matches = rows, left_order, right_order, array('q')
        self.far = array('q') if distance else None
        self.output = array('q', bytes(8 * (2 + 2 * MOST_ROWS * (2 if distance else 1))))

    def take(self):
        """Takes what a turn wrote: its numbers, -1 where there is none, and the distances."""
        self.matches.extend(self.column(0))
        if self.far is not None:
            self.far.extend(self.column(1))

    def column(self, place):
        """A column of what a turn wrote, -1 for a null, whose value is 0."""
        width, size = self.output[1], self.output[0] * self.output[1]
        values, marks = self.output[2 + place:2 + size:width], self.output[2 + size + place:2 + 2 * size:width]
        return map((-1).__add__, map(operator.add, values, marks))

    def in_place(self, found):
        """What was found for the left rows as they were handed in, for the left rows in their places."""
        if self.left_order is None:
            return found
        return array('q', map(dict(zip(self.left_order, found)).get, range(self.rows), repeat(-1)))

    def positions(self):
        """The right rows by their own places, for the left rows in theirs."""
        found = self.matches
        if self.right_order is not None:
            places = dict(enumerate(self.right_order))
            found = array('q', map(places.get, found, repeat(-1)))
        return self.in_place(found)

    def distances(self):
        """The distances, for the left rows in their places."""
        return self.in_place(self.far)


def nothing(rows):
    """-1 for each left row: there is nothing to match."""
    return array('q', [-1]) * rows


def table_words(columns):
    """Columns of one length, each with which of its rows are there, or None, as a table in words."""
    rows, width = len(columns[0][0]), len(columns)
    size = rows * width
    words = array('q', [rows, width]) + array('q', [1]) * (2 * size)
    for place, (cells, valid) in enumerate(columns, 2):
        words[place:2 + size:width] = cells if valid is None else array('q', map(operator.mul, cells, valid))
        if valid is not None:
            words[place + size:2 + 2 * size:width] = array('q', iter(valid))
    return words


def cells_of(words, place):
    """A column of a table in words: its values, and which of them are there, or None if all are."""
    size, width = words[0] * words[1], words[1]
    valid = bytes(iter(words[2 + size + place::width]))
    return array('q', words[2 + place:2 + size:width]), None if all(valid) else valid


def numbers_of(words, before, place=0):
    """The right rows' numbers that a call wrote, or those in another column, with so many added, or -1."""
    cells, width = words[0] * words[1], words[1]
    values, marks = words[2 + place:2 + cells:width], words[2 + cells + place:2 + 2 * cells:width]
    return array('q', map((-1).__add__, map(operator.mul, map((before + 1).__add__, values), marks)))


def notices_of(words):
    """Which rows of a book stand, and the row that is the last of its group and key for each that does not, or -1."""
    size = 2 * words[0]
    found = map(operator.add, words[3:2 + size:2], words[3 + size::2])
    return bytes(iter(words[2:2 + size:2])), array('q', map((-1).__add__, found))


def pairs_of(numbered, interval, point):
    """Pairs that a call listed, in two columns: it was handed the intervals and the points from these on."""
    return array('q', map(interval.__add__, numbered[::2])), array('q', map(point.__add__, numbered[1::2]))


def joined(parts):
    """Parts of two columns, one behind the other."""
    return [array('q', chain.from_iterable(part[side] for part in parts)) for side in (0, 1)]


def by_intervals(parts):
    """Parts that have the same intervals beside other points, as one, interval by interval."""
    intervals, points = joined(parts)
    if len(parts) < 2:
        return intervals, points
    order = sorted(range(len(intervals)), key=intervals.__getitem__)
    return pick(intervals, order), pick(points, order)
