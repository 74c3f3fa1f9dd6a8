"""Columns with numpy: whole columns at once, and copies of slices into the words of frames."""
import numpy

from .columns import WANTED, parted, same_length, unsorted
from .interface import MOST_ROWS

# Columns whose numbers span no more than this are sorted by them, without a table of those that occur.
NARROW = 2**31
# The bits of a pass of the sort: numpy sorts numbers of 16 bits in time that grows with their count alone.
PASS = 16


def array_of(values, name):
    """A column as an array of one dimension, and which of its rows are there, or None: a masked array says it, and so does
    NaT."""
    try:
        array = numpy.asanyarray(values)
    except (TypeError, ValueError) as error:
        raise ValueError(f'{name} cannot be read: {error}') from None
    if array.ndim != 1 or array.dtype.kind not in 'iumM':
        raise ValueError(f'{name} has the dtype {array.dtype} in {array.ndim} dimensions: {WANTED}')
    valid = None
    if isinstance(array, numpy.ma.MaskedArray):
        valid, array = ~numpy.ma.getmaskarray(array), array.data
    if array.dtype.kind in 'mM':
        there = ~numpy.isnat(array)
        valid = valid if there.all() else there if valid is None else valid & there
    return array, valid


def numbers(column, name):
    """The array of a column, and which of its rows are there, or None if all are."""
    values, marks = parted(column)
    array, valid = array_of(values, name)
    if marks is not None:
        marks = numpy.asarray(memoryview(marks) if isinstance(marks, (bytes, bytearray)) else marks).astype(bool)
        same_length(marks.size, array.size, f'the validity of {name}')
        valid = marks if valid is None else valid & marks
    return array, None if valid is None or valid.all() else valid


def whole(array):
    """The whole numbers of an array; those of a time are the ones that it is stored as. Without a copy if they have 64 bits."""
    if array.dtype.kind in 'mM':
        return array.astype(array.dtype.newbyteorder('='), copy=False).view('i8')
    return array.astype('i8', copy=False)


def shifted(array):
    """Numbers of 64 bits without a sign, moved down by 2^63: their order and their distances stay."""
    return (array.astype('u8', copy=False) ^ numpy.uint64(2**63)).view('i8')


def is_high(array):
    """Whether an array has numbers above those of 64 bits with a sign."""
    return array.dtype.kind == 'u' and array.dtype.itemsize == 8 and array.size and int(array.max()) >= 2**63


def time_of(array):
    """The kind and unit of an array's times, or None where it has none."""
    return array.dtype.newbyteorder('=') if array.dtype.kind in 'mM' else None


def alike(columns, names):
    """Columns in numbers that compare as they do, each with which of them are there, or None."""
    found = [numbers(*pair) for pair in zip(columns, names)]
    first, high = found[0][0], any(is_high(array) for array, _ in found)
    for (array, _), name in zip(found[1:], names[1:]):
        if time_of(first) != time_of(array):
            raise ValueError(f'{names[0]} has the dtype {first.dtype} and {name} {array.dtype}: times of one kind and unit are wanted')
        if high and first.dtype.newbyteorder('=') != array.dtype.newbyteorder('='):
            raise ValueError(f'{names[0]} and {name}: one has numbers above 64 bits with a sign, and the other has a sign')
    return [((shifted if high else whole)(array), valid) for array, valid in found]


def paired(left, right, names):
    """Two columns, one of each side, in numbers that compare as they do; with which of them are there."""
    one, other = alike((left, right), names)
    return (*one, *other)


def signed(column, name):
    """A column in its own numbers, with which of them are there, or None."""
    array, valid = numbers(column, name)
    if is_high(array):
        raise ValueError(f'{name} has numbers above 64 bits with a sign')
    return whole(array), valid


def both(valid, other):
    """Which rows are there in two columns."""
    if valid is None or other is None:
        return other if valid is None else valid
    return valid & other


def span(left, right):
    """The least number of two columns, and how many there are from it to the greatest."""
    least = min((int(side.min()) for side in (left, right) if side.size), default=0)
    return least, max((int(side.max()) for side in (left, right) if side.size), default=0) - least + 1


def coded(left, right):
    """Codes of two columns from 0 on, the same for the same numbers, and how many codes there are at most."""
    least, width = span(left, right)
    if width <= NARROW:
        return left - least, right - least, width
    known, places = numpy.unique(numpy.concatenate([left, right]), return_inverse=True)
    return places[:left.size], places[left.size:], known.size


def codes(columns):
    """A number for each row of both sides, the same for rows with the same by-values: the by-columns of both sides come in."""
    left, right, width = coded(columns[0][0], columns[1][0])
    for one, other in zip(columns[0][1:], columns[1][1:]):
        one, other, more = coded(one, other)
        left, right, width = left * more + one, right * more + other, width * more
        if width > NARROW:
            left, right, width = coded(left, right)
    return left, right


def sorted_by(groups):
    """The rows sorted by their groups and else as they stand: a pass for each 16 bits of the groups, from the lowest."""
    order, shift, most = numpy.argsort(groups.astype('u2'), kind='stable'), PASS, int(groups.max())
    while most >> shift:
        digits = (groups >> shift).astype('u2')
        order, shift = order[numpy.argsort(digits[order], kind='stable')], shift + PASS
    return order


def rows_in_order(groups, valid, rows):
    """The rows that are handed in, sorted by their groups and else as they stand; None if all are and stand so."""
    if groups is not None and rows and (groups[1:] < groups[:-1]).any():
        order = sorted_by(groups)
        return order if valid is None else order[valid[order]]
    return None if valid is None else numpy.flatnonzero(valid)


def pick(values, order):
    """The values of some rows."""
    return values if order is None else values[order]


def check_order(keys, groups, order, name):
    """ValueError with the row if, among the rows that are handed in, a key is smaller than the one before it in its group."""
    if order is None or (keys[1:] < keys[:-1]).any():
        keys = pick(keys, order)
        falls = keys[1:] < keys[:-1]
        if groups is not None and falls.any():
            groups = pick(groups, order)
            falls &= groups[1:] == groups[:-1]
        if falls.any():
            fault = int(falls.argmax()) + 1
            raise unsorted(name, *((fault, fault - 1) if order is None else (order[fault], order[fault - 1])))


class Frames:
    """The frames of these columns, none of which has a null: of 4,096 rows each, save the last, one after another in the
    same words, since a call copies those of a frame."""

    def __init__(self, columns, order, rows):
        self.columns, self.order, self.rows, self.first = columns, order, rows, 0
        self.words = numpy.ones(2 + 2 * MOST_ROWS * len(columns), dtype='i8')

    def next(self):
        """Writes the next frame; how many words it has, 0 if there is none."""
        width, height = len(self.columns), min(MOST_ROWS, self.rows - self.first)
        if not height:
            return 0
        self.words[:2] = height, width
        if height < MOST_ROWS:
            self.words[2 + height * width:2 + 2 * height * width] = 1
        places = slice(self.first, self.first + height)
        for place, column in enumerate(self.columns, 2):
            self.words[place:2 + height * width:width] = column[places if self.order is None else self.order[places]]
        self.first += height
        return 2 + 2 * height * width


class Found:
    """The matches of all left rows, put together from those of frames."""

    def __init__(self, rows, left_order, right_order, distance=False):
        self.found, self.left_order, self.right_order, self.taken = numpy.empty(rows, dtype='i8'), left_order, right_order, 0
        if left_order is not None and len(left_order) < rows:
            self.found.fill(-1)
        self.far = nothing(rows) if distance else None
        self.output = numpy.empty(2 + 2 * MOST_ROWS * (2 if distance else 1), dtype='i8')

    def take(self):
        """Takes what a turn wrote: the right rows by their own places, for the left rows in theirs, -1 where there is none, and
        their distances."""
        height, width = int(self.output[0]), int(self.output[1])
        cells, marks = self.output[2:2 + 2 * height * width].reshape(2, height, width)
        places = slice(self.taken, self.taken + height)
        self.taken += height
        if self.far is not None:
            there = places if self.left_order is None else self.left_order[places]
            self.far[there] = numpy.where(marks[:, 1], cells[:, 1], -1)
        self.take_places(cells[:, 0], marks[:, 0], places)

    def take_places(self, values, marks, places):
        """Takes the numbers of right rows, for the left rows at these places as they were handed in."""
        if self.right_order is None and self.left_order is None:
            numpy.add(values, marks, out=self.found[places])
            self.found[places] -= 1
            return
        matches = values + marks - 1 if self.right_order is None else numpy.where(marks, self.right_order[values], -1)
        self.found[places if self.left_order is None else self.left_order[places]] = matches

    def positions(self):
        """All of them."""
        return self.found

    def distances(self):
        """All distances."""
        return self.far


def nothing(rows):
    """-1 for each left row: there is nothing to match."""
    return numpy.full(rows, -1, dtype='i8')


def table_words(columns):
    """Columns of one length, each with which of its rows are there, or None, as a table in words."""
    rows, width = len(columns[0][0]), len(columns)
    words = numpy.ones(2 + 2 * rows * width, dtype='i8')
    words[:2] = rows, width
    values, marks = words[2:].reshape(2, rows, width)
    for place, (cells, valid) in enumerate(columns):
        values[:, place] = cells if valid is None else numpy.where(valid, cells, 0)
        if valid is not None:
            marks[:, place] = valid
    return words


def cells_of(words, place):
    """A column of a table in words: its values, and which of them are there, or None if all are."""
    rows, width = words[0], words[1]
    values, marks = numpy.frombuffer(words, dtype='i8')[2:].reshape(2, rows, width)
    valid = marks[:, place].astype(bool)
    return values[:, place].copy(), None if valid.all() else valid


def numbers_of(words, before, place=0):
    """The right rows' numbers that a call wrote, or those in another column, with so many added, or -1."""
    rows, width = words[0], words[1]
    values, marks = numpy.frombuffer(words, dtype='i8')[2:2 + 2 * rows * width].reshape(2, rows, width)[:, :, place]
    return numpy.where(marks, values + before, -1)


def notices_of(words):
    """Which rows of a book stand, and the row that is the last of its group and key for each that does not, or -1."""
    values, marks = numpy.frombuffer(words, dtype='i8')[2:].reshape(2, words[0], 2)
    return values[:, 0].astype(bool), values[:, 1] + marks[:, 1] - 1


def pairs_of(numbered, interval, point):
    """Pairs that a call listed, in two columns: it was handed the intervals and the points from these on."""
    found = numpy.frombuffer(numbered, dtype='i8')
    return found[::2] + interval, found[1::2] + point


def joined(parts):
    """Parts of two columns, one behind the other."""
    return [numpy.concatenate([part[side] for part in parts] or [numpy.empty(0, dtype='i8')]) for side in (0, 1)]


def by_intervals(parts):
    """Parts that have the same intervals beside other points, as one, interval by interval."""
    intervals, points = joined(parts)
    if len(parts) < 2:
        return intervals, points
    order = numpy.argsort(intervals, kind='stable')
    return intervals[order], points[order]
