"""The join of two tables in memory: columns in, the places of the right rows out."""
import collections
import functools

from . import interface as c
from .columns import listed, same_length
from .join import Join, Refused
from .lent import in_place


AsOf = collections.namedtuple('AsOf', 'rows distances')
AsOf.__doc__ = """What `asof` tells with distances: for each left row the place of the right row that it takes, or -1, and the
distance of the two keys, in their own unit: -1 where there is no match, or the distance is above 2^63 - 1."""


@functools.lru_cache(maxsize=None)
def tools():
    """The functions over columns: those with numpy if it is there. It is looked for when the first columns come, not before."""
    try:
        from . import arrays
        return arrays
    except ImportError:
        from . import plain
        return plain


class Side:
    """One table: its keys, its groups or None, and which rows are handed in, in which order, or None for all as they stand. Rows are
    sorted by their groups, and these are the by-column that is handed in, unless by-columns that tell the same groups are named."""

    def __init__(self, keys, groups, valid, by=None):
        self.keys, self.groups, self.rows = keys, groups, len(keys)
        self.by = by if by is not None else [] if groups is None else [groups]
        self.order = tools().rows_in_order(groups, valid, self.rows)

    def frames(self):
        """Its frames: the by-columns, then the key."""
        return tools().Frames([*self.by, self.keys], self.order, self.rows if self.order is None else len(self.order))


def sides(left_on, right_on, left_by, right_by):
    """Both tables of the columns that a caller hands in. A row in which one of them is null is not handed in."""
    left_keys, left_valid, right_keys, right_valid = tools().paired(left_on, right_on, ('left_on', 'right_on'))
    left_by, right_by = listed(left_by), listed(right_by)
    if len(left_by) != len(right_by):
        raise ValueError(f'left_by has {len(left_by)} columns and right_by has {len(right_by)}')
    columns = ([], [])
    for place, pair in enumerate(zip(left_by, right_by)):
        names = [f'{side}_by[{place}]' for side in ('left', 'right')]
        left, left_there, right, right_there = tools().paired(*pair, names)
        same_length(len(left), len(left_keys), names[0])
        same_length(len(right), len(right_keys), names[1])
        columns[0].append(left)
        columns[1].append(right)
        left_valid, right_valid = tools().both(left_valid, left_there), tools().both(right_valid, right_there)
    groups = tools().codes(columns) if left_by else (None, None)
    return Side(left_keys, groups[0], left_valid), Side(right_keys, groups[1], right_valid)


def hand_in_right(join, address, length):
    """Hands in a right frame, in a larger area if there is no room: for twice as many rows as are held then."""
    try:
        join.right_at(address, length)
    except Refused as refused:
        if refused.number != c.NO_ROOM:
            raise
        join.grow(right_rows=2 * (join.held + c.MOST_ROWS))
        join.right_at(address, length)


def matched(join, lefts, rights, found):
    """Makes all calls of a join over the frames of two tables: a left frame when none waits, a right frame when a turn
    wants one. The words that frames come in, and the output, are this function's own, and lent for all calls at once."""
    with in_place(lefts.words, 'frames') as (left, _), in_place(rights.words, 'frames') as (right, _), \
            in_place(found.output, 'the output', write=True) as output:
        while True:
            answer = join.turn_at(*output)
            if answer == c.WROTE:
                found.take()
            elif answer == c.IDLE:
                length = lefts.next()
                if not length:
                    return
                join.left_at(left, length)
            else:
                length = rights.next()
                hand_in_right(join, right, length) if length else join.end_right()


def found_by(left, right, strategy, allow_exact_matches, tolerance, ranks=None, distance=False):
    """The place of each left row's right row, or -1, and with `distance` their distances, else None. The tables are sorted: the
    library is not asked to check it again."""
    join = Join(by=len(left.by), strategy=strategy, allow_exact_matches=allow_exact_matches, tolerance=tolerance, check='off',
                right_rows=4 * c.MOST_ROWS, ranks=ranks, distance=distance)
    if not right.rows or right.order is not None and not len(right.order):
        return AsOf(tools().nothing(left.rows), tools().nothing(left.rows) if distance else None)
    found = tools().Found(left.rows, left.order, right.order, distance)
    matched(join, left.frames(), right.frames(), found)
    return AsOf(found.positions(), found.distances() if distance else None)


def judge_options(strategy, allow_exact_matches, tolerance):
    """ValueError for options that the library refuses, in words of this module."""
    if strategy not in c.STRATEGIES:
        raise ValueError(f'strategy {strategy!r} is none of {", ".join(c.STRATEGIES)}')
    if strategy == 'nearest' and not allow_exact_matches:
        raise ValueError('nearest without exact matches is not taken')
    if tolerance is not None and not (hasattr(tolerance, '__index__') and 0 <= tolerance < 2**63):
        raise ValueError(f'tolerance {tolerance!r} is no whole number from 0 to 2^63 - 1')


def asof(left_on, right_on, left_by=None, right_by=None, strategy='backward', allow_exact_matches=True, tolerance=None,
         distance=False):
    """For each left row the place of the right row that it takes, or -1: 64-bit numbers, in an array of numpy if it is
    there, else in one of the module array. With `distance` a pair of such arrays, `rows` and `distances`: behind the places how
    far the two keys are apart, in their own unit, -1 where there is no match or the distance is above 2^63 - 1.

    Keys and by-columns are anything with the buffer protocol of whole numbers, of any width, or arrays of numpy, those of
    datetime64 and timedelta64 too; nulls are told by a masked array, by NaT, or by a Column. `left_by` and `right_by` are a
    column or a list of columns: rows match within equal groups alone. Keys ascend within each group; groups may stand in
    any order. A row with a null key or by-value matches nothing, wherever it stands.

    `backward` takes the last row whose key is not greater, `forward` the first whose key is not smaller, `nearest` the
    least distance, then the greater key, then the last row. With `allow_exact_matches` off equal keys do not match; nearest
    needs it on. `tolerance` is the greatest distance of two keys, in their own unit.

    ValueError, before anything is joined, says what is wrong with a column or an option.

    >>> from array import array
    >>> list(asof(array('q', [5, 20, 25]), array('q', [10, 20, 20, 30])))
    [-1, 2, 2]
    >>> rows, distances = asof(array('q', [5, 20, 25]), array('q', [10, 20, 20, 30]), distance=True)
    >>> list(distances)
    [-1, 0, 5]
    """
    judge_options(strategy, allow_exact_matches, tolerance)
    left, right = sides(left_on, right_on, left_by, right_by)
    for side, name in ((left, 'left_on'), (right, 'right_on')):
        tools().check_order(side.keys, side.groups, side.order, name)
    tolerance = None if tolerance is None else int(tolerance)
    found = found_by(left, right, strategy, allow_exact_matches, tolerance, distance=distance)
    return found if distance else found.rows
