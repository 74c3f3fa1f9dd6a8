"""merge_asof for DataFrames: pandas' names, defaults and result, over the proved join."""
import collections
import datetime

from .interface import MOST_RANKS

# What is joined by on each side: a column's name, or the index where it is None; then the by-columns' names.
Keys = collections.namedtuple('Keys', 'on by')
# A by-column that has a list of ranks: its place among the by-columns, and the list's values, each with its place.
Listed = collections.namedtuple('Listed', 'column places')
# The groups of both sides: a number for each row, by which rows are sorted, or None; the by-columns that are handed in; and the
# list of ranks of the first of them, or None.
Groups = collections.namedtuple('Groups', 'numbers columns ranks')


def modules():
    """numpy, pandas and the module of columns for numpy: merge_asof alone needs them."""
    try:
        import numpy
        import pandas
    except ImportError as error:
        raise ImportError(f'merge_asof needs pandas: {error}') from None
    from . import arrays
    return numpy, pandas, arrays


def one(name, what):
    """The one name of a key, which may come in a list."""
    if isinstance(name, (list, tuple)):
        if len(name) != 1:
            raise ValueError(f'{what} names {len(name)} columns: a join has one key')
        return name[0]
    return name


def many(names):
    """The names of by-columns, one or a list."""
    return [] if names is None else list(names) if isinstance(names, (list, tuple)) else [names]


def keys_of(on, side_on, index, by, side_by, side):
    """What is joined by on a side."""
    said = [on is not None, side_on is not None, bool(index)]
    if sum(said) != 1:
        raise ValueError(f'the {side} key is named {sum(said)} times: on, {side}_on or {side}_index is wanted once')
    if by is not None and side_by is not None:
        raise ValueError(f'by and {side}_by cannot be given both')
    return Keys(None if index else one(on if side_on is None else side_on, 'on'), many(by if side_by is None else side_by))


def frame_of(table, side, pandas):
    """A side's DataFrame; a Series with a name is one of one column."""
    if isinstance(table, pandas.Series) and table.name is not None:
        return table.to_frame()
    if not isinstance(table, pandas.DataFrame):
        raise ValueError(f'{side} is a {type(table).__name__}: a DataFrame is wanted')
    if table.columns.nlevels > 1:
        raise ValueError(f'{side} has columns of {table.columns.nlevels} levels: one is wanted')
    return table


def column_of(table, name, side):
    """A column by its name."""
    places = [place for place, each in enumerate(table.columns) if each == name]
    if len(places) != 1:
        raise ValueError(f'{side} has {len(places)} columns with the name {name!r}: one is wanted')
    return table.iloc[:, places[0]]


def same_dtype(left, right, what):
    """ValueError unless both sides of a pair have the same dtype."""
    if left.dtype != right.dtype:
        raise ValueError(f'{what} has the dtype {left.dtype} on the left and {right.dtype} on the right: they must be the same')


def key_column(table, name, side, pandas):
    """A side's key as a Series without nulls, and the name that messages use."""
    series = table.index.to_series() if name is None else column_of(table, name, side)
    called = f'the {side} ' + ('index' if name is None else f'key {name!r}')
    if series.isna().any():
        raise ValueError(f'{called} has a null: row {int(series.isna().to_numpy().argmax())}')
    return series, called


def whole_key(series, called, numpy, pandas):
    """The array of a key: whole numbers or times as they are stored."""
    dtype = series.dtype
    if isinstance(dtype, pandas.DatetimeTZDtype):
        return series.dt.tz_convert('UTC').dt.tz_localize(None).to_numpy()
    if pandas.api.types.is_extension_array_dtype(dtype) and pandas.api.types.is_integer_dtype(dtype):
        return series.to_numpy(dtype=dtype.name.lower())
    if isinstance(dtype, numpy.dtype) and dtype.kind in 'iumM':
        return series.to_numpy()
    raise ValueError(f'{called} has the dtype {dtype}: whole numbers, datetime64 or timedelta64 are wanted')


def sorted_keys(left, right, keys, numpy, pandas, arrays):
    """The keys of both sides in numbers, and their dtype. ValueError with the row if one is not sorted."""
    series = [key_column(*each, pandas) for each in ((left, keys[0].on, 'left'), (right, keys[1].on, 'right'))]
    same_dtype(series[0][0], series[1][0], 'the key')
    columns = [whole_key(*each, numpy, pandas) for each in series]
    numbers = arrays.paired(*columns, [called for _, called in series])[::2]
    for each, (_, called) in zip(numbers, series):
        arrays.check_order(each, None, None, called)
    return numbers, columns[0].dtype


def codes_of(left, right, numpy, pandas, arrays):
    """Codes from 0 on of a pair of by-columns, and how many at most. A null is a value of its own, as pandas has it."""
    if isinstance(left.dtype, numpy.dtype) and left.dtype.kind == 'i':
        return arrays.coded(*(each.to_numpy().astype('i8', copy=False) for each in (left, right)))
    if isinstance(left.dtype, pandas.CategoricalDtype):
        right = right.cat.set_categories(left.cat.categories)
        sides = [each.cat.codes.to_numpy().astype('i8') + 1 for each in (left, right)]
        return (*sides, len(left.cat.categories) + 1)
    found, known = pandas.factorize(pandas.concat([left, right], ignore_index=True))
    found = found.astype('i8', copy=False) + 1
    return found[:len(left)], found[len(left):], len(known) + 1


def listed_of(ranks, names, pandas):
    """The by-column that ranks name, with its list, or None. A null, of whatever kind, is the value None."""
    if ranks is None:
        return None
    if not isinstance(ranks, dict) or len(ranks) != 1:
        raise ValueError('ranks is a dict of one by-column and its values in order')
    (name, values), = ranks.items()
    if name not in names:
        raise ValueError(f'ranks: {name!r} is no by-column of the left side')
    values = [None if pandas.isna(value) else value for value in values]
    if not 1 <= len(values) <= MOST_RANKS:
        raise ValueError(f'ranks: {name!r} has {len(values)} values: 1 to {MOST_RANKS} are wanted')
    places = {value: place for place, value in enumerate(values)}
    if len(places) < len(values):
        raise ValueError(f'ranks: {name!r} has a value twice')
    return Listed(names.index(name), places)


def places_of(series, places, side, numpy, pandas):
    """For each row of a by-column the place of its value in a list. ValueError with the row if the list lacks it."""
    found, known = pandas.factorize(series)
    found = numpy.array([places.get(value, -1) for value in known] + [places.get(None, -1)], dtype='i8')[found]
    if (found < 0).any():
        row = int((found < 0).argmax())
        raise ValueError(f'the {side} by-column {series.name!r} has a value that ranks do not list: row {row} has {series.iloc[row]!r}')
    return found


def codes_for(places):
    """The codes of a list of values, in order: the values themselves if all are whole numbers, else their places."""
    if all(hasattr(value, '__index__') for value in places):
        return [int(value) for value in places]
    return list(places.values())


def by_pairs(left, right, keys):
    """The pairs of by-columns, one of each side."""
    if len(keys[0].by) != len(keys[1].by):
        raise ValueError(f'left_by has {len(keys[0].by)} columns and right_by has {len(keys[1].by)}')
    pairs = []
    for names in zip(keys[0].by, keys[1].by):
        pairs.append([column_of(*each) for each in ((left, names[0], 'left'), (right, names[1], 'right'))])
        same_dtype(*pairs[-1], f'the by-column {names[0]!r}')
    return pairs


def combined(codes, arrays):
    """Codes of several pairs of by-columns as those of one: the same for rows with the same codes, and in their order."""
    left, right, width = codes[0]
    for one, other, more in codes[1:]:
        left, right, width = arrays.coded(left * more + one, right * more + other)
    return left, right, width


def ranked_groups(pairs, listed, numpy, pandas, arrays):
    """The groups of by-columns of which one has a list: it is handed in first, in codes, and the others behind it, as one."""
    ranked = pairs.pop(listed.column)
    places = [places_of(*each, numpy, pandas) for each in zip(ranked, (listed.places,) * 2, ('left', 'right'))]
    others = [combined([codes_of(*pair, numpy, pandas, arrays) for pair in pairs], arrays)] if pairs else []
    one, other, _ = combined([(*places, len(listed.places)), *others], arrays)
    codes = codes_for(listed.places)
    columns = [[numpy.array(codes, dtype='i8')[places[side]], *(each[side] for each in others)] for side in (0, 1)]
    return Groups((one, other), columns, (0, codes))


def groups_of(left, right, keys, ranks, numpy, pandas, arrays):
    """The groups of both sides."""
    pairs, listed = by_pairs(left, right, keys), listed_of(ranks, keys[0].by, pandas)
    if listed is not None:
        return ranked_groups(pairs, listed, numpy, pandas, arrays)
    if not pairs:
        return Groups((None, None), ([], []), None)
    one, other, _ = combined([codes_of(*pair, numpy, pandas, arrays) for pair in pairs], arrays)
    return Groups((one, other), ([one], [other]), None)


def whole_tolerance(tolerance, dtype, numpy, pandas):
    """A tolerance in the unit of the key."""
    if tolerance is None:
        return None
    if dtype.kind in 'mM':
        if not isinstance(tolerance, (datetime.timedelta, numpy.timedelta64)):
            raise ValueError(f'tolerance {tolerance!r} is no timedelta, and the key is a time')
        unit = numpy.timedelta64(1, numpy.datetime_data(dtype)[0])
        tolerance = int(pandas.Timedelta(tolerance).to_timedelta64() // unit)
    elif isinstance(tolerance, bool) or not hasattr(tolerance, '__index__'):
        raise ValueError(f'tolerance {tolerance!r} is no whole number, and the key is one')
    if tolerance < 0:
        raise ValueError(f'tolerance {tolerance} is below 0')
    return int(tolerance)


def kept_columns(left, right, keys):
    """The places of the columns that come out, of each side. Keys and by-columns with the same name on both sides come out
    once: those of the left, or, as pandas has it, those of the right if left has no row."""
    pairs = zip([keys[0].on, *keys[0].by], [keys[1].on, *keys[1].by])
    same = [name for other, name in pairs if name is not None and other == name]
    return ([place for place, name in enumerate(left.columns) if len(left) or name not in same],
            [place for place, name in enumerate(right.columns) if not len(left) or name not in same])


def suffixed(left, right, suffixes):
    """The names of both sides' columns: those on both sides get the suffixes."""
    shared = left.intersection(right)
    if len(shared) == 0:
        return left, right
    if len(suffixes) != 2 or not any(suffixes):
        raise ValueError(f'columns {list(shared)} are on both sides: two suffixes are wanted, one of them not empty')

    def renamed(names, suffix):
        """Names with the suffix where both sides have them."""
        return names if suffix is None else names.map(lambda name: f'{name}{suffix}' if name in shared else name)
    return renamed(left, suffixes[0]), renamed(right, suffixes[1])


def values_of(table, place, pandas):
    """The values of a column, as the table stores them."""
    series = table.iloc[:, place]
    return series.array if pandas.api.types.is_extension_array_dtype(series.dtype) else series.to_numpy()


def put_together(left, right, places, positions, index, pandas):
    """The columns at these places of both sides: the left rows, and the right rows at these positions, nulls at -1, for which a
    column's dtype is widened as pandas does it. Each column is written once."""
    columns = [values_of(left, place, pandas).copy() for place in places[0]]
    columns += [pandas.api.extensions.take(values_of(right, place, pandas), positions, allow_fill=True) for place in places[1]]
    return pandas.DataFrame(dict(enumerate(columns)), index=index, copy=False)


def distance_column(distances, dtype, numpy, pandas):
    """Distances, -1 for none, as a column: those of times as timedelta64 in the key's unit, with NaT, else nullable numbers."""
    none = distances < 0
    if dtype.kind in 'mM':
        return numpy.where(none, numpy.iinfo('i8').min, distances).view(f'm8[{numpy.datetime_data(dtype)[0]}]')
    return pandas.arrays.IntegerArray(numpy.where(none, 0, distances), none)


def merge_asof(left, right, on=None, left_on=None, right_on=None, left_index=False, right_index=False, by=None, left_by=None,
               right_by=None, suffixes=('_x', '_y'), tolerance=None, allow_exact_matches=True, direction='backward', ranks=None,
               distance=None):
    """pandas.merge_asof over the proved join: the same parameters, and the same columns, order, dtypes and index come out.

    Keys are whole numbers, datetime64 or timedelta64, of one dtype on both sides, without nulls, and ascend. By-columns are
    of any dtype, the same on both sides, in any order; a null by-value is a value like any other. ValueError, before
    anything is joined, says in one line what is wrong, and which row.

    `ranks`, which pandas does not have, names one by-column, by its left name, and all its values in their order, 1 to 64, each
    once: {'band': ['stalls', 'circle', 'gods']}. The join is then opened with this list, and its rows are handed in in this
    order. It changes no match; a by-value that is not listed, on either side, is a ValueError.

    `distance`, which pandas does not have either, is the name of one more column, the last: how far the two keys are apart, null
    where there is no match or it is above 2^63 - 1. Of times it is a timedelta64 of their unit, of numbers an Int64.

    What differs from pandas, by rule:
    - nearest, of two rows as near, takes the one ahead, and of equal keys ahead the last; pandas takes the one behind, and
      of equal keys ahead the first.
    - nearest with allow_exact_matches=False is a ValueError.
    - keys of floating-point numbers are a ValueError, and so is left_index without right_index.
    - distances are exact; pandas' wrap around at 2^63, for nearest and for a tolerance.
    - None and NaN in one by-column of objects are one value; pandas has two.
    - the index of a result without rows is a RangeIndex.
    - numpy.timedelta64 is taken as a tolerance too, and so are nullable integers as keys.
    """
    numpy, pandas, arrays = modules()
    from .asof_join import Side, found_by, judge_options
    judge_options(direction, allow_exact_matches, None)
    if left_index and not right_index:
        raise ValueError('left_index is taken with right_index alone: name the left key by left_on')
    keys = (keys_of(on, left_on, left_index, by, left_by, 'left'), keys_of(on, right_on, right_index, by, right_by, 'right'))
    left, right = frame_of(left, 'left', pandas), frame_of(right, 'right', pandas)
    tools = (numpy, pandas, arrays)
    numbers, dtype = sorted_keys(left, right, keys, *tools)
    tolerance = whole_tolerance(tolerance, dtype, numpy, pandas)
    judge_options(direction, allow_exact_matches, tolerance)
    groups = groups_of(left, right, keys, ranks, *tools)
    places = kept_columns(left, right, keys)
    names = suffixed(left.columns[places[0]], right.columns[places[1]], suffixes)
    if distance is not None and any(distance in each for each in names):
        raise ValueError(f'distance: {distance!r} is the name of another column')
    sides = [Side(*each) for each in zip(numbers, groups.numbers, (None, None), groups.columns)]
    found = found_by(*sides, direction, allow_exact_matches, tolerance, groups.ranks, distance is not None)
    index = left.index if len(left) or not right_index else right.index[:0]
    index = index if left_index or right_index else pandas.RangeIndex(len(left))
    result = put_together(left, right, places, found.rows, index, pandas)
    result.columns = names[0].append(names[1])
    if distance is not None:
        result[distance] = distance_column(found.distances, dtype, numpy, pandas)
    return result
