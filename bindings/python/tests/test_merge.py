"""merge_asof beside pandas': random frames, and every difference that is allowed by its name."""
import collections
import contextlib
import io
import os
import random
import re
import unittest
from unittest import mock

from rowkeeper import asof_join, merge_asof
from rowkeeper.interface import STRATEGIES
from rowkeeper.library import ROOT

try:
    import numpy
    import pandas
except ImportError:
    numpy = pandas = None

FRAMES = int(os.environ.get('ROWKEEPER_FRAMES', '2000'))
# What may differ, by the docstring of merge_asof and docs/DIFFERENCES.md.
TIE, LAST_AHEAD = 'a tie of nearest goes to the row ahead', 'of equal keys ahead nearest takes the last'

# The kinds of keys, from numbers; those of times have a unit of their own.
KEYS = {
    'int64': lambda cells: numpy.array(cells, dtype='i8'),
    'int32': lambda cells: numpy.array(cells, dtype='i4'),
    'uint64': lambda cells: numpy.array(cells, dtype='u8'),
    'datetime64': lambda cells: numpy.array(cells, dtype='M8[ns]'),
    'timedelta64': lambda cells: numpy.array(cells, dtype='m8[ns]'),
    'zoned': lambda cells: pandas.DatetimeIndex(numpy.array(cells, dtype='M8[ns]'), tz='UTC').tz_convert('Europe/Paris'),
}
TIMES = ('datetime64', 'timedelta64', 'zoned')
# The kinds of by-columns, from numbers 0 to 3.
GROUPS = {
    'number': lambda cells: numpy.array(cells, dtype='i8') - 2,
    'far': lambda cells: numpy.array(cells, dtype='i8') * 2**60,
    'text': lambda cells: numpy.array(list('abcd'), dtype=object)[cells] if cells else numpy.array([], dtype=object),
    'null': lambda cells: numpy.array(['a', 'b', None, 'd'], dtype=object)[cells] if cells else numpy.array([], dtype=object),
    'category': lambda cells: pandas.Categorical.from_codes(cells, categories=list('dbca')),
    'null category': lambda cells: pandas.Categorical.from_codes([cell - 1 for cell in cells], categories=list('bda')),
    'truth': lambda cells: numpy.array([cell % 2 == 1 for cell in cells], dtype=bool),
}
# What stands beside the keys, from how many rows there are.
OTHERS = {
    'int64': lambda rows: numpy.arange(rows, dtype='i8') + 2**53,
    'int8': lambda rows: (numpy.arange(rows) % 100).astype('i1'),
    'float32': lambda rows: numpy.arange(rows, dtype='f4') / 3,
    'bool': lambda rows: numpy.arange(rows) % 2 == 0,
    'text': lambda rows: numpy.array([f'x{row}' for row in range(rows)], dtype=object),
    'datetime64': lambda rows: numpy.arange(rows, dtype='i8').astype('M8[ns]'),
    'category': lambda rows: pandas.Categorical([f'c{row % 3}' for row in range(rows)], categories=['c0', 'c1', 'c2']),
    'Int64': lambda rows: pandas.array(numpy.arange(rows), dtype='Int64'),
    'string': lambda rows: pandas.array([f's{row}' for row in range(rows)], dtype='string'),
}


class Tables:
    """Two frames at random, and how they are to be joined."""

    def __init__(self, r):
        self.kind, self.most = r.choice(list(KEYS)), r.choice((3, 20, 60))
        self.by = [r.choice(list(GROUPS)) for _ in range(r.choice((0, 0, 1, 1, 2)))]
        self.by = ['text' if kind in ('null', 'null category', 'category') and len(self.by) > 1 else kind for kind in self.by]
        self.left, self.right = (self.side(r, 'left'), self.side(r, 'right'))
        self.right['place'] = numpy.arange(len(self.right))
        self.how = {'direction': r.choice(STRATEGIES), 'tolerance': self.tolerance(r), **self.names(r)}
        self.how['allow_exact_matches'] = self.how['direction'] == 'nearest' or r.random() < 0.6
        self.ranks = self.listed(r) if self.by and r.random() < 0.4 else None

    def listed(self, r):
        """All values of one by-column, in any order, as a list of ranks."""
        place = r.randrange(len(self.by))
        values = list(pandas.unique(pandas.Series(GROUPS[self.by[place]]([0, 1, 2, 3]))))
        r.shuffle(values)
        return {f'g{place}': values}

    def side(self, r, side):
        """A frame: the key, the by-columns, others, in any order, with some index."""
        rows = r.choice((0, 1, 6, 25))
        columns = {'k': KEYS[self.kind](sorted(r.randrange(self.most) for _ in range(rows)))}
        for place, kind in enumerate(self.by):
            columns[f'g{place}'] = GROUPS[kind]([r.randrange(4) for _ in range(rows)])
        for name in r.sample(['v', 'w', side], r.randrange(4)):
            columns[name] = OTHERS[r.choice(list(OTHERS))](rows)
        names = list(columns)
        r.shuffle(names)
        return pandas.DataFrame({name: columns[name] for name in names}, index=range(100, 100 + rows))

    def tolerance(self, r):
        """A tolerance, or none."""
        number = r.choice((None, None, 0, 1, 5))
        return number if number is None or self.kind not in TIMES else pandas.Timedelta(number, 'ns')

    def names(self, r):
        """How the keys are named: alike on both sides, or not, or by the index of one side."""
        by = [f'g{place}' for place in range(len(self.by))]
        named = {'by': by if len(by) != 1 or r.random() < 0.5 else by[0]} if by else {}
        way = r.choice(('on', 'on', 'both', 'other', 'indexes', 'right'))
        if way == 'on':
            return {'on': 'k', **named, **r.choice(({}, {'suffixes': ('', '_r')}, {'suffixes': (None, '_right')}))}
        if way == 'both':
            return {'left_on': 'k', 'right_on': 'k', **named}
        if way == 'indexes' and self.kind != 'int32':
            self.left, self.right = self.left.set_index('k'), self.right.set_index('k')
            return {'left_index': True, 'right_index': True, **named}
        if way == 'right' and not by and self.kind != 'int32':
            self.right = self.right.set_index('k')
            return {'left_on': 'k', 'right_index': True}
        self.right = self.right.rename(columns={name: f'{name}r' for name in ['k', *by]})
        return {'left_on': 'k', 'right_on': 'kr', **({'left_by': by, 'right_by': [f'{name}r' for name in by]} if by else {})}

    def keys(self, side):
        """The key of a side in numbers."""
        name = next((name for name in ('k', 'kr') if name in side.columns), None)
        key = side.index if name is None else pandas.Index(side[name])
        return key.asi8 if self.kind in TIMES else key.to_numpy()

    def allowed(self, row, ours, theirs):
        """The name of a difference: both rows are as near, or as far ahead; else none."""
        key, near, far = (int(each) for each in (self.keys(self.left)[row], self.keys(self.right)[ours], self.keys(self.right)[theirs]))
        if self.how['direction'] != 'nearest' or abs(near - key) != abs(far - key):
            return None
        if near > key > far:
            return TIE
        return LAST_AHEAD if near == far > key and ours > theirs else None


@unittest.skipUnless(pandas, 'there is no pandas')
class Pandas(unittest.TestCase):
    """The same frames by both."""

    def both(self, tables):
        """Holds one pair of frames against pandas; the differences that were met, by name, and how many rows matched."""
        ours = merge_asof(tables.left, tables.right, **tables.how, ranks=tables.ranks)
        theirs = pandas.merge_asof(tables.left, tables.right, **tables.how)
        places = [frame['place'].fillna(-1).astype('i8').to_numpy() for frame in (ours, theirs)]
        differ = numpy.flatnonzero(places[0] != places[1])
        met = [tables.allowed(row, *(int(each[row]) for each in places)) for row in differ]
        self.assertNotIn(None, met)
        self.assertEqual(list(ours.dtypes), list(theirs.dtypes))
        if len(differ):
            ours, theirs = (frame[places[0] == places[1]] for frame in (ours, theirs))
        how = {} if len(theirs) else {'check_index_type': False, 'check_freq': False}
        pandas.testing.assert_frame_equal(ours, theirs, **how)
        return met, int((places[0] >= 0).sum())

    def test_random(self):
        """Random frames in every way of naming keys, some with a list of ranks; all that differs is named, and each name is met."""
        names, matched, listed = collections.Counter(), 0, 0
        for seed in range(FRAMES):
            with self.subTest(seed=seed):
                tables = Tables(random.Random(seed))
                met, found = self.both(tables)
                names.update(met)
                matched += found
                listed += found if tables.ranks else 0
        self.assertEqual(set(names), {TIE, LAST_AHEAD})
        self.assertGreater(matched, 2 * FRAMES)
        self.assertGreater(listed, FRAMES // 10)
        print(f'merge_asof and pandas.merge_asof: {FRAMES:,} frames, {matched:,} matches; '
              + ', '.join(f'{count:,} × {name}' for name, count in sorted(names.items())))

    def test_far_apart(self):
        """Distances of 2^63 and more: exact here, and pandas' wrap around; within a tolerance, and the nearest."""
        left = pandas.DataFrame({'k': [2**62]})
        right = pandas.DataFrame({'k': [-2**63, 2**62 + 10], 'place': [0, 1]})
        self.assertEqual(merge_asof(left, right, on='k', direction='nearest')['place'].tolist(), [1])
        self.assertEqual(pandas.merge_asof(left, right, on='k', direction='nearest')['place'].tolist(), [0])
        self.assertTrue(merge_asof(left, right, on='k', tolerance=5)['place'].isna().all())
        self.assertEqual(pandas.merge_asof(left, right, on='k', tolerance=5)['place'].tolist(), [0])

    def test_readme(self):
        """README's sample prints what is shown there."""
        with open(os.path.join(ROOT, 'README.md'), encoding='utf-8') as file:
            shown = re.search(r'(?s)## For a data engineer.*?```python\n(.*?)```\n\n```text\n(.*?)```', file.read())
        out = io.StringIO()
        with contextlib.redirect_stdout(out):
            exec(shown.group(1), {})
        self.assertEqual(out.getvalue(), shown.group(2))

    def test_numbers_without_a_sign(self):
        """Keys above 2^63, which pandas' own numbers hold."""
        left, right = (pandas.DataFrame({'k': numpy.array(keys, dtype='u8')}) for keys in ([1, 2**63, 2**64 - 1], [0, 2**63 - 1, 2**64 - 2]))
        right['v'] = ['a', 'b', 'c']
        pandas.testing.assert_frame_equal(merge_asof(left, right, on='k'), pandas.merge_asof(left, right, on='k'))

    def test_categories_in_another_order(self):
        """Categories are matched by what they are, not by their place."""
        left = pandas.DataFrame({'k': [1, 2], 'g': pandas.Categorical(['a', 'b'], categories=['a', 'b'])})
        right = pandas.DataFrame({'k': [0, 1], 'g': pandas.Categorical(['b', 'a'], categories=['b', 'a']), 'v': [7, 8]})
        ours, theirs = (merge(left, right, on='k', by='g') for merge in (merge_asof, pandas.merge_asof))
        self.assertEqual(ours['v'].tolist(), [8, 7])
        pandas.testing.assert_frame_equal(ours, theirs)

    def test_names_that_are_no_text(self):
        """A suffix makes text of a name, an empty one too; None leaves it as it is."""
        left = pandas.DataFrame({'k': [1, 2], 5: [3, 4]})
        for suffixes in (('', '_r'), (None, '_r'), ('_l', None), ('_l', '_r')):
            ours, theirs = (merge(left, left, on='k', suffixes=suffixes) for merge in (merge_asof, pandas.merge_asof))
            pandas.testing.assert_frame_equal(ours, theirs)

    def test_what_only_we_take(self):
        """Nullable integers as keys, numpy's timedelta as a tolerance, a Series with a name."""
        left = pandas.DataFrame({'k': pandas.array([1, 5], dtype='Int64')})
        self.assertEqual(merge_asof(left, left.assign(v=[7, 8]), on='k')['v'].tolist(), [7, 8])
        times = pandas.DataFrame({'k': pandas.to_datetime(['2026-01-01', '2026-01-05'])})
        found = merge_asof(times, times.assign(v=[7, 8]), on='k', tolerance=numpy.timedelta64(1, 's'), allow_exact_matches=False)
        self.assertTrue(found['v'].isna().all())
        self.assertEqual(merge_asof(times['k'], times.assign(v=[7, 8]), on='k')['v'].tolist(), [7, 8])

    def test_null_groups(self):
        """A null by-value is a value like any other, as in pandas; None and NaN are one here."""
        left = pandas.DataFrame({'k': [1, 2], 'g': numpy.array([None, numpy.nan], dtype=object)})
        right = pandas.DataFrame({'k': [0, 1], 'g': numpy.array([None, numpy.nan], dtype=object), 'v': [7, 8]})
        self.assertEqual(merge_asof(left, right, on='k', by='g')['v'].tolist(), [8, 8])
        self.assertEqual(pandas.merge_asof(left, right, on='k', by='g')['v'].tolist(), [7, 8])

    def test_ranks(self):
        """A list of ranks changes no match, whatever the values are; it is the join's own list, of numbers as they are."""
        for values in ([30, 10, 20], ['stalls', 'circle', 'gods'], [2.5, 1.5, None], [True, False]):
            names = [values[place % len(values)] for place in range(6)]
            left = pandas.DataFrame({'k': range(6), 'band': names, 'g': list('aabbab')})
            right = pandas.DataFrame({'k': range(6), 'band': names[::-1], 'g': list('ababab'), 'v': range(6)})
            for by in ('band', ['g', 'band'], ['band', 'g']):
                with self.subTest(values=values, by=by), mock.patch.object(asof_join, 'Join', wraps=asof_join.Join) as opened:
                    ours = merge_asof(left, right, on='k', by=by, ranks={'band': values})
                    pandas.testing.assert_frame_equal(ours, merge_asof(left, right, on='k', by=by))
                    listed, plain = (call[1]['ranks'] for call in opened.call_args_list)
                    self.assertEqual((listed[0], len(listed[1]), plain), (0, len(values), None))
                    self.assertTrue(values[0] != 30 or listed[1] == values)

    def test_bad_ranks(self):
        """What is wrong with a list of ranks, each in one line, before anything is joined."""
        left = pandas.DataFrame({'k': [1, 2], 'band': ['stalls', 'gods']})
        right = left.assign(band=['stalls', 'circle'])
        for ranks, said in (({}, 'a dict of one by-column'), (['stalls'], 'a dict of one by-column'), ({'k': [1]}, "'k' is no by-column"),
                            ({'band': []}, 'has 0 values: 1 to 64'), ({'band': range(65)}, 'has 65 values'),
                            ({'band': ['stalls', 'gods', 'stalls']}, 'has a value twice'), ({'band': [None, float('nan')]}, 'has a value twice'),
                            ({'band': ['stalls']}, "the left by-column 'band' has a value that ranks do not list: row 1 has 'gods'"),
                            ({'band': ['gods', 'stalls']}, "the right by-column 'band' .*: row 1 has 'circle'")):
            with self.subTest(said=said), self.assertRaisesRegex(ValueError, said) as caught:
                merge_asof(left, right, on='k', by='band', ranks=ranks)
            self.assertNotIn('\n', str(caught.exception))

    def test_distance(self):
        """The distance as a last column: of numbers nullable ones, exact at the ends of the range; of times their own unit."""
        left, right = pandas.DataFrame({'k': [5, 20, 25]}), pandas.DataFrame({'k': [10, 20, 20], 'v': [1, 2, 3]})
        plain = merge_asof(left, right, on='k')
        found = merge_asof(left, right, on='k', distance='age')
        self.assertEqual(list(found.columns), ['k', 'v', 'age'])
        pandas.testing.assert_frame_equal(found[['k', 'v']], plain)
        pandas.testing.assert_series_equal(found['age'], pandas.Series([None, 0, 5], dtype='Int64', name='age'))
        left, right = pandas.DataFrame({'k': [-1, 0, 2**63 - 1]}), pandas.DataFrame({'k': [-2**63], 'v': [1]})
        found = merge_asof(left, right, on='k', distance='age')
        self.assertEqual((list(found['v']), list(found['age'])), ([1, 1, 1], [2**63 - 1, pandas.NA, pandas.NA]))
        times = [pandas.DataFrame({'at': pandas.to_datetime(each)}) for each in (['2026-01-01', '2026-01-05'], ['2026-01-02'])]
        found = merge_asof(*times, on='at', distance='age')
        self.assertEqual((found['age'].isna().tolist(), found['age'].iloc[1]), ([True, False], pandas.Timedelta(days=3)))
        self.assertEqual(found['age'].dtype.kind, 'm')
        found = merge_asof(left[:0], right, on='k', distance='age')
        self.assertEqual((list(found.columns), len(found)), (['k', 'v', 'age'], 0))
        with self.assertRaisesRegex(ValueError, "distance: 'v' is the name of another column"):
            merge_asof(left, right, on='k', distance='v')

    def test_frames_stay(self):
        """Neither frame is altered by a join."""
        for seed in range(50):
            tables = Tables(random.Random(seed))
            before = tables.left.copy(), tables.right.copy()
            merge_asof(tables.left, tables.right, **tables.how)
            for one, other in zip(before, (tables.left, tables.right)):
                pandas.testing.assert_frame_equal(one, other)

    def test_result_is_a_copy(self):
        """What is written into a result is in neither frame."""
        left, right = pandas.DataFrame({'k': [1, 2], 'a': [1, 2]}), pandas.DataFrame({'k': [1, 2], 'b': [3, 4]})
        result = merge_asof(left, right, on='k')
        result.iloc[:, :] = 9
        self.assertEqual((left['a'].tolist(), right['b'].tolist(), left['k'].tolist()), ([1, 2], [3, 4], [1, 2]))

    def test_errors(self):
        """What is wrong, each in one line, before anything is joined; pandas refuses the same but those that are named."""
        ok = pandas.DataFrame({'k': [1, 2, 3], 'g': [1, 1, 1], 'f': [1.0, 2.0, 3.0]})
        day = pandas.DataFrame({'k': pandas.to_datetime(['2026-01-01', '2026-01-02', '2026-01-03'])})
        cases = [
            ((ok, ok), {}, 'the left key is named 0 times'), ((ok, ok), {'on': 'k', 'left_on': 'k'}, 'named 2 times'),
            ((ok, ok), {'on': 'no'}, "left has 0 columns with the name 'no'"), ((ok, ok), {'on': ['k', 'g']}, 'a join has one key'),
            ((ok, ok), {'on': 'k', 'by': 'no'}, "left has 0 columns with the name 'no'"),
            ((ok, ok), {'on': 'k', 'left_by': 'g'}, 'left_by has 1 columns and right_by has 0'),
            ((ok, ok), {'on': 'k', 'by': 'g', 'left_by': 'g'}, 'by and left_by'),
            ((ok[::-1], ok), {'on': 'k'}, "the left key 'k' is not sorted: row 1 has a smaller key than row 0"),
            ((ok, ok[::-1]), {'on': 'k'}, "the right key 'k' is not sorted: row 1"),
            ((ok, ok[::-1]), {'left_on': 'k', 'right_index': True}, 'the right index is not sorted: row 1'),
            ((ok, day), {'on': 'k'}, 'the key has the dtype int64 on the left and datetime64'),
            ((ok, ok.astype({'g': 'i4'})), {'on': 'k', 'by': 'g'}, "the by-column 'g' has the dtype int64 on the left and int32"),
            ((ok.astype({'k': object}), ok.astype({'k': object})), {'on': 'k'}, 'dtype object'),
            ((day.assign(k=[day['k'][0], pandas.NaT, day['k'][2]]), day), {'on': 'k'}, "the left key 'k' has a null: row 1"),
            ((ok, ok), {'on': 'k', 'tolerance': 1.5}, 'no whole number'), ((ok, ok), {'on': 'k', 'tolerance': -1}, 'below 0'),
            ((day, day), {'on': 'k', 'tolerance': 1}, 'no timedelta'),
            ((day, day), {'on': 'k', 'tolerance': pandas.Timedelta(-1, 's')}, 'below 0'),
            ((ok, ok), {'on': 'k', 'direction': 'sideways'}, 'sideways'), ((ok, ok), {'on': 'k', 'suffixes': ('', '')}, 'on both sides'),
            ((ok, [1]), {'on': 'k'}, 'right is a list'),
        ]
        for frames, how, said in cases:
            with self.subTest(said=said), self.assertRaisesRegex(ValueError, said) as caught:
                merge_asof(*frames, **how)
            self.assertNotIn('\n', str(caught.exception))
            self.assertRaises((ValueError, KeyError, TypeError), pandas.merge_asof, *frames, **how)
        for how in ({'on': 'f', 'by': 'g'}, {'on': 'k', 'direction': 'nearest', 'allow_exact_matches': False},
                    {'left_index': True, 'right_on': 'k'}):
            self.assertRaises(ValueError, merge_asof, ok, ok, **how)
            pandas.merge_asof(ok, ok, **how)


if __name__ == '__main__':
    unittest.main()
