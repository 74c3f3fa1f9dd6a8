"""The join on the workers of a cluster, in processes on the loopback address, against the uncut join; with workers that are killed, that
are slow, and a scheduler that is lost. Not among the tests that are found by name, since it needs dask: `check` runs it."""
import functools
import itertools
import os
import random
import signal
import subprocess
import sys
import tempfile
import threading
import time
import unittest
from unittest import mock

import dask
import numpy
import pandas
from dask import dataframe
from distributed import Client, LocalCluster, WorkerPlugin
from distributed.comm import CommClosedError

import rowkeeper
from rowkeeper import Refused, cluster, pairs, pieces
from rowkeeper.interface import BAD_BOUNDARIES, UNSORTED

from .test_pairs import Tables, words

TABLES, FRAMES, COMMANDS = 150, 20, 12
# The joins during which workers are killed at random; tools/soak has more of them.
KILLED = int(os.environ.get('ROWKEEPER_KILLED', '10'))
# Where the module is found by processes of their own.
MODULE = os.path.dirname(os.path.dirname(rowkeeper.__file__))


def started(workers):
    """A cluster of so many processes with one thread each."""
    return LocalCluster(n_workers=workers, threads_per_worker=1, processes=True, host='127.0.0.1', dashboard_address=None)


class Kills(WorkerPlugin):
    """Kills the worker that first begins a task of this name, in the middle of the join; a file says that it was done."""

    def __init__(self, task, done):
        self.task, self.done, self.name = task, done, f'kills-{task}'

    def transition(self, key, start, finish, **_):
        """A task of the worker goes on."""
        if finish == 'executing' and str(key).startswith(f'rowkeeper-{self.task}-'):
            try:
                os.close(os.open(self.done, os.O_CREAT | os.O_EXCL))
            except FileExistsError:
                return
            os.kill(os.getpid(), signal.SIGKILL)


def frame_of(rows, columns, nulls=False):
    """Rows as a DataFrame of whole numbers, with nulls or without."""
    frame = pandas.DataFrame(rows, columns=columns, dtype='Int64' if nulls else None)
    return frame if nulls else frame.astype('int64')


def tables_of(r, left, right, groups, width=1):
    """Two sorted DataFrames of so many rows."""
    by = [f'g{place}' for place in range(width)]
    rows = lambda count: sorted((*(r.randrange(groups) for _ in by), r.randrange(1000)) for _ in range(count))
    one, other = frame_of(rows(left), [*by, 'k']), frame_of(rows(right), [*by, 'k'])
    one['sale'], other['price'] = numpy.arange(left), numpy.arange(right) * 10
    return one, other, by


def uncut(left, right, by, **options):
    """The places of the right rows, joined here in one piece."""
    columns = lambda frame: [frame[name].to_numpy() for name in by]
    return rowkeeper.asof(left['k'].to_numpy(), right['k'].to_numpy(), columns(left), columns(right), **options)


def setUpModule():
    """Starts a cluster of two workers for all tests."""
    OnCluster.cluster = started(2)
    OnCluster.client = Client(OnCluster.cluster)


def tearDownModule():
    """Ends it."""
    OnCluster.client.close()
    OnCluster.cluster.close()


class OnCluster(unittest.TestCase):
    """A test on the cluster of two workers."""

    def setUp(self):
        """A folder of its own; it goes with the test."""
        folder = tempfile.TemporaryDirectory()
        self.addCleanup(folder.cleanup)
        self.folder = folder.name

    def path(self, name):
        """A file in it."""
        return os.path.join(self.folder, name)

    def files(self, name, frame, ends):
        """A DataFrame in files, cut at these rows."""
        paths = []
        for first, end in zip([0, *ends], [*ends, len(frame)]):
            paths.append(self.path(f'{name}-{len(paths)}.csv'))
            frame.iloc[first:end].to_csv(paths[-1], index=False)
        return paths

    def same(self, result, left, right, by, **options):
        """A result has each left row once, in order, with its match of the uncut join."""
        got, wanted = result.compute(), uncut(left, right, by, **options)
        self.assertEqual(got['row'].tolist(), list(wanted))
        self.assertEqual(got['sale'].tolist(), left['sale'].tolist())
        self.assertEqual(got.index.tolist(), list(range(len(left))))
        self.assertEqual(got['price'].fillna(-1).tolist(), [right['price'].iloc[each] if each >= 0 else -1 for each in wanted])


class Words(OnCluster):
    """join_tables."""

    def test_against_the_uncut_join(self):
        """Random tables with nulls, in all directions, at random boundaries and at those that are chosen."""
        r, answers = random.Random(30), 0
        for number in range(TABLES):
            case = Tables(r)
            left, right, boundaries = case.words()
            with self.subTest(number):
                more = {'boundaries': boundaries} if number % 2 else {'parts': r.choice((1, 2, 3, 20))}
                found = cluster.join_tables(left, right, client=self.client, **more, **case.options)
                self.assertEqual(found, pairs.join_pair(left, right, **case.options))
                self.assertEqual(found.tolist(), case.matches())
            answers += len(found)
        print(f'join_tables and the uncut join: {TABLES} pairs of tables, {answers} rows, the same')

    def test_without_groups(self):
        """Tables without by-columns are one part."""
        left, right = (words([(each,) for each in range(first, 90, 3)], 1) for first in (0, 1))
        self.assertEqual(cluster.join_tables(left, right, client=self.client), pairs.join_pair(left, right))

    def test_other_clusters(self):
        """The same on one worker and on four."""
        r = random.Random(37)
        for workers in (1, 4):
            with started(workers) as local, Client(local, set_as_default=False) as client:
                for _ in range(10):
                    case = Tables(r)
                    left, right, boundaries = case.words()
                    found = cluster.join_tables(left, right, client=client, boundaries=boundaries, **case.options)
                    self.assertEqual(found.tolist(), case.matches())

    def test_what_is_wrong(self):
        """Told as the library refuses it, or in one line."""
        table = words([(1, 5), (2, 3)], 2)
        for number, left, boundaries in ((UNSORTED, words([(2, 5), (1, 3)], 2), None), (BAD_BOUNDARIES, table, words([(2,), (1,)], 1))):
            with self.assertRaises(Refused) as caught:
                cluster.join_tables(left, table, by=1, client=self.client, boundaries=boundaries)
            self.assertEqual(caught.exception.number, number)
        with self.assertRaisesRegex(ValueError, '^parts 0 is no number from 1 on$'):
            cluster.join_tables(table, table, by=1, client=self.client, parts=0)
        with self.assertRaisesRegex(cluster.Lost, '^tcp://127.0.0.1:9: no scheduler answers: '):
            with dask.config.set({'distributed.comm.timeouts.connect': '1s'}), cluster.connected('tcp://127.0.0.1:9'):
                pass

    def test_another_version(self):
        """A worker of another version is told."""
        with self.assertRaisesRegex(ValueError, r'^a worker has rowkeeper [0-9.]+, and the client has 0\.0\.1$'):
            self.client.submit(cluster.pair_of_words, '0.0.1', b'', b'', {}, 0).result()


class Frames(OnCluster):
    """merge_asof."""

    def test_against_the_uncut_join(self):
        """Random DataFrames in random partitions, groups of one and of two columns, some of them in one piece or empty."""
        r = random.Random(31)
        for number in range(FRAMES):
            left, right, by = tables_of(r, r.choice((0, 1, 50, 500)), r.choice((0, 1, 50, 500)), r.choice((1, 5, 60)), r.choice((1, 2)))
            strategy = ('backward', 'forward', 'nearest')[number % 3]
            tolerance = r.choice((None, 40))
            with self.subTest(number):
                lefts, rights = (dataframe.from_pandas(each, npartitions=r.randrange(1, 5), sort=False) for each in (left, right))
                found = cluster.merge_asof(lefts, rights, on='k', by=by, direction=strategy, tolerance=tolerance, client=self.client,
                                           parts=r.choice((None, 1, 7, 40)), right_row='row')
                self.same(found, left, right, by, strategy=strategy, tolerance=tolerance)

    def test_nulls(self):
        """Null groups and keys match nothing; they stand first, or last by groups, as is said."""
        r = random.Random(32)
        for last in (False, True):
            cell = lambda end: None if r.random() < 0.2 else r.randrange(end)
            rows = [sorted(((cell(6), cell(30)) for _ in range(200)),
                           key=lambda row: ((row[0] is None) == last, row[0] or 0, row[1] is not None, row[1] or 0)) for _ in range(2)]
            left, right = (frame_of(each, ['g', 'k'], nulls=True) for each in rows)
            found = cluster.merge_asof(*(dataframe.from_pandas(each, npartitions=3, sort=False) for each in (left, right)), on='k', by='g',
                                       nulls_last=[last], client=self.client, right_row='row').compute()
            wanted = pairs.join_pair(*(words(each, 2) for each in rows), by=1, nulls_last=[last])
            self.assertEqual(found['row'].tolist(), wanted.tolist())
            self.assertEqual(found['g'].isna().sum(), left['g'].isna().sum())

    def test_files_text_and_times(self):
        """Workers read their own files; groups are text, keys times; files without rows, and cut within a group."""
        r = random.Random(33)
        left, right, _ = tables_of(r, 300, 200, 4)
        names = numpy.array(['circle', 'gods', 'stalls', 'stalls 2'])
        for frame in (left, right):
            frame['g0'], frame['k'] = names[frame['g0']], pandas.Timestamp('2026-01-05') + pandas.to_timedelta(frame['k'], unit='min')
        read = functools.partial(pandas.read_csv, parse_dates=['k'], dtype={'g0': str})
        found = cluster.merge_asof(self.files('left', left, [0, 70, 71]), self.files('right', right, [120, 120, 200]), on='k', by='g0',
                                   client=self.client, read=read, right_row='row', tolerance=pandas.Timedelta('20min'))
        code = {name: place for place, name in enumerate(names)}
        one, other = (frame.assign(g0=frame['g0'].map(code), k=frame['k'].astype('int64')) for frame in (left, right))
        self.same(found, one, other, ['g0'], tolerance=20 * 60 * 10**9)

    def test_beside_merge_asof(self):
        """Columns, names and dtypes are those of rowkeeper.merge_asof, with ranks too."""
        left, right, _ = tables_of(random.Random(34), 120, 150, 3)
        right['sale'] = 1.5
        ranks = {'g0': [2, 0, 1]}
        for frame in (left, right):
            frame['place'] = frame['g0'].map({2: 0, 0: 1, 1: 2})
        left, right = (each.sort_values(['place', 'k'], kind='stable').reset_index(drop=True).drop(columns='place') for each in (left, right))
        found = cluster.merge_asof(*(dataframe.from_pandas(each, npartitions=2, sort=False) for each in (left, right)), on='k', by='g0',
                                   suffixes=('', '_of'), ranks=ranks, client=self.client).compute()
        by_key = left.sort_values('k', kind='stable')
        wanted = rowkeeper.merge_asof(by_key, right.sort_values('k', kind='stable'), on='k', by='g0', suffixes=('', '_of'), ranks=ranks)
        wanted = wanted.set_index(by_key.index).sort_index()
        pandas.testing.assert_frame_equal(found, wanted, check_index_type=False)

    def raises(self, text, left, right, **options):
        """A join says in one line what is wrong."""
        with self.assertRaisesRegex(ValueError, text) as caught:
            cluster.merge_asof(left, right, client=self.client, **options)
        self.assertNotIn('\n', str(caught.exception))

    def test_what_is_wrong(self):
        """Each in one line, before anything is joined."""
        left, right, _ = tables_of(random.Random(35), 40, 40, 9)
        good = self.files('good', right, [20])
        said = {'on': 'k', 'by': 'g0'}
        self.raises(r'^left, .*bad-1\.csv: not sorted by g0, k$', self.files('bad', pandas.concat([left, left[:9]]), [5]), good, **said)
        turned = self.files('turned', left, [20])[::-1]
        self.raises(r'^left: .*turned-1\.csv ends with a greater row than .*turned-0\.csv begins with$', turned, good, **said)
        self.raises(r'^right: .*turned-1\.csv ends with', good, turned, **said)
        self.raises("^left has 0 columns with the name 'x'", good, good, on='x', by='g0')
        floats = self.files('floats', left.assign(k=left['k'] + 0.5), [])
        self.raises("^the left column 'k' has the dtype float64", floats, good, **said)
        texts = self.files('texts', left.assign(g0='a'), [])
        self.raises("^the left column 'g0' holds text; the right column 'g0' holds whole", texts, good, **said)
        mixed = dataframe.from_pandas(left.assign(g0=pandas.Series([1, 'a'] * 20, dtype=object)), npartitions=1, sort=False)
        self.raises("^the left column 'g0' has the dtype object, and values that are no text$", mixed, good, **said)
        self.raises('^left is a DataFrame: a DataFrame of dask or a list of files', left, good, **said)
        self.raises("^right_row: there is a column 'price_x'$", good, good, right_row='price_x', **said)
        with self.assertRaises(FileNotFoundError):
            cluster.merge_asof(good, [self.path('none.csv')], client=self.client, **said)
        with self.assertRaisesRegex(ValueError, 'nearest without exact'):
            cluster.merge_asof(good, good, direction='nearest', allow_exact_matches=False, client=self.client, **said)

    def test_without_groups(self):
        """Tables without by-columns are one part."""
        left, right, _ = tables_of(random.Random(38), 50, 60, 1)
        tables = [dataframe.from_pandas(each, npartitions=2, sort=False) for each in (left, right)]
        found = cluster.merge_asof(*tables, on='k', suffixes=('', '_y'), client=self.client, right_row='row')
        self.assertEqual(found.npartitions, 1)
        self.same(found, left, right, [])

    def test_one_large_group(self):
        """A group larger than its share is in one part, and the parts are fewer."""
        left, right, by = tables_of(random.Random(36), 300, 300, 1)
        tables = [dataframe.from_pandas(each, npartitions=3, sort=False) for each in (left, right)]
        found = cluster.merge_asof(*tables, on='k', by=by, client=self.client, parts=8, right_row='row')
        self.assertLessEqual(found.npartitions, 2)
        self.same(found, left, right, by)


class Command(OnCluster):
    """`rowkeeper join --cluster`."""

    def csv(self, r, name, key, columns, rows):
        """A sorted file: text or numbers as groups, empty cells among them."""
        group = r.choice((('stalls', 'circle', 'gods', ''), ('7', '12', '100', ''), ('5',)))
        self.groups = getattr(self, 'groups', group)
        number = not any(each.isalpha() for each in self.groups)
        cells = [(r.choice(self.groups), r.choice(('', *map(str, range(30))))) for _ in range(rows)]
        cells.sort(key=lambda row: ((row[0] != '', int(row[0] or 0) if number else row[0]), row[1] != '', int(row[1] or 0)))
        with open(self.path(name), 'w', encoding='utf-8') as file:
            file.write(f'band,{key},{columns}\n' + ''.join(f'{group},{at},"{name} {row}"\n' for row, (group, at) in enumerate(cells)))
        return self.path(name)

    def test_against_the_command(self):
        """What comes out, and what is said, is the same with a cluster and without it."""
        sys.path.insert(0, os.path.dirname(os.path.dirname(MODULE)))
        from cli.tests.command import within
        r = random.Random(50)
        for number in range(COMMANDS):
            vars(self).pop('groups', None)
            files = self.csv(r, 'sales', 'minute', 'seat', r.choice((0, 9, 300))), self.csv(r, 'notices', 'minute', 'price', r.choice((0, 9, 9000)))
            words = ['join', *files, '--on', 'minute', '--by', 'band', '--strategy', ('backward', 'forward', 'nearest')[number % 3]]
            words += r.choice(([], ['--tolerance', '4'], ['--matched-only'], ['--fail-unmatched']))
            with self.subTest(number):
                one, other = within(words), within([*words, '--cluster', self.cluster.scheduler_address])
                self.assertEqual((one.status, one.out, one.err), (other.status, other.out, other.err))
                self.assertIn(one.status, (0, 4))


class Faults(OnCluster):
    """The result is the same, or one clear error: no row is lost or doubled. Each test has a cluster of its own."""

    def setUp(self):
        """Starts the cluster; it ends with the test."""
        super().setUp()
        self.cluster = started(2)
        self.addCleanup(self.cluster.close)
        self.client = Client(self.cluster)
        self.addCleanup(self.client.close)

    def test_killed(self):
        """Workers are killed in the middle: where files are read, where they are cut, and where a pair is joined."""
        left, right, by = tables_of(random.Random(40), 3000, 3000, 50)
        paths = self.files('left', left, [900, 2000]), self.files('right', right, [10, 1500])
        for task in ('read', 'placed', 'pair'):
            self.client.register_worker_plugin(Kills(task, self.path(f'killed-{task}')))
        found = cluster.merge_asof(*paths, on='k', by=by, client=self.client, parts=6, right_row='row')
        for task in ('read', 'placed', 'pair'):
            self.assertTrue(os.path.exists(self.path(f'killed-{task}')))
        self.same(found, left, right, by)

    def test_killed_with_its_words(self):
        """Words that were sent to a worker, and lost with it, are sent again."""
        case = Tables(random.Random(41), most=4000)
        left, right, boundaries = case.words()
        self.client.register_worker_plugin(Kills('pair', self.path('killed')))
        found = cluster.join_tables(left, right, client=self.client, boundaries=boundaries, **case.options)
        self.assertTrue(os.path.exists(self.path('killed')))
        self.assertEqual(found, pairs.join_pair(left, right, **case.options))

    def test_always_killed(self):
        """A pair that kills each worker that takes it is one clear error."""
        paths = [self.files(side, frame, []) for side, frame in zip(('left', 'right'), tables_of(random.Random(42), 50, 50, 5))]
        with self.assertRaisesRegex(cluster.Lost, '^the cluster did not finish: [^\n]+$'):
            cluster.merge_asof(*paths, on='k', by='g0', client=self.client, read=killing)

    def test_slow(self):
        """A worker that stands still for a while."""
        left, right, by = tables_of(random.Random(43), 2000, 2000, 40)
        paths = self.files('left', left, [900]), self.files('right', right, [1100])
        slow = next(iter(self.client.run(os.getpid).values()))
        os.kill(slow, signal.SIGSTOP)
        later = threading.Timer(1.5, os.kill, (slow, signal.SIGCONT))
        later.start()
        begun = time.monotonic()
        found = cluster.merge_asof(*paths, on='k', by=by, client=self.client, parts=4, right_row='row')
        self.same(found, left, right, by)
        self.assertGreater(time.monotonic() - begun, 0.5)
        later.join()


class Changed(OnCluster):
    """Files and partitions that are others when they are read again: one clear error, never a wrong match."""

    def test_marks(self):
        """A piece has another mark if a cell, a null, a type, a name or the number of its rows is another; the same if nothing is."""
        frame = pandas.DataFrame({'k': [1, 2, 3], 'price': [1.5, None, 2.5], 'text': ['a', None, 'c'], 'when': pandas.to_datetime(['2026-01-05'] * 3)})
        frame['nullable'], frame['kind'] = pandas.array([1, None, 3], dtype='Int64'), pandas.Categorical(['x', 'y', 'x'])
        frame['zoned'] = frame['when'].dt.tz_localize('Europe/Paris')
        piece = pieces.marked(frame)
        pandas.testing.assert_frame_equal(pieces.checked(pieces.marked(frame.copy()), piece.mark, 'it'), frame)
        others = [frame.iloc[:2], frame.iloc[[0, 2, 1]], frame.rename(columns={'k': 'q'}), frame.assign(k=frame['k'].astype('int32')),
                  frame.assign(k=[1, 2, 4]), frame.assign(price=[1.5, 0.0, 2.5]), frame.assign(text=['a', '', 'c']), frame.assign(text=['a', None, 'd']),
                  frame.assign(nullable=pandas.array([1, 0, 3], dtype='Int64')), frame.assign(kind=pandas.Categorical(['x', 'x', 'x'], categories=['x', 'y'])),
                  frame.assign(when=frame['when'] + pandas.Timedelta(1)), frame.assign(zoned=frame['zoned'] + pandas.Timedelta(1))]
        for number, other in enumerate(others):
            with self.subTest(number), self.assertRaisesRegex(ValueError, '^it was changed while it was joined: it had 3 rows and [^\n]+; join it again$'):
                pieces.checked(pieces.marked(other), piece.mark, 'it')

    def test_written_while_read(self):
        """A file that is written to while a worker reads it."""
        path = self.files('some', tables_of(random.Random(50), 5, 5, 2)[0], [])[0]

        def grown(name):
            """Reads a file, to which a row is written meanwhile."""
            found = pandas.read_csv(name)
            with open(name, 'a') as file:
                file.write('1,1,1\n')
            return found
        with self.assertRaisesRegex(ValueError, r'some-0\.csv was changed while it was read'):
            pieces.read_file(grown, path)

    def test_read_again(self):
        """A file that gives other rows when it is read again, since the worker that had it was killed in the middle of the join."""
        left, right, by = tables_of(random.Random(51), 600, 600, 20)
        paths = self.files('left', left, [200]), self.files('right', right, [300])
        with started(1) as local, Client(local, set_as_default=False) as client:
            client.register_worker_plugin(Kills('pair', self.path('killed')))
            with self.assertRaisesRegex(ValueError, r'^.*/(left|right)-[01]\.csv was changed while it was joined: it had [^\n]+$'):
                cluster.merge_asof(*paths, on='k', by=by, client=client, parts=4, read=functools.partial(shrinking, self.folder))

    def test_after_it_returned(self):
        """A file that is exported anew when the join has returned, and workers that are lost before the result is computed."""
        left, right, by = tables_of(random.Random(52), 600, 600, 20)
        paths = self.files('left', left, [200]), self.files('right', right, [300])
        with started(1) as local, Client(local, set_as_default=False) as client:
            result = cluster.merge_asof(*paths, on='k', by=by, client=client, parts=4)
            right.iloc[5:300].to_csv(paths[1][0], index=False)
            os.kill(next(iter(client.run(os.getpid).values())), signal.SIGKILL)
            with self.assertRaisesRegex(ValueError, r'^.*/right-0\.csv was changed while it was joined: it had 300 rows'):
                client.compute(result).result(timeout=60)


def shrinking(folder, path):
    """A reading that gives a row fewer each time after the first."""
    seen = os.path.join(folder, os.path.basename(path) + '.read')
    rows = pandas.read_csv(path)
    try:
        os.close(os.open(seen, os.O_CREAT | os.O_EXCL))
        return rows
    except FileExistsError:
        return rows.iloc[1:]


class Limits(OnCluster):
    """A cluster that does not get on."""

    def test_time_limit(self):
        """No task that ends in time is one clear error, in this time."""
        for timeout in (0, -1, 'soon', True):
            with self.assertRaisesRegex(ValueError, '^timeout .* is no number of seconds above 0, and not None$'):
                cluster.merge_asof(['a'], ['b'], on='k', by='g', client=self.client, timeout=timeout)
        begun = time.monotonic()
        with started(1) as local, Client(local, set_as_default=False) as client:
            with self.assertRaisesRegex(cluster.Lost, r'^the cluster did not finish: no task of the join ended in 1\.5 seconds; [^\n]+$'):
                cluster.merge_asof(['a'], ['b'], on='k', by='g', client=client, read=sleeping, timeout=1.5)
            self.assertLess(time.monotonic() - begun, 30)

    def test_lost_while_sent(self):
        """Workers that are lost while words are sent to them count as an attempt: the words are sent again, twice at most."""
        case = Tables(random.Random(53), most=200)
        left, right, boundaries = case.words()
        real = self.client.scatter
        for lost in (1, 2, 3):
            said = itertools.chain([CommClosedError('in <TCP ConnectionPool.scatter>')] * lost, itertools.repeat(None))

            def sending(*words, **more):
                """Sends words, once enough workers were lost."""
                error = next(said)
                if error is not None:
                    raise error
                return real(*words, **more)
            with mock.patch.object(self.client, 'scatter', sending):
                join = functools.partial(cluster.join_tables, left, right, client=self.client, boundaries=boundaries, **case.options)
                if lost < 3:
                    self.assertEqual(join(), pairs.join_pair(left, right, **case.options))
                else:
                    self.assertRaisesRegex(cluster.Lost, '^the cluster did not finish: the words of [0-9]+ pairs were lost .* 3 times$', join)


class Killed(OnCluster):
    """Workers that are killed at random moments."""

    def killed(self, client, r, join):
        """Makes a join while one or two of the workers are killed; what it gives, or None if the cluster did not finish."""
        timers = []
        for pid in r.sample(sorted(client.run(os.getpid).values()), r.choice((1, 1, 2))):
            timers.append(threading.Timer(r.uniform(0, 1.2), os.kill, (pid, signal.SIGKILL)))
            timers[-1].start()
        try:
            return join()
        except cluster.Lost as error:
            self.assertNotIn('\n', str(error))
            return None
        finally:
            for each in timers:
                each.join()

    def test_at_random(self):
        """Joins of files and of words, each right or one clear error."""
        r, finished = random.Random(54), 0
        with started(3) as local, Client(local, set_as_default=False) as client:
            for number in range(KILLED):
                client.wait_for_workers(3, timeout=60)
                left, right, by = tables_of(r, 3000, 3000, 50)
                one, other = (words(each[['g0', 'k']].values.tolist(), 2) for each in (left, right))
                paths = self.files(f'left-{number}', left, [900, 2000]), self.files(f'right-{number}', right, [10, 1500])
                tables = functools.partial(cluster.join_tables, one, other, by=1, client=client, timeout=30)
                files = functools.partial(cluster.merge_asof, *paths, on='k', by=by, client=client, parts=6, right_row='row', timeout=30)
                found = self.killed(client, r, tables if number % 2 else lambda: client.compute(files()).result(timeout=60)['row'])
                if found is not None:
                    self.assertEqual(list(found), list(uncut(left, right, by)))
                    finished += 1
        print(f'workers killed at random: {KILLED} joins, {finished} right, {KILLED - finished} told as lost')
        self.assertGreater(finished, KILLED // 2)


def killing(path):
    """A reading that kills its worker."""
    os.kill(os.getpid(), signal.SIGKILL)


class Connection(unittest.TestCase):
    """A scheduler that is lost."""

    def test_lost(self):
        """The scheduler, in a process of its own, is killed while workers read: one clear error."""
        with dask.config.set({'distributed.comm.timeouts.connect': '2s'}):
            code = ('from distributed import LocalCluster\nif __name__ == "__main__":\n'
                    '    c = LocalCluster(n_workers=1, threads_per_worker=1, processes=False, protocol="tcp://",\n'
                    '                     host="127.0.0.1", dashboard_address=None)\n'
                    '    print(c.scheduler_address, flush=True)\n    input()\n')
            process = subprocess.Popen([sys.executable, '-B', '-c', code], stdin=subprocess.PIPE, stdout=subprocess.PIPE, text=True,
                                       env={**os.environ, 'PYTHONPATH': MODULE})
            self.addCleanup(process.communicate)
            self.addCleanup(process.kill)
            with cluster.connected(process.stdout.readline().strip()) as client:
                timer = threading.Timer(1, process.kill)
                timer.start()
                with self.assertRaisesRegex(cluster.Lost, '^the cluster did not finish: [^\n]+$'):
                    cluster.merge_asof(['a'], ['b'], on='k', by='g', client=client, read=sleeping)


def sleeping(path):
    """A reading that takes long."""
    time.sleep(60)


if __name__ == '__main__':
    unittest.main()
