"""The as-of join on the workers of dask: both tables are cut at boundary groups, each worker joins a pair of parts by the proved calls,
and the parts come back in order. `merge_asof` joins dask's DataFrames or lists of files, `join_tables` tables in the library's words.

Proved are the places of the cuts, for any boundaries in order, each worker's join, and that the parts appended are the answers of the
uncut tables. Not proved are dask, the network, and the Python of this module, which hands words from one proved call to the next: it
searches no table and compares no rows itself. A part depends on its rows and the options alone, so dask may compute it twice, or anew
when a worker is lost: no row is lost or doubled by that. What is read anew is compared with what was read first (pieces.py): a file that
was changed meanwhile is one error, also when a part is computed anew later."""
import collections
import contextlib
import os
import uuid
from array import array

from . import interface as c
from .asof_join import judge_options
from .columns import Column
from .dataframes import column_of, keys_of, listed_of, modules, put_together, suffixed, whole_tolerance
from .join import Refused
from .pairs import append, cut_apart, join_pair, places, rows_between, seen, table_words
from .pieces import checked, marked, read_file
from .tables import Table, cut, merge

try:
    import distributed
except ImportError as error:
    raise ImportError(f'rowkeeper.cluster needs dask and distributed (Debian: python3-dask, python3-distributed): {error}') from None

# The rows that are looked at for each part to choose the boundaries, and how many parts each thread of the workers is to have: where
# there are several, a quick worker takes more of them.
SAMPLE, PARTS_A_THREAD = 64, 2
# How often words that were lost with a worker are sent, at most.
ATTEMPTS = 3
# The seconds for which a join waits while no task of it ends, if nothing is said.
TIMEOUT = 600
# What dask raises where workers or the scheduler are lost, beside an OSError that has no number of the system.
LOST = (distributed.scheduler.KilledWorker, distributed.comm.CommClosedError, distributed.CancelledError, distributed.TimeoutError)

# What workers must know: the names of both sides' keys, what the compared columns hold, the order and the other options of the join,
# which columns come out, their names, the name of the column with the right rows' numbers or None, and both sides without rows.
Plan = collections.namedtuple('Plan', 'keys kinds order options places names right_row empties')
Looked = collections.namedtuple('Looked', 'mark rows empty texts')
Looked.__doc__ = """The Mark of a piece, how many rows it has, the piece without them, and for each by-column its texts, or None if it has
none."""


class Lost(ConnectionError):
    """The cluster did not finish: workers, or the connection to the scheduler, were lost. Nothing was returned."""


def lost(what, error):
    """The one line about it."""
    return Lost(f'{what}: {" ".join(str(error).split()) or type(error).__name__}')


@contextlib.contextmanager
def told():
    """What dask raises of a lost cluster, as Lost."""
    try:
        yield
    except (OSError, *LOST) as error:
        if isinstance(error, Lost) or isinstance(error, OSError) and error.errno is not None:  # told already, or of a file on a worker
            raise
        raise lost('the cluster did not finish', error) from None


@contextlib.contextmanager
def connected(address):
    """A client of the scheduler at an address, closed afterwards."""
    try:
        client = distributed.Client(address, set_as_default=False)
    except (OSError, ValueError, TypeError, *LOST) as error:
        raise lost(f'{address}: no scheduler answers', error) from None
    with client:
        yield client


def client_of(client):
    """The client that is meant: the one that is handed in, else the one that is open."""
    try:
        return distributed.get_client() if client is None else client
    except ValueError:
        raise ValueError('client: no client of dask is open: hand one in') from None


def parts_for(client, parts):
    """How many parts are made at most: as many as are wanted, else some for each thread of the workers."""
    if parts is None:
        return PARTS_A_THREAD * max(1, sum(client.nthreads().values()))
    if not hasattr(parts, '__index__') or parts < 1:
        raise ValueError(f'parts {parts!r} is no number from 1 on')
    return int(parts)


def seconds_of(timeout):
    """A time limit in seconds, or None for none."""
    if timeout is None or not isinstance(timeout, bool) and isinstance(timeout, (int, float)) and timeout > 0:
        return timeout
    raise ValueError(f'timeout {timeout!r} is no number of seconds above 0, and not None')


def too_long(timeout):
    """The error about a cluster that stands still."""
    return Lost(f'the cluster did not finish: no task of the join ended in {timeout} seconds; workers are lost, or stand still, or need longer '
                '(timeout= sets the limit)')


def ended(client, tasks, timeout):
    """Waits until all tasks have ended, well or not. Lost if none does for so many seconds: dask itself may wait for ever. It waits as
    the client that is current, which need not be the one of the tasks."""
    waiting = set(tasks)
    with client.as_current():
        while waiting:
            try:
                waiting = distributed.wait(waiting, timeout=timeout, return_when='FIRST_COMPLETED').not_done
            except distributed.TimeoutError:
                raise too_long(timeout) from None


def results(client, tasks, timeout):
    """What tasks give, in their order."""
    ended(client, tasks, timeout)
    try:
        return [task.result(timeout=timeout) for task in tasks]
    except distributed.TimeoutError:
        raise too_long(timeout) from None


def submit(client, name, function, *words):
    """A task under a key of its own, since what dask would make a key of is as large as a table."""
    return client.submit(function, *words, key=f'rowkeeper-{name}-{uuid.uuid4().hex}', pure=False)


def same_version(version):
    """ValueError on a worker that has another version of this module than the client."""
    if version != c.VERSION:
        raise ValueError(f'a worker has rowkeeper {c.VERSION}, and the client has {version}')


def one_behind_another(tables, width):
    """Tables of one width in words as one, in their order."""
    tables = [seen(each) for each in tables]
    halves = [each[2 + half * each[0] * width:2 + (half + 1) * each[0] * width] for half in (0, 1) for each in tables]
    return append([array('q', [sum(each[0] for each in tables), width]), *halves])


def sampled(words, step):
    """Every so manieth row of a table in words, as another."""
    return one_behind_another([rows_between(words, row, row + 1) for row in range(step // 2, words[0], step)], words[1])


def boundaries_of(samples, parts, order):
    """Boundary groups for so many parts at most, as words, from sorted samples of both tables. Any in order will do: these are the
    groups at even distances among the rows that were looked at. Null groups and those that come again are left out, so a group with
    more than its share of the rows is in one part all the same."""
    by, rows, found = order['by'], merge(*samples, carried=0, **order).rows(), []
    for part in range(1, parts if by and rows else 1):
        group = rows[part * len(rows) // parts][:by]
        if None not in group and group not in found[-1:]:
            found.append(group)
    return array('q', [len(found), by, *(cell for group in found for cell in group), *[1] * (by * len(found))])


def pair_of_words(version, left, right, options, right_before):
    """A worker's part of `join_tables`: bytes in, bytes out."""
    same_version(version)
    return join_pair(seen(left), seen(right), right_before=right_before, **options).tobytes()


def sent_pairs(client, pairs, options, timeout):
    """A task for each pair, whose words are sent to the workers as bytes. None if a worker was lost while they were sent."""
    try:
        words = client.scatter([bytes(each) for pair in pairs for each in pair[:2]], hash=False, timeout=timeout or 'inf')
    except (OSError, *LOST):
        if client.status != 'running':
            raise
        return None
    return [submit(client, 'pair', pair_of_words, c.VERSION, *words[2 * place:2 * place + 2], options, pair.right_before)
            for place, pair in enumerate(pairs)]


def answer_of(task, client, timeout):
    """The answer of a pair; None if its words were lost with a worker."""
    try:
        return results(client, [task], timeout)[0]
    except distributed.CancelledError:
        if client.status != 'running':
            raise
        return None


def answers_of(client, pairs, options, timeout):
    """The answers of all pairs. Words that are lost with a worker, while they are sent or later, are sent again."""
    answers, wanted = [None] * len(pairs), list(range(len(pairs)))
    for _ in range(ATTEMPTS):
        tasks = sent_pairs(client, [pairs[number] for number in wanted], options, timeout)
        for number, task in zip(wanted, tasks or []):
            answers[number] = answer_of(task, client, timeout)
        wanted = [number for number in wanted if answers[number] is None]
        if not wanted:
            return answers
    raise Lost(f'the cluster did not finish: the words of {len(wanted)} pairs were lost with their workers {ATTEMPTS} times')


def join_tables(left, right, by=0, strategy='backward', allow_exact_matches=True, tolerance=None, descending=(), nulls_last=(),
                ranks=None, client=None, parts=None, boundaries=None, timeout=TIMEOUT):
    """For each row of the left table the number of its right row, or -1, joined on the workers of a dask client: an array of 64-bit
    numbers. Tables are a Table, a list of columns or words, of `by` by-columns and the key, sorted as the options say, which are
    those of a Join. They are cut into at most so many parts, two for each thread of the workers if nothing is said, or at these
    boundaries, as `rowkeeper.cut` takes them, any number. A row with a null key or by-value matches nothing.

    ValueError and Refused say what is wrong with the tables or options; Lost that the cluster did not finish, also if no task of the join
    ends for `timeout` seconds."""
    client, timeout = client_of(client), seconds_of(timeout)
    order = {'by': by, 'descending': descending, 'nulls_last': nulls_last, 'ranks': ranks}
    options = {'strategy': strategy, 'allow_exact_matches': allow_exact_matches, 'tolerance': tolerance, **order}
    left, right = table_words(left, 'left'), table_words(right, 'right')
    with told():
        if boundaries is None:
            count = parts_for(client, parts)
            step = max(1, (left[0] + right[0]) // (SAMPLE * count))
            boundaries = boundaries_of([sampled(each, step) for each in (left, right)], count, order)
        pairs = cut_apart(left, right, boundaries, **order)
        return append(answers_of(client, pairs, options, timeout))


def texts_of(series, side, pandas):
    """The different texts of a by-column, or None if it has none."""
    if kind_of(series, '', pandas) != 'text':
        return None
    found = set(series.dropna())
    if not all(isinstance(each, str) for each in found):
        raise ValueError(f'the {side} column {series.name!r} has the dtype {series.dtype}, and values that are no text')
    return found


def looked(version, piece, keys, side):
    """A worker's look at a Piece: Looked."""
    same_version(version)
    frame, pandas = piece.frame, modules()[1]
    column_of(frame, keys.on, side)
    columns = [column_of(frame, name, side) for name in keys.by]
    return Looked(piece.mark, len(frame), frame.iloc[:0], [texts_of(each, side, pandas) for each in columns] if len(frame) else [])


def kind_of(series, called, pandas):
    """What a compared column holds: 'whole', 'text', or the dtype of its times."""
    dtype, types = series.dtype, pandas.api.types
    if types.is_integer_dtype(dtype):
        return 'whole'
    if types.is_datetime64_any_dtype(dtype) or types.is_timedelta64_dtype(dtype):
        return str(dtype)
    if types.is_object_dtype(dtype) or types.is_string_dtype(dtype) or types.is_categorical_dtype(dtype):
        return 'text'
    if not called:
        return None
    raise ValueError(f'{called} has the dtype {dtype}: whole numbers, times or, for by-columns, text are wanted; Int64 has nulls')


def cells_of(series, kind, pandas):
    """The numbers of a compared column: of text, their places among all texts of both sides."""
    if not isinstance(kind, str):
        codes = pandas.Categorical(series.astype(object), categories=kind).codes.astype('i8')
        return Column(codes, codes >= 0)
    if kind == 'whole':
        if pandas.api.types.is_extension_array_dtype(series.dtype):
            return Column(series.array.to_numpy(dtype=series.dtype.name.lower(), na_value=0), series.notna().to_numpy())
        return Column(series.to_numpy() if len(series) else series.to_numpy().astype('i8'))
    if getattr(series.dtype, 'tz', None) is not None:
        series = series.dt.tz_convert('UTC').dt.tz_localize(None)
    return Column(series.to_numpy())


def worded(piece, keys, kinds):
    """The compared columns of a piece as words of a table."""
    pandas = modules()[1]
    if not len(piece):
        return seen(array('q', [0, len(kinds)]))
    names = [*keys.by, keys.on]
    return seen(Table([cells_of(column_of(piece, name, 'piece'), kind, pandas) for name, kind in zip(names, kinds)]).words)


def judged(piece, keys, kinds, side, order, step):
    """A worker's judging of a piece: the number of the library's refusal, 0 where it is sorted; its first and last row; and a sample
    of its rows. All are words of tables, as bytes."""
    words = worded(piece, keys, kinds)
    try:
        cut(words, array('q', [0, order['by']]), side=side, carried=0, **order)
    except Refused as refused:
        return refused.number, b'', b''
    ends = [rows_between(words, row, row + 1) for row in (0, words[0] - 1) if words[0]]
    return 0, one_behind_another(ends, words[1]).tobytes(), sampled(words, step).tobytes()


def placed(piece, keys, kinds, side, order, boundaries):
    """The places at which a worker cuts a piece."""
    return places(worded(piece, keys, kinds), boundaries, side=side, carried=0, **order)


def sliced(piece, first, end):
    """The rows of a piece from one to before another."""
    return piece.iloc[first:end]


def joined(version, lefts, rights, plan, left_before, right_before):
    """A worker's join of a pair of parts, each in slices of pieces: the part of the result."""
    same_version(version)
    numpy, pandas, _ = modules()
    left, right = (pandas.concat(each) if each else empty for each, empty in zip((lefts, rights), plan.empties))
    words = [worded(*each, plan.kinds) for each in zip((left, right), plan.keys)]
    found = numpy.frombuffer(join_pair(*words, **plan.options, **plan.order), dtype='i8')
    index = pandas.RangeIndex(left_before, left_before + len(left))
    result = put_together(left, right, plan.places, found, index, pandas)
    result.columns = plan.names
    if plan.right_row is not None:
        result[plan.right_row] = numpy.where(found < 0, -1, found + right_before)
    return result


class Side:
    """One table on the cluster: its pieces, which are the files or the partitions, in their order, and what they are called."""

    def __init__(self, client, table, keys, name, read, timeout):
        self.client, self.keys, self.name, self.timeout = client, keys, name, timeout
        if isinstance(table, (list, tuple)) and table:
            self.called = [os.fspath(path) for path in table]
            self.pieces = [submit(client, 'read', read_file, read, path) for path in self.called]
        elif hasattr(table, 'to_delayed') and hasattr(table, 'npartitions'):
            self.called = [f'partition {number}' for number in range(table.npartitions)]
            self.pieces = [submit(client, 'mark', marked, part) for part in client.compute(table.to_delayed())]
        else:
            raise ValueError(f'{name} is a {type(table).__name__}: a DataFrame of dask or a list of files is wanted')

    def ask(self, function, *words):
        """A function of each piece on the workers."""
        return results(self.client, [submit(self.client, function.__name__, function, piece, *words) for piece in self.pieces], self.timeout)

    def look(self):
        """Looks at all pieces. From here on each is checked whenever it is read: it must be as it was looked at."""
        tasks = [submit(self.client, 'looked', looked, c.VERSION, piece, self.keys, self.name) for piece in self.pieces]
        self.looks = results(self.client, tasks, self.timeout)
        self.pieces = [submit(self.client, 'checked', checked, piece, look.mark, called)
                       for piece, look, called in zip(self.pieces, self.looks, self.called)]
        self.rows = sum(look.rows for look in self.looks)
        self.empty = next((look.empty for look in self.looks if look.rows), self.looks[0].empty)

    def judge(self, kinds, order, step):
        """ValueError unless each piece is sorted, and each begins behind the one before. A sample of the rows."""
        found, before = self.ask(judged, self.keys, kinds, self.name, order, step), None
        for called, (number, ends, _) in zip(self.called, found):
            if number == c.UNSORTED:
                raise ValueError(f'{self.name}, {called}: not sorted by {", ".join(map(str, [*self.keys.by, self.keys.on]))}')
            if number:
                raise Refused(number)
            ends = seen(ends)
            if ends[0]:
                self.seam(before, (called, ends), order)
                before = called, ends
        return one_behind_another([sample for _, _, sample in found], len(kinds))

    def seam(self, before, after, order):
        """ValueError if the last row of a piece is greater than the first of the next: the library is asked, over these two rows."""
        if before is None:
            return
        rows = [rows_between(before[1], 1, 2), rows_between(after[1], 0, 1)]
        try:
            cut(one_behind_another(rows, after[1][1]), array('q', [0, order['by']]), side=self.name, carried=0, **order)
        except Refused as refused:
            if refused.number != c.UNSORTED:
                raise
            raise ValueError(f'{self.name}: {before[0]} ends with a greater row than {after[0]} begins with') from None

    def cut(self, kinds, order, boundaries):
        """The parts, each slices of pieces, and how many rows each has."""
        ends = [[0, *at, look.rows] for at, look in
                zip(self.ask(placed, self.keys, kinds, self.name, order, boundaries), self.looks)]
        parts, heights = [], []
        for part in range(boundaries[0] + 1):
            spans = [(number, *each[part:part + 2]) for number, each in enumerate(ends) if each[part] < each[part + 1]]
            parts.append([self.slice(*span) for span in spans])
            heights.append(sum(end - first for _, first, end in spans))
        return parts, heights

    def slice(self, number, first, end):
        """Some rows of a piece, on the cluster."""
        piece = self.pieces[number]
        return piece if end - first == self.looks[number].rows else submit(self.client, 'slice', sliced, piece, first, end)


def kind_at(sides, place, pandas):
    """What the compared column at a place holds, the same in all pieces of both sides that have rows."""
    found = {}
    for side in sides:
        name = [*side.keys.by, side.keys.on][place]
        called = f'the {side.name} column {name!r}'
        for look in side.looks:
            if look.rows:
                found.setdefault(kind_of(column_of(look.empty, name, side.name), called, pandas), called)
    if len(found) > 1 or place == len(sides[0].keys.by) and 'text' in found:
        raise ValueError('; '.join(f'{called} holds {kind}' for kind, called in found.items()) + ': that cannot be compared')
    return next(iter(found), 'whole')


def texts_at(sides, place, listed):
    """All texts of a by-column, in their order or in that of the list which it has."""
    texts = set().union(*(look.texts[place] for side in sides for look in side.looks if look.rows))
    if listed is None:
        return sorted(texts)
    if not texts <= set(listed):
        raise ValueError(f'ranks: {sorted(texts - set(listed))[0]!r} is not listed')
    return listed


def kinds_of(sides, listed, pandas):
    """What the compared columns hold, for text all texts in order; and the list of ranks for the library, or None."""
    kinds, ranks = [], None
    for place in range(len(sides[0].keys.by) + 1):
        kind = kind_at(sides, place, pandas)
        codes = None if listed is None or listed.column != place else [each for each in listed.places if each is not None]
        if kind == 'text':
            kind = texts_at(sides, place, codes)
        elif codes is not None:
            ranks = (place, codes)
        kinds.append(kind)
    return kinds, ranks


def outcome(sides, suffixes, right_row):
    """The places of the columns that come out, of each side, and their names. Those that both sides compare by one name come out once."""
    (left, right), keys = (side.empty.columns for side in sides), [side.keys for side in sides]
    same = [name for other, name in zip([keys[0].on, *keys[0].by], [keys[1].on, *keys[1].by]) if other == name]
    kept = list(range(len(left))), [place for place, name in enumerate(right) if name not in same]
    one, other = suffixed(left[kept[0]], right[kept[1]], suffixes)
    names = one.append(other)
    if right_row is not None and right_row in names:
        raise ValueError(f'right_row: there is a column {right_row!r}')
    return kept, names


def whole_kind(kind, numpy):
    """The dtype of a key's numbers, for its tolerance."""
    return numpy.dtype('i8') if kind == 'whole' else numpy.dtype(kind.partition(',')[0].rstrip(']') + ']')


def merge_asof(left, right, on=None, left_on=None, right_on=None, by=None, left_by=None, right_by=None, suffixes=('_x', '_y'),
               tolerance=None, allow_exact_matches=True, direction='backward', ranks=None, descending=(), nulls_last=(), client=None,
               parts=None, read=None, right_row=None, timeout=TIMEOUT):
    """The as-of join of two tables on the workers of a dask client, with the names of `rowkeeper.merge_asof`: a DataFrame of dask, whose
    partitions are the parts in order, each on the worker that joined it. Rows come in the left table's order, numbered from 0.

    A table is a DataFrame of dask, or a list of files, which the workers read: they must find them by these names. Files are read by
    pandas, as CSV or, by their ending, as Parquet, or by `read`, a function of a name that gives a DataFrame. Both tables, taken whole,
    are sorted by the by-columns in turn and then by the key; `descending` and `nulls_last` are flags of the by-columns, else they
    ascend, nulls first. That is checked, in each piece and from piece to piece. Keys are whole numbers or times; by-columns may be text
    too, sorted letter by letter. A row with a null key or by-value matches nothing, where `rowkeeper.merge_asof` refuses the one
    and takes the other for a value.

    `parts` is how many pairs are made at most, two for each thread of the workers if nothing is said; a group is never cut.
    `right_row` names a column for the right row's number in the whole right table, or -1. `timeout` is for how many seconds the join
    waits while no task of it ends; None waits for ever.

    ValueError says in one line what is wrong with the tables or options, or that a file or partition was changed while it was joined;
    Lost that the cluster did not finish. Neither returns a part of the result. The result is computed by dask: where a part of it is
    lost with a worker later, its files are read again, and if one was changed, computing the result raises that ValueError."""
    numpy, pandas, _ = modules()
    judge_options(direction, allow_exact_matches, None)
    keys = keys_of(on, left_on, False, by, left_by, 'left'), keys_of(on, right_on, False, by, right_by, 'right')
    if len(keys[0].by) != len(keys[1].by):
        raise ValueError(f'left_by has {len(keys[0].by)} columns and right_by has {len(keys[1].by)}')
    client, listed = client_of(client), listed_of(ranks, keys[0].by, pandas)
    count, timeout = parts_for(client, parts), seconds_of(timeout)
    with told():
        sides = [Side(client, table, each, name, read, timeout) for table, each, name in zip((left, right), keys, ('left', 'right'))]
        for side in sides:
            side.look()
        kinds, codes = kinds_of(sides, listed, pandas)
        order = {'by': len(keys[0].by), 'descending': descending, 'nulls_last': nulls_last, 'ranks': codes}
        tolerance = whole_tolerance(tolerance, whole_kind(kinds[-1], numpy), numpy, pandas)
        options = {'strategy': direction, 'allow_exact_matches': allow_exact_matches, 'tolerance': tolerance}
        kept, names = outcome(sides, suffixes, right_row)
        plan = Plan(keys, kinds, order, options, kept, names, right_row, [side.empty for side in sides])
        return gathered(client, sides, plan, count, timeout)


def gathered(client, sides, plan, count, timeout):
    """Judges both tables, cuts them, has the pairs joined, and waits for all of them: the result, in partitions."""
    step = max(1, sum(side.rows for side in sides) // (SAMPLE * count))
    samples = [side.judge(plan.kinds, plan.order, step) for side in sides]
    boundaries = boundaries_of(samples, count, plan.order)
    (lefts, left_rows), (rights, right_rows) = (side.cut(plan.kinds, plan.order, boundaries) for side in sides)
    tasks = [submit(client, 'pair', joined, c.VERSION, *pair, plan, sum(left_rows[:part]), sum(right_rows[:part]))
             for part, pair in enumerate(zip(lefts, rights))]
    ended(client, tasks, timeout)
    for task in tasks:
        if task.status != 'finished':
            task.result()
    from dask import dataframe
    empty = joined(c.VERSION, [], [], plan, 0, 0)
    return dataframe.from_delayed(tasks, meta=empty, verify_meta=False)
