"""A join with the areas that it works in, and what its calls answer."""
import collections
import ctypes
import struct

from . import interface as c
from .guard import Guard
from .lent import WORD, Area, Output, in_place, lent
from .library import library

# The bytes of a saved join before its areas: its own words, and the lengths of the two.
JOIN_BYTES = ctypes.sizeof(c.Join)
LENGTHS = struct.Struct('=2q')

Ports = collections.namedtuple('Ports', 'left right send')
Ports.__doc__ = 'The states of the three ports: PORT_BLOCKED, PORT_READY or PORT_DONE each.'
Turn = collections.namedtuple('Turn', 'answer sequence matches')
Turn.__doc__ = """A turn's answer: WROTE, WANTS_RIGHT or IDLE. If it wrote, the number of its frame (0, 2, 4 and so on) and the
matches; else None and None."""
Run = collections.namedtuple('Run', 'stop refusal turns')
Run.__doc__ = """What a run made: what stopped it (TURNS_USED, WANTS_RIGHT, IDLE or REFUSED), the Refused of the turn that stopped
it or None, and a Turn for each turn that wrote. These stand whatever stopped the run."""


class Refused(Exception):
    """A call that the library refused: `number` says which condition, `text` says it in words."""

    def __init__(self, number):
        self.number = number
        self.text = c.REFUSALS.get(number, 'a refusal that this version does not know')
        super().__init__(f'refused by {number}: {self.text}')

    def __reduce__(self):
        """A refusal of the same number, for a host that hands it to another process."""
        return Refused, (self.number,)


def expect(number):
    """Raises the refusal of a number, if it is one."""
    if number:
        raise Refused(number)


def number_or_bad(number):
    """A number that an option can hold, or one that is refused."""
    return number if 0 <= number < 2**63 else 2**64 - 1


def code_of(value):
    """A code of a list of ranks. ValueError unless it is a whole number of 64 bits."""
    if not hasattr(value, '__index__') or not -2**63 <= value < 2**63:
        raise ValueError(f'ranks: the code {value!r} is no whole number of 64 bits')
    return int(value)


def ranks_of(ranks):
    """A list of ranks in numbers: none, or a pair of a by-column from 0 and its codes in order. Of a list that is too long its
    length is told, which is refused."""
    if ranks is None:
        return c.Ranks()
    column, codes = ranks if isinstance(ranks, (list, tuple)) and len(ranks) == 2 else (None, ())
    if not hasattr(column, '__index__') or not hasattr(codes, '__iter__'):
        raise ValueError(f'ranks {ranks!r} is no pair of a by-column from 0 and its codes in order')
    codes = [code_of(code) for code in codes]
    words = dict(c.Ranks._fields_)['codes'](*codes[:c.MOST_RANKS])
    return c.Ranks(given=1, column=number_or_bad(column), count=len(codes), codes=words)


def options(by=0, strategy='backward', allow_exact_matches=True, tolerance=None, check='on', descending=(), nulls_last=(),
            carried=0, ranks=None, distance=False):
    """The options of a join in numbers. What no number can say is said by one that is refused; a name that is none, more flags
    than columns, or a list of ranks that is none, is a ValueError."""
    if strategy not in c.STRATEGIES:
        raise ValueError(f'strategy {strategy!r} is none of {", ".join(c.STRATEGIES)}')
    if check not in c.CHECKS:
        raise ValueError(f'check {check!r} is none of {", ".join(c.CHECKS)}')
    if max(len(descending), len(nulls_last)) > c.MOST_BY:
        raise ValueError(f'descending and nulls_last are flags of at most {c.MOST_BY} by-columns')
    if tolerance is not None:
        tolerance = tolerance if 0 <= tolerance < 2**63 else -2**63
    types = dict(c.Options._fields_)
    return c.Options(by=number_or_bad(by), strategy=c.STRATEGIES.index(strategy), allow_eq=bool(allow_exact_matches),
                     tolerance=c.NO_TOLERANCE if tolerance is None else tolerance, check=c.CHECKS.index(check),
                     descending=types['descending'](*map(bool, descending)),
                     nulls_last=types['nulls_last'](*map(bool, nulls_last)),
                     carried=number_or_bad(carried), ranks=ranks_of(ranks), with_distance=bool(distance))


class Matches:
    """What a turn wrote: for each left row of its frame the right row and what that carries, seen in the output's words; with
    `distance` the distance of the two keys too."""

    def __init__(self, words, distance=False):
        rows, self.columns, self.distance = words[0], words[1], distance
        self.words = words[:2 + 2 * rows * self.columns]
        self.values, self.marks = self.words[2:2 + rows * self.columns], self.words[2 + rows * self.columns:]

    def __len__(self):
        """How many left rows."""
        return len(self.values) // self.columns

    @property
    def carried(self):
        """How many columns right rows carry."""
        return self.columns - 1 - self.distance

    def numbers(self):
        """For each left row the number of its right row, or None."""
        step = self.columns
        return [number if mark else None for number, mark in zip(self.values[::step], self.marks[::step])]

    def __iter__(self):
        """The numbers one by one."""
        return iter(self.numbers())

    def cells(self, column):
        """For each left row what its right row carries in a column, from 0: None for a null and where there is no match."""
        if not 0 <= column < self.carried:
            raise IndexError(f'the join carries {self.carried} columns, and {column} is none of them')
        return self._column(1 + column)

    def distances(self):
        """For each left row the distance of its key from that of its right row: None where there is no match, or the distance is
        above 2^63 - 1. ValueError if the join was opened without distances."""
        if not self.distance:
            raise ValueError('the join was opened without distances')
        return self._column(self.columns - 1)

    def _column(self, place):
        """A column of the answer, None for a null."""
        values, marks = self.values[place::self.columns], self.marks[place::self.columns]
        return [value if mark else None for value, mark in zip(values, marks)]

    def rows(self):
        """For each left row a tuple, the number of its right row, the cells that it carries, and the distance if the join tells
        distances, or None where there is no match."""
        columns = [self._column(place) for place in range(1, self.columns)]
        return [None if row[0] is None else row for row in zip(self.numbers(), *columns)]


class Join:
    """An open join. It owns the areas that it works in, for so many left rows that wait in one frame and so many right rows
    that are held at once; `grow` makes them larger. Every call goes on with what the last one handed back. A call that is
    refused raises Refused, and changes nothing but that 8 and 9 mark the join failed. Frames are anything with the buffer
    protocol of 64-bit numbers. Of one by-column `ranks` may say in which order its codes come, if that is not the order of
    numbers: a pair, the by-column from 0 and its codes, at most 64.

    Frames are copied before a call and outputs are written after it, so other threads may alter them meanwhile; threads that share
    a join wait for one another. A call that is interrupted, by Ctrl-C or by an exception of a signal's handler, may leave a join
    that no longer goes with its areas: every later call of it raises Interrupted, and the host goes on from a saved state. The same
    is raised, at once, if a signal's handler calls or saves the join in the middle of a call: set a flag there, and save between
    two calls. Whether the call that was interrupted had been made is not known in either case.

    >>> from array import array
    >>> join = Join(carried=1)
    >>> join.right(array('q', [3, 2,  10, 1800,  20, 0,  30, 2500,  1, 1,  1, 0,  1, 1]))
    >>> join.left(array('q', [3, 1,  5, 15, 25,  1, 1, 1]))
    >>> join.turn().matches.rows()
    [None, (0, 1800), (1, None)]

    Stalls 30 before circle 10:

    >>> join = Join(by=1, ranks=(0, [30, 10, 20]))
    >>> join.right(array('q', [2, 2,  30, 5,  10, 5,  1, 1,  1, 1]))
    >>> join.left(array('q', [2, 2,  30, 7,  10, 7,  1, 1,  1, 1]))
    >>> join.end_right()
    >>> join.turn().matches.numbers()
    [0, 1]

    With `distance` an answer tells the distance of the two keys too, None if it is above 2^63 - 1:

    >>> join = Join(distance=True)
    >>> join.right(array('q', [4, 1,  10, 20, 20, 30,  1, 1, 1, 1]))
    >>> join.left(array('q', [3, 1,  5, 20, 25,  1, 1, 1]))
    >>> join.turn().matches.distances()
    [None, 0, 5]
    """

    def __init__(self, by=0, strategy='backward', allow_exact_matches=True, tolerance=None, check='on', descending=(),
                 nulls_last=(), carried=0, left_rows=c.MOST_ROWS, right_rows=2 * c.MOST_ROWS, ranks=None, distance=False):
        given = options(by, strategy, allow_exact_matches, tolerance, check, descending, nulls_last, carried, ranks, distance)
        took = library().rowkeeper_open(given)
        expect(took.refusal)
        self._set(took.join, Area(2 + 2 * left_rows * (by + 1)), Area(2 * right_rows * (by + 1 + carried)))

    def _set(self, words, left, right):
        """Takes the parts of a join for its own."""
        self._words, self._left, self._right = words, left, right
        self._areas = left.lent() + right.lent()
        self._library, self._guard = library(), Guard()

    def _keep(self, answer):
        """Goes on with the join that a call handed back, refused or not."""
        self._words = answer.join

    def _made(self, call, *words, turns=()):
        """The answer of a call over the join and its areas."""
        return self._guard.made(lambda: call(self._words, *turns, *self._areas, *words), self._keep)

    def left(self, frame):
        """Hands in a left frame, which then waits. Its words are copied: the host may alter them at any time."""
        with lent(frame, 'the left frame') as words:
            self.left_at(*words)

    def left_at(self, address, length):
        """Hands in a left frame by its place. Nobody alters, frees or moves it while the call runs."""
        expect(self._made(self._library.rowkeeper_left, address, length).refusal)

    def right(self, frame):
        """Hands in a right frame, whose rows are then held. Its words are copied: the host may alter them at any time."""
        with lent(frame, 'the right frame') as words:
            self.right_at(*words)

    def right_at(self, address, length):
        """Hands in a right frame by its place. Nobody alters, frees or moves it while the call runs."""
        expect(self._made(self._library.rowkeeper_right, address, length).refusal)

    def end_right(self):
        """Ends right: no right frame comes any more."""
        expect(self._made(self._library.rowkeeper_end_right).refusal)

    def ports(self, left, right, send):
        """A port call: what the ports say comes in, what they are told comes back. This is also how left ends."""
        ported = self._made(self._library.rowkeeper_ports, *map(number_or_bad, (left, right, send)))
        expect(ported.refusal)
        return Ports(ported.left, ported.right, ported.send)

    @property
    def tells_distance(self):
        """Whether answers tell the distance."""
        return self._words.options.with_distance == 1

    @property
    def answer_columns(self):
        """The columns of an answer. A join that says it carries more than it may is refused."""
        return 1 + min(self._words.options.carried, c.MOST_CARRIED) + self.tells_distance

    def output_words(self):
        """The words of an output that is enough for any turn."""
        return 2 + 2 * c.MOST_ROWS * self.answer_columns

    def _turned(self, address, length):
        """What the library answers to a turn over an output by its place."""
        turned = self._made(self._library.rowkeeper_turn, address, length)
        expect(turned.refusal)
        return turned

    def turn_at(self, address, length):
        """A turn's answer alone, over an output by its place. Nobody alters, frees or moves it while the call runs."""
        return self._turned(address, length).answer

    def _turned_into(self, output):
        """What the library answers to a turn. If it wrote, the matches are copied to the output: the call itself never sees memory
        that a caller can alter. An output that is longer than any turn needs is lent in part."""
        with in_place(output, 'the output', write=True) as (address, length):
            own = Output(min(length, self.output_words()))
            turned = self._turned(*own.lent())
            if turned.answer == c.WROTE:
                own.copy_to(address, len(Matches(own.words()).words))
        return turned

    def turn_into(self, output):
        """A turn's answer alone; if it wrote, the matches are in the output."""
        return self._turned_into(output).answer

    def turn(self, output=None):
        """A turn: the matches of the frame that has waited longest, written to the output, or to a new one, which cannot be altered."""
        if output is None:
            own = Output(self.output_words())
            output, turned = own.words(), self._turned(*own.lent())
        else:
            turned = self._turned_into(output)
        if turned.answer != c.WROTE:
            return Turn(turned.answer, None, None)
        return Turn(turned.answer, turned.sequence, Matches(memoryview(output).cast('B').cast('q'), self.tells_distance))

    def _run_words(self):
        """The words of an output that is enough for any number of turns. A join that says that more waits than its area has words for
        is refused."""
        return min(self._words.queue_words, self._left.length) * self.answer_columns

    def _ran(self, turns, length=None):
        """What the library answers to a run, and the output that it wrote: of so many words, or of as many as are enough."""
        most = 2**64 - 1 if turns is None else min(max(turns, 0), 2**64 - 1)
        with self._guard.lock:
            own = Output(self._run_words() if length is None else min(length, self._run_words()))
            return self._made(self._library.rowkeeper_run, *own.lent(), turns=(most,)), own

    def run(self, turns=None, output=None):
        """A run: so many turns at most, or as many as can be, each writing behind the one before; the first that does not write
        ends it. A turn that is refused is told and not raised: what the turns before it wrote stands."""
        if output is None:
            ran, own = self._ran(turns)
            output = own.words()
        else:
            with in_place(output, 'the output', write=True) as (address, length):
                ran, own = self._ran(turns, length)
                own.copy_to(address, ran.words)
        refusal = Refused(ran.refusal) if ran.stop == c.REFUSED else None
        first = ran.join.sequence - 2 * ran.turns
        return Run(ran.stop, refusal, self._turns(memoryview(output).cast('B').cast('q'), first, ran.turns))

    def _turns(self, words, first, count):
        """What the turns of a run wrote, one behind the other."""
        turns = []
        for turn in range(count):
            matches = Matches(words, self.tells_distance)
            turns.append(Turn(c.WROTE, first + 2 * turn, matches))
            words = words[len(matches.words):]
        return turns

    def grow(self, left_words=0, right_rows=0):
        """Makes areas larger, the left one to so many words at least, the right one to so many rows; what waits and what is
        held stays, and no later answer is another one, save that frames find more room. Nothing is done if they are as
        large. A join that says it has more columns than there can be is refused by 2 before memory is asked for."""
        with self._guard.lock:
            self._guard.judge()
            options = self._words.options
            if options.by > c.MOST_BY or options.carried > c.MOST_CARRIED:
                raise Refused(c.BAD_JOIN)
            lengths = max(left_words, self._left.length), max(right_rows * 2 * (options.by + 1 + options.carried), self._right.length)
            if lengths == (self._left.length, self._right.length):
                return
            left, right = map(Area, lengths)

            def keep(took):
                """Goes on in the new areas, if the join was moved to them."""
                if not took.refusal:
                    self._words, self._left, self._right, self._areas = took.join, left, right, left.lent() + right.lent()
            took = self._guard.made(
                lambda: self._library.rowkeeper_move(self._words, *self._areas, *left.lent(), *right.lent()), keep)
        expect(took.refusal)

    def state(self):
        """All that the join is, as bytes for a file: its words, the first of which says their layout, and its areas. Interrupted if a
        call has not come to its end."""
        with self._guard.lock:
            self._guard.judge()
            lengths = LENGTHS.pack(self._left.length, self._right.length)
            return bytes(self._words) + lengths + self._left.bytes + self._right.bytes

    def __reduce__(self):
        """The join by its state: a copy, a deep copy and an unpickled join have areas of their own."""
        return type(self).from_state, (self.state(),)

    @classmethod
    def from_state(cls, saved):
        """The join that `state` gave. Bytes that are none are a ValueError; a join of another layout is refused by 2.
        Whatever else they say, every call judges them, and none asks for more memory than the areas of a real join take."""
        saved = bytes(saved)
        if len(saved) < JOIN_BYTES + LENGTHS.size:
            raise ValueError(f'{len(saved)} bytes are no saved join')
        words = c.Join.from_buffer_copy(saved)
        if words.layout != c.LAYOUT:
            raise Refused(c.BAD_JOIN)
        lengths, rest = LENGTHS.unpack_from(saved, JOIN_BYTES), saved[JOIN_BYTES + LENGTHS.size:]
        if min(lengths) < 0 or WORD * sum(lengths) != len(rest):
            raise ValueError('the saved join does not have the words of its areas')
        areas = [Area(length) for length in lengths]
        areas[0].bytes[:], areas[1].bytes[:] = rest[:WORD * lengths[0]], rest[WORD * lengths[0]:]
        join = cls.__new__(cls)
        join._set(words, *areas)
        return join

    @property
    def node_state(self):
        """The node's state: RUNNING, FLUSH or DONE."""
        return self._words.state

    @property
    def held(self):
        """How many right rows are held."""
        return self._words.held

    @property
    def pruned(self):
        """How many right rows were dropped."""
        return self._words.pruned

    @property
    def waiting_words(self):
        """How many words of left frames wait."""
        return self._words.queue_words

    @property
    def right_ended(self):
        """Whether right has ended."""
        return self._words.right_ended == 1

    @property
    def failed(self):
        """Whether a turn found rows out of order; every call is refused then."""
        return self._words.failed == 1

    @property
    def left_words(self):
        """The words of the left area."""
        return self._left.length

    @property
    def right_words(self):
        """The words of the right area."""
        return self._right.length

    @property
    def right_rows(self):
        """The right rows that the area has room for: R of docs/SCOPE.md, 5.4."""
        return self._right.length // (2 * (self._words.options.by + 1 + self._words.options.carried))
