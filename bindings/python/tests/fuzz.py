"""Random use of the whole module against plain rules: columns of any type, stride and byte order, joins that grow, are saved, copied and
restored between any two calls, tables, plans, takings, and states that were tampered with. Not among the tests that are found by name:

    python3 -m tests.fuzz CASES SECONDS SEED

A case is made by its seed and number alone; the first that fails is told by them, and `CASES SECONDS SEED FIRST` begins with it."""
import contextlib
import copy
import ctypes
import pickle
import random
import sys
import time
import traceback
from array import array

from rowkeeper import IDLE, WANTS_RIGHT, WROTE, Column, Join, Refused, Takings, asof, join_cut, merge, plan, spans, standing
from rowkeeper.interface import NO_ROOM
from rowkeeper.interface import Join as Words

from . import judge, test_asof
from .test_join_cut import Joins, cells_of
from .test_tables import ENDS, Books, column, inside, scheduled, words
from .test_takings import House, sums

try:
    import numpy
except ImportError:
    numpy = None


def fitting(cells):
    """The kinds of numpy that hold all these numbers."""
    least, most = min(cells, default=0), max(cells, default=0)
    kinds = [f'{sign}{width}' for sign in 'iu' for width in (1, 2, 4, 8)
             if (-2**(8 * width - 1) <= least and most < 2**(8 * width - 1) if sign == 'i' else least >= 0 and most < 2**(8 * width))]
    return kinds + (['M8[s]', 'm8[ms]'] if least > -2**63 else [])


def dressed(r, cells, kind):
    """A column of these cells in an array of numpy: of this kind, in some byte order, with gaps between its numbers or backwards, its
    nulls told by a mask, by NaT or by a Column; without numpy as a Column."""
    if numpy is None:
        return column(cells)
    there = [cell is not None for cell in cells]
    values = numpy.array([7 if cell is None else cell for cell in cells], dtype='u8' if kind[0] == 'u' else 'i8').astype(r.choice('<>') + kind)
    step = r.choice((1, 2, 3, -1, -2))
    room = numpy.zeros(abs(step) * max(1, len(cells)), dtype=values.dtype)
    strided = room[::step][:len(cells)]
    strided[:] = values
    if all(there):
        return strided
    if kind[0] in 'mM' and r.random() < 0.5:
        strided[~numpy.array(there)] = numpy.array('NaT', dtype=strided.dtype)
        return strided
    return r.choice((lambda: numpy.ma.masked_array(strided, mask=~numpy.array(there)), lambda: Column(strided, bytes(there))))()


def dressed_pair(r, left, right):
    """Two columns that can be compared, of one kind if it is one of times or of large numbers without a sign."""
    kinds = fitting([cell for cell in (*left, *right) if cell is not None])
    kind = r.choice(kinds)
    other = r.choice([each for each in kinds if each[0] in 'iu']) if kind[0] in 'iu' else kind
    if numpy and kind == 'u8' and r.random() < 0.8:
        left, right = ([cell if cell is None else cell + 2**63 - 2 for cell in cells] for cells in (left, right))
        other = kind
    return dressed(r, left, kind), dressed(r, right, other)


def case_asof(r):
    """asof over columns of any kind."""
    tables = test_asof.Tables(r)
    columns = [dressed_pair(r, [row[place] for row in tables.left], [row[place] for row in tables.right]) for place in range(tables.by + 1)]
    (*left_by, left), (*right_by, right) = zip(*columns)
    found = asof(left, right, left_by, right_by, tables.strategy, tables.exact, tables.tolerance, distance=True)
    wanted = judge.positions(tables.left, tables.right, tables.strategy, tables.exact, tables.tolerance)
    return list(map(int, found.rows)), wanted, list(map(int, found.distances)), judge.distances(tables.left, tables.right, wanted)


def case_spans(r):
    """spans over columns of any kind."""
    numbers, count = r.choice((range(5), range(50), ENDS)), r.choice((0, 1, 9, 40))
    points = sorted(r.choice(numbers) for _ in range(count))
    cell = lambda: None if r.random() < 0.1 else r.choice(numbers)
    passes = [(cell(), cell()) for _ in range(r.choice((0, 1, 20)))]
    lower, upper = r.random() < 0.5, r.random() < 0.5
    kind = r.choice(fitting([*points, *(each for row in passes for each in row if each is not None)]))
    given = [dressed(r, cells, kind) for cells in (points, [row[0] for row in passes], [row[1] for row in passes])]
    return [tuple(map(int, pair)) for pair in zip(*spans(*given, lower, upper))], inside(points, passes, lower, upper)


def case_books(r):
    """merge and standing."""
    books = Books(r)
    merged = merge(books.book(books.house, r), books.book(books.festival, r), **books.options)
    found = standing(books.book(books.house, r), books.carried - 1, **books.options)
    return (merged.rows(), sorted(books.house + books.festival, key=books.rank),
            [(bool(stands), int(last)) for stands, last in zip(*found)], books.standing())


def heights_at_random(r, rows):
    """The heights of frames of so many rows."""
    heights, most = [], r.choice((1, 2, 5, 20))
    while sum(heights) < rows or r.random() < 0.1:
        heights.append(r.randrange(min(most, rows - sum(heights)) + 1))
    return heights


def framed(rows, heights, width):
    """Rows in frames of these heights."""
    return [words(rows[sum(heights[:place]):sum(heights[:place + 1])], width) for place in range(len(heights))]


def case_plan(r):
    """A plan: its area is enough, and one row fewer is not."""
    books = Books(r)
    left, right, width = [row[:books.by + 1] for row in books.house], books.festival, books.by + 1
    options = {**books.options, 'strategy': r.choice(('backward', 'forward', 'nearest'))}
    cuts = [heights_at_random(r, len(rows)) for rows in (left, right)]
    frames = framed(left, cuts[0], width), framed(right, cuts[1], width + books.carried)
    found = plan(words(left, width), words(right, width + books.carried), *cuts, **options)
    given = {**options, 'carried': books.carried}
    short = scheduled(given, *frames, found.rows - 1) if found.rows else NO_ROOM
    return scheduled(given, *frames, found.rows), found, short, NO_ROOM


def case_join_cut(r):
    """Two tables joined by one call, and by pairs joined apart."""
    case = Joins(r)
    left, right, boundaries = case.tables()
    found = join_cut(left, right, boundaries, distance=case.distance, **case.options)
    wanted = case.matches()
    carried = [[case.cells[row][place] if row >= 0 else None for row in wanted] for place in range(case.carried)]
    return (list(map(int, found.rows)), wanted, list(case.apart(left, right, boundaries)), wanted,
            [cells_of(each) for each in found.carried], carried)


def another(r, join):
    """The join itself, or one that was saved or copied."""
    ways = (lambda: Join.from_state(join.state()), lambda: copy.copy(join), lambda: copy.deepcopy(join), lambda: pickle.loads(pickle.dumps(join)))
    return r.choice(ways)() if r.random() < 0.15 else join


def handed_in(join, frame):
    """Hands in a right frame, in a larger area if there is no room."""
    try:
        join.right(frame)
    except Refused as refused:
        if refused.number != NO_ROOM:
            raise
        join.grow(right_rows=join.held + frame[0])
        join.right(frame)


def turned(r, join, found):
    """Makes a turn or a run, its matches kept: what it answered."""
    if r.random() < 0.3:
        ran = join.run(r.choice((None, 0, 1, 2)))
        for turn in ran.turns:
            found.extend(turn.matches.rows())
        return ran.stop if ran.turns or ran.stop else WROTE
    turn = join.turn(array('q', bytes(8 * join.output_words())) if r.random() < 0.5 else None)
    if turn.answer == WROTE:
        found.extend(turn.matches.rows())
    return turn.answer


def case_streamed(r):
    """Random frames through a Join that starts small, grows, and is saved or copied between any two calls."""
    case, found = Joins(r), []
    right = [(*row, *cells) for row, cells in zip(case.right, case.cells)]
    width = case.by + 1
    lefts = framed(case.left, heights_at_random(r, len(case.left)), width)
    rights = framed(right, heights_at_random(r, len(right)), width + case.carried)
    join = Join(carried=case.carried, distance=case.distance, check=r.choice(('off', 'on', 'strict')), left_rows=40, right_rows=r.choice((0, 3, 60)),
                **case.options)
    ended = False
    while True:
        join = another(r, join)
        answer = turned(r, join, found)
        if answer == WANTS_RIGHT or rights and r.random() < 0.2:
            if rights:
                handed_in(join, rights.pop(0))
            elif not ended:
                join.end_right()
                ended = True
        elif answer == IDLE:
            if not lefts:
                break
            join.grow(left_words=len(lefts[0]))
            join.left(lefts.pop(0))
    places = case.matches()
    far = judge.distances(case.left, case.right, places)
    wanted = [None if place < 0 else (place, *case.cells[place], *([None if far[row] < 0 else far[row]] if case.distance else []))
              for row, place in enumerate(places)]
    return found, wanted


def case_takings(r):
    """Takings of frames, added one after the other and as subtotals."""
    house = House(r)
    frames = [house.frame() for _ in range(r.randrange(6))]
    whole, parts = Takings(**house.options), [Takings(**house.options)]
    for each in frames:
        whole.add(*house.lend(*each))
        parts.append(Takings(**house.options))
        parts[-1].add(*house.lend(*each))
    r.shuffle(parts)
    while len(parts) > 1:
        parts[0].join(parts.pop(r.randrange(1, len(parts))))
    wanted = sums(house, frames)
    return (whole.rows(), whole.unpriced), wanted, (parts[0].rows(), parts[0].unpriced), wanted


def case_tampered(r):
    """A saved join in which words or bits are others: every call is refused or answers, and none asks for much memory."""
    case = Joins(r)
    join = Join(carried=case.carried, left_rows=8, right_rows=16, **case.options)
    with contextlib.suppress(Refused):
        join.left(words(case.left[:8], case.by + 1))
        join.right(words([(*row, *cells) for row, cells in zip(case.right[:9], case.cells)], case.by + 1 + case.carried))
    saved = bytearray(join.state())
    for _ in range(r.choice((1, 1, 2, 5))):
        place = r.randrange(8, ctypes.sizeof(Words)) if r.random() < 0.8 else r.randrange(8, len(saved))
        if r.random() < 0.5:
            saved[place] ^= 1 << r.randrange(8)
        else:
            start = place // 8 * 8
            saved[start:start + 8] = r.choice((0, 1, 2, 5, 2**27, 2**40, 2**62, 2**63, 2**64 - 1)).to_bytes(8, 'little')
    for call in (Join.turn, Join.run, Join.end_right, lambda each: each.grow(right_rows=40), lambda each: each.left(words([], case.by + 1)),
                 lambda each: each.right(words([], 1)), lambda each: each.ports(1, 1, 1), Join.state):
        with contextlib.suppress(Refused, ValueError):
            call(Join.from_state(saved))
    return ()


CASES = (case_asof, case_spans, case_books, case_plan, case_join_cut, case_streamed, case_streamed, case_takings, case_tampered)


def made(seed, number):
    """Makes a case, with numpy or without it. AssertionError where an answer is another one than the plain rule's."""
    r = random.Random(f'{seed} {number}')
    case = CASES[number % len(CASES)]
    pairs_of_answers = iter(case(r))
    for found, wanted in zip(pairs_of_answers, pairs_of_answers):
        if found != wanted:
            raise AssertionError(f'{case.__name__}: {found} in place of {wanted}')


def main(cases, seconds, seed, first=0):
    """Makes cases until there are enough of them, or the time is over."""
    start, number = time.monotonic(), first
    while number < first + cases and time.monotonic() - start < seconds:
        try:
            made(seed, number)
        except Exception:
            traceback.print_exc()
            sys.exit(f'fuzz: the case of seed {seed} and number {number} failed: python3 -m tests.fuzz 1 60 {seed} {number}')
        number += 1
    met = number - first
    print(f'{met:,} random cases of {len(set(CASES))} kinds, seed {seed}, {"with" if numpy else "without"} numpy: as the plain rules say')
    if met < cases // 4:
        sys.exit(f'fuzz: {met} of {cases} cases in {seconds} seconds: too few')


if __name__ == '__main__':
    main(*map(int, sys.argv[1:]))
