"""Words that another thread alters while calls run, and calls that signals interrupt, in real time: `python3 -m tests.races SECONDS`. Each
kind runs in a process of its own, so that one that dies by a signal of the system is noticed. test_altered.py has the same without
chance."""
import random
import signal
import subprocess
import sys
import threading
import time
from array import array

from rowkeeper import Interrupted, Join, Refused, cut, join_cut, merge, plan, standing

from .test_join import frame, keys

ROWS = 400


def book(width):
    """A sorted table, as words that a caller can write."""
    return frame([(row // 20, row, *[0] * (width - 2)) for row in range(ROWS)])


def turning(output):
    """A turn and a run that write to this output."""
    for call in (lambda join: join.turn(output), lambda join: join.run(None, output)):
        join = Join(by=1, carried=1)
        join.right(book(3))
        join.end_right()
        join.left(book(2))
        call(join)


# For each kind the words that are altered, and the call.
KINDS = {
    'merge': (lambda: book(3), lambda words: merge(words, words, by=1)),
    'standing': (lambda: book(3), lambda words: standing(words, 0, by=1)),
    'cut': (lambda: book(2), lambda words: cut(words, frame([(5,)]))),
    'plan': (lambda: book(2), lambda words: plan(words, words, by=1)),
    'heights': (lambda: array('q', [ROWS]), lambda words: plan(book(2), book(2), words, words, by=1)),
    'join_cut': (lambda: book(2), lambda words: join_cut(words, words, frame([(5,)]))),
    'frames': (lambda: book(2), lambda words: Join(by=1).left(words)),
    'outputs': (lambda: array('q', bytes(8 * (2 + 4 * ROWS))), turning),
}


def altered(kind, seconds):
    """Makes calls while another thread alters the first words again and again."""
    made, call = KINDS[kind]
    words, over, calls = made(), threading.Event(), 0

    def altering():
        """Writes a row count that leads far behind the words, and the right one again."""
        first = words[0]
        while not over.is_set():
            words[0] = 1 << 40
            words[0] = first
    thread = threading.Thread(target=altering)
    thread.start()
    end = time.monotonic() + seconds
    try:
        while time.monotonic() < end:
            calls += 1
            try:
                call(words)
            except Refused:
                pass
    finally:
        over.set()
        thread.join()
    return calls


class Struck(Exception):
    """What the signal's handler raises."""


def struck(*_):
    """The signal's handler."""
    raise Struck


def counts(join):
    """What a host sees of a join."""
    return join.held, join.pruned, join.waiting_words


def after(join, saved, before):
    """The join that a host goes on with when a call was struck: the same one if that is as it was, else the one that it saved."""
    try:
        join.state()
        return join if counts(join) == before else Join.from_state(saved)
    except Interrupted:
        return Join.from_state(saved)


def season(r):
    """A season by calls that signals strike; a host makes a call again that was not made. Whether it ends as one that was not struck."""
    keys_in = sorted(r.sample(range(1000), 60))
    join, saved, found, step = Join(left_rows=8, right_rows=9, check='off'), None, [], 0
    frames = [keys(*keys_in[first:first + 3]) for first in range(0, 60, 3)]
    while step < 3 * len(frames):
        try:
            saved, had, at, before = join.state(), len(found), step, counts(join)
            signal.setitimer(signal.ITIMER_REAL, r.uniform(1e-6, 2e-4))
            number, kind = divmod(step, 3)
            if kind == 0:
                join.right(frames[number])
            elif kind == 1:
                join.left(keys(keys_in[3 * number], keys_in[3 * number + 2]))
            else:
                for turn in join.run().turns:
                    found.extend(turn.matches.numbers())
            signal.setitimer(signal.ITIMER_REAL, 0)
            step += 1
        except (Struck, Interrupted):
            signal.setitimer(signal.ITIMER_REAL, 0)
            join = after(join, saved, before)
            del found[had:]
            step = at
    join.end_right()
    for turn in join.run().turns:
        found.extend(turn.matches.numbers())
    return found == [place for number in range(20) for place in (3 * number, 3 * number + 2)]


def signals(seconds):
    """Seasons under signals."""
    signal.signal(signal.SIGALRM, struck)
    r, count, end = random.Random(seconds), 0, time.monotonic() + seconds
    while time.monotonic() < end:
        try:
            right = season(r)
        except Struck:
            continue
        if not right:
            sys.exit(f'season {count} has other matches')
        count += 1
    return count


def main(seconds):
    """Runs each kind in a process of its own."""
    said = []
    for kind in [*KINDS, 'signals']:
        ran = subprocess.run([sys.executable, '-B', '-m', 'tests.races', str(max(1, seconds // (len(KINDS) + 1))), kind], stdout=subprocess.PIPE,
                             universal_newlines=True)
        if ran.returncode:
            sys.exit(f'races: {kind} ended with status {ran.returncode}: {ran.stdout}')
        said.append(f'{kind} {int(ran.stdout):,}')
    print(f'calls over words that a thread alters, and seasons under signals: {", ".join(said)}')


if __name__ == '__main__':
    if len(sys.argv) == 2:
        main(int(sys.argv[1]))
    else:
        print(signals(int(sys.argv[1])) if sys.argv[2] == 'signals' else altered(sys.argv[2], int(sys.argv[1])))
