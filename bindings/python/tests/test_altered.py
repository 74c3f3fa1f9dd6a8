"""What other threads and signals do while a call runs: words that are altered, calls that are interrupted, handlers that save."""
import copy
import ctypes
import itertools
import os
import pickle
import subprocess
import sys
import threading
import unittest
from array import array
from unittest import mock

from rowkeeper import Interrupted, Join, Takings, asof_join, cut, guard, join_cut, merge, plan, spans, standing
from rowkeeper.interface import BAD_FRAME, BAD_JOIN, Options
from rowkeeper.interface import Join as Words
from rowkeeper.join import Refused
from rowkeeper.library import library
from rowkeeper.tables import Table

from .test_join import frame, keys

# What a thread writes over words that were lent: a row count that leads far behind them.
FAR = 1 << 40


def book():
    """A sorted table of one by-column, a key and a carried column, which a caller can write."""
    return frame([(1, 10, 0), (1, 20, 0), (2, 5, 1)])


def sales():
    """A sorted left table of one by-column and a key."""
    return frame([(1, 15), (1, 25), (2, 7)])


class Altered(unittest.TestCase):
    """A second thread made deterministic: at the moment at which the library is entered, and again when it has returned, every word
    that the caller owns is another one. The answer is that of the words as they were handed in."""

    def altered(self, name, owned, call):
        """The answer of a call during which all words of these arrays are altered, and whether that happened."""
        real, before, met = getattr(library(), name), [array('q', each) for each in owned], []

        def scribble():
            """Alters every word that the caller owns."""
            for each in owned:
                each[:] = array('q', [FAR]) * len(each)

        def during(*words):
            """The call, between the strokes of another thread."""
            met.append(name)
            scribble()
            answer = real(*words)
            scribble()
            return answer
        with mock.patch.object(library(), name, during):
            answer = call()
        self.assertTrue(met, f'{name} was not called')
        for each, words in zip(owned, before):
            each[:] = words
        return answer

    def same(self, name, owned, call, seen=lambda answer: answer):
        """A call answers the same, altered or not."""
        self.assertEqual(seen(call()), seen(self.altered(name, owned, call)))

    def test_tables(self):
        """Every call over tables, each by the words of a caller."""
        house, festival, left, groups, heights = book(), book(), sales(), frame([(2,)]), array('q', [2, 1])
        by = {'by': 1}
        self.same('rowkeeper_merge', [house, festival], lambda: merge(house, festival, **by), Table.rows)
        self.same('rowkeeper_standing', [house], lambda: standing(house, 0, **by), lambda found: [list(each) for each in found])
        self.same('rowkeeper_cut', [house, groups], lambda: cut(house, groups, side='right', **by))
        self.same('rowkeeper_plan', [left, house, heights], lambda: plan(left, house, heights, heights, **by))
        self.same('rowkeeper_join_cut', [left, house, groups], lambda: join_cut(left, house, groups),
                  lambda found: (list(found.rows), list(found.carried[0].values)))
        points, lower, upper = array('q', [1, 5, 9]), array('q', [0, 4]), array('q', [5, 9])
        self.same('rowkeeper_spans', [points, lower, upper], lambda: spans(points, lower, upper), lambda found: [list(each) for each in found])

    def test_views(self):
        """A read-only view is altered by its owner all the same."""
        house = bytearray(book())
        view, owned = memoryview(bytes(house)).cast('q'), memoryview(house).cast('q')
        hidden = memoryview((ctypes.c_char * len(house)).from_buffer(house)).cast('B').cast('q')
        self.same('rowkeeper_standing', [owned], lambda: standing(hidden, 0, by=1), lambda found: list(found.last))
        self.assertEqual(list(standing(view, 0, by=1).last), list(standing(owned, 0, by=1).last))

    def test_takings(self):
        """Frames and answers that are added."""
        left, answers = sales(), frame([(0, 5), (1, 6), (2, 7)])

        def added():
            """Takings of one frame."""
            found = Takings(by=1)
            found.add(left, answers)
            return found.rows()
        self.same('rowkeeper_takings_add', [left, answers], added)

    def joined(self):
        """A join whose next turn writes three matches with what they carry."""
        join = Join(by=1, carried=1)
        join.right(book())
        join.end_right()
        join.left(sales())
        return join

    def test_frames(self):
        """Left and right frames."""
        left, right = sales(), book()

        def taken():
            """The matches of both frames."""
            join = Join(by=1, carried=1)
            join.right(right)
            join.end_right()
            join.left(left)
            return join.turn().matches.rows()
        for name in ('rowkeeper_left', 'rowkeeper_right'):
            with self.subTest(name):
                self.same(name, [left] if name == 'rowkeeper_left' else [right], taken)

    def test_outputs(self):
        """Outputs of a turn and of a run: what the call has written is there when it returns, whatever stood there meanwhile."""
        wanted = self.joined().turn().matches
        self.assertEqual(wanted.rows(), [(0, 0), (1, 0), (2, 1)])
        output = array('q', bytes(8 * 64))
        for name, call in (('rowkeeper_turn', lambda: self.joined().turn(output)), ('rowkeeper_run', lambda: self.joined().run(None, output))):
            real = getattr(library(), name)

            def during(*words):
                """The call, between the strokes of another thread."""
                output[:] = array('q', [FAR]) * len(output)
                answer = real(*words)
                output[:] = array('q', [FAR]) * len(output)
                return answer
            with self.subTest(name), mock.patch.object(library(), name, during):
                call()
            self.assertEqual(output.tolist(), [*wanted.words, *[FAR] * 50])

    def test_own_words(self):
        """What a call wrote to words of its own cannot be altered."""
        for words in (merge(book(), book(), by=1).words, Table([array('q', [1])]).words, self.joined().turn().matches.words):
            with self.assertRaises(TypeError):
                words[0] = FAR


def instructions(call, limit=None):
    """Makes a call with an exception of the kind that Ctrl-C raises at its instruction of this number, those of the module's own
    functions counted; without a number none is raised. How many there were."""
    seen = itertools.count(1)
    folder = os.path.dirname(guard.__file__)

    def traced(frame, event, _):
        """Counts the instructions of the module."""
        if not frame.f_code.co_filename.startswith(folder):
            return None
        frame.f_trace_opcodes = True
        if event == 'opcode' and next(seen) == limit:
            raise KeyboardInterrupt
        return traced
    before = sys.gettrace()
    sys.settrace(traced)
    try:
        call()
    finally:
        sys.settrace(before)
    return next(seen) - 1


class Stopped(unittest.TestCase):
    """Ctrl-C at every single instruction of a call."""

    def half_way(self):
        """A join whose areas are full, with rows that were pruned: the next frame of each side moves what is live to the front."""
        join = Join(left_rows=2, right_rows=4, check='off')
        join.right(keys(10, 20, 30, 40))
        join.left(keys(35))
        self.assertEqual(join.turn().matches.numbers(), [2])
        self.assertEqual((join.held, join.pruned), (2, 2))
        return join

    def interrupted(self, make, call):
        """A call is interrupted at each instruction in turn. The join is then as before it, or as behind it, or every call is refused:
        how many of each."""
        before, after, found = make().state(), make(), {'before': 0, 'after': 0, 'refused': 0}
        total = instructions(lambda: call(after))
        after = after.state()
        self.assertNotEqual(before, after)
        for number in range(1, total + 1):
            join = make()
            with self.assertRaises(KeyboardInterrupt):
                instructions(lambda: call(join), number)
            try:
                state = join.state()
            except Interrupted as error:
                self.assertEqual(str(error), guard.INTERRUPTED)
                for further in (join.turn, join.end_right, join.run, join.grow, lambda: join.left(keys(1)), lambda: copy.copy(join)):
                    self.assertRaises(Interrupted, further)
                found['refused'] += 1
                continue
            self.assertIn(state, (before, after), f'instruction {number} of {total} leaves another join')
            found['before' if state == before else 'after'] += 1
        self.assertTrue(found['refused'], found)

    def test_calls(self):
        """Each call that alters a join."""
        def waiting():
            """A join with a frame to turn."""
            join = self.half_way()
            join.left(keys(45))
            join.end_right()
            return join
        self.interrupted(self.half_way, lambda join: join.right(keys(50)))
        self.interrupted(self.half_way, lambda join: join.left(keys(45)))
        self.interrupted(self.half_way, lambda join: join.end_right())
        self.interrupted(waiting, lambda join: join.turn())
        self.interrupted(waiting, lambda join: join.run())
        self.interrupted(waiting, lambda join: join.ports(2, 1, 1))
        self.interrupted(self.half_way, lambda join: join.grow(right_rows=9, left_words=40))

    def test_takings(self):
        """Takings: the table and the number go together, or every call is refused."""
        left, answers = frame([(1,), (2,)]), frame([(0, 5), (1, None)])
        whole, refused = Takings(), 0
        total = instructions(lambda: whole.add(left, answers))
        for number in range(1, total + 1):
            takings = Takings()
            with self.assertRaises(KeyboardInterrupt):
                instructions(lambda: takings.add(left, answers), number)
            self.assertIn((takings.rows(), takings.unpriced), (([], 0), ([(5, 1)], 1)))
            try:
                takings.join(Takings())
            except Interrupted:
                refused += 1
        self.assertTrue(refused)

    def test_goes_on(self):
        """A host that was interrupted goes on from what it saved, with the matches that it would have had."""
        join = self.half_way()
        saved = join.state()
        real = join._library.rowkeeper_right

        def struck(*words):
            """The call, and Ctrl-C when it has returned."""
            real(*words)
            raise KeyboardInterrupt
        with mock.patch.object(join._library, 'rowkeeper_right', struck), self.assertRaises(KeyboardInterrupt):
            join.right(keys(45))
        self.assertRaises(Interrupted, join.right, keys(45))
        join = Join.from_state(saved)
        join.right(keys(45))
        join.left(keys(44, 46))
        join.end_right()
        self.assertEqual(join.turn().matches.numbers(), [3, 4])

    def test_wrong_types(self):
        """What the library is never entered with leaves the join as it was."""
        join = self.half_way()
        before = join.state()
        self.assertRaises(ctypes.ArgumentError, join.left_at, 'x', 'y')
        self.assertEqual(join.state(), before)

    def test_handler(self):
        """A signal's handler that saves the join in the middle of a call is told so at once; between two calls it saves. In a process
        of its own, since it hung once."""
        code = '''if True:
            import os, signal, sys
            from array import array
            from unittest import mock
            from rowkeeper import Interrupted, Join
            join, saved = Join(), []
            def save(*_):
                try:
                    saved.append(len(join.state()) > 0)
                except Interrupted as error:
                    saved.append(str(error))
            signal.signal(signal.SIGUSR1, save)
            os.kill(os.getpid(), signal.SIGUSR1)
            real = join._library.rowkeeper_left
            def struck(*words):
                answer = real(*words)
                os.kill(os.getpid(), signal.SIGUSR1)
                return answer
            with mock.patch.object(join._library, 'rowkeeper_left', struck):
                join.left(array('q', [1, 1, 5, 1]))
            os.kill(os.getpid(), signal.SIGUSR1)
            join.end_right()
            print(saved, join.turn().matches.numbers())'''
        ran = subprocess.run([sys.executable, '-B', '-c', code], stdout=subprocess.PIPE, stderr=subprocess.STDOUT, universal_newlines=True, timeout=60,
                             env={**os.environ, 'PYTHONPATH': os.path.dirname(os.path.dirname(guard.__file__))})
        self.assertEqual(ran.stdout, f'{[True, guard.UNDER_WAY, True]!r} [None]\n')


class Copies(unittest.TestCase):
    """Joins that are copied, and states that were tampered with."""

    def test_copies(self):
        """A copy, a deep copy and an unpickled join go their own ways."""
        for made in (copy.copy, copy.deepcopy, lambda join: pickle.loads(pickle.dumps(join))):
            join = Join(right_rows=8)
            join.right(keys(10, 20))
            other = made(join)
            other.right(keys(25))
            join.right(keys(30))
            found = []
            for each in (join, other):
                each.left(keys(27))
                each.end_right()
                found.append(each.turn().matches.numbers())
            self.assertEqual(found, [[1], [2]])

    def tampered(self, **fields):
        """A join of a small state in which these words are others."""
        saved = Join(left_rows=2, right_rows=2).state()
        words = Words.from_buffer_copy(saved)
        for name, value in fields.items():
            setattr(words.options if name in dict(Options._fields_) else words, name, value)
        return Join.from_state(bytes(words) + saved[ctypes.sizeof(Words):])

    def test_tampered(self):
        """A state that says that there is more than its areas have is refused by 2, and no memory is asked for."""
        for fields in ({'queue_words': 2**40}, {'queue_words': 2**63}, {'queue_words': 2**27, 'queue_start': 5}, {'by': 2**60}, {'carried': 2**60},
                       {'held': 2**60}):
            with self.subTest(fields):
                self.assertEqual(self.tampered(**fields).run().refusal.number, BAD_JOIN)
                with self.assertRaises(Refused) as refused:
                    self.tampered(**fields).grow(right_rows=4)
                self.assertEqual(refused.exception.number, BAD_JOIN)

    def test_plan(self):
        """Words that say they are more rows than there are words for are refused by 5."""
        for words in ([2**62, 1], [-2**62, 1], [2**62], []):
            with self.assertRaises(Refused) as refused:
                plan(array('q', words), keys(1))
            self.assertEqual(refused.exception.number, BAD_FRAME)

    def test_told_sequence(self):
        """The number of a turn's frame is the one that the library answers, not one that was read before or after the call."""
        join = Join()
        join.end_right()
        real = {name: getattr(join._library, name) for name in ('rowkeeper_turn', 'rowkeeper_run')}

        def turn(*words):
            """A turn whose answer has another number."""
            answer = real['rowkeeper_turn'](*words)
            answer.sequence = 40
            return answer

        def run(*words):
            """A run that leaves another number."""
            answer = real['rowkeeper_run'](*words)
            answer.join.sequence += 40
            return answer
        with mock.patch.multiple(join._library, rowkeeper_turn=turn, rowkeeper_run=run):
            join.left(keys(1))
            self.assertEqual(join.turn().sequence, 40)
            join.left(keys(1))
            self.assertEqual([each.sequence for each in join.run().turns], [42])

    def test_sequence(self):
        """Threads that share a join are told different numbers of frames."""
        join, turns, frames = Join(check='off'), [], 2000
        join.end_right()
        lock = threading.Lock()

        def turning():
            """Hands in frames and turns."""
            for _ in range(frames // 4):
                with lock:
                    join.left(keys(1))
                turn = join.turn()
                turns.append(turn.sequence)
        switch = sys.getswitchinterval()
        sys.setswitchinterval(1e-6)
        try:
            threads = [threading.Thread(target=turning) for _ in range(4)]
            for each in threads:
                each.start()
            for each in threads:
                each.join()
        finally:
            sys.setswitchinterval(switch)
        self.assertEqual(sorted(turns), list(range(0, 2 * frames, 2)))


@unittest.skipUnless(asof_join.tools().__name__.endswith('arrays'), 'numpy is not there')
class Orders(unittest.TestCase):
    """Columns in the other order of bytes."""

    def test_other_byte_order(self):
        """Every kind of column gives what it gives in this machine's order: large numbers without a sign too."""
        import numpy
        from rowkeeper import asof
        high = 2**63 + 5
        for kind, left, right in (('u8', [high], [1]), ('u8', [3, high], [2, 2**63]), ('i8', [-5, 7], [-7, 7]), ('u4', [9], [3]), ('M8[s]', [9], [3]),
                                  ('m8[ms]', [9], [3])):
            rows = [asof(*(numpy.array(each, dtype='u8' if kind == 'u8' else 'i8').astype(order + kind) for each in (left, right)))
                    for order in '<>']
            self.assertEqual(*(each.tolist() for each in rows), (kind, left, right))
            self.assertNotIn(-1, rows[0].tolist())
        mixed = asof(numpy.array([high], '>u8'), numpy.array([1], '<u8'))
        self.assertEqual(mixed.tolist(), [0])
        found = spans(numpy.array([2**63 + 3], '>u8'), numpy.array([1], '>u8'), numpy.array([2**63 + 9], '>u8'))
        self.assertEqual([each.tolist() for each in found], [[0], [0]])
        with self.assertRaisesRegex(ValueError, 'above 64 bits with a sign'):
            Table([numpy.array([high], '>u8')])


if __name__ == '__main__':
    unittest.main()
