"""The calls one by one."""
import ctypes
import doctest
import gc
import os
import pickle
import struct
import unittest
from array import array
from unittest import mock

import rowkeeper
from rowkeeper import Join, NoLibrary, Refused, asof_join, join, lent, library
from rowkeeper.interface import (BAD_FRAME, BAD_JOIN, BAD_OPTIONS, BAD_RANKS, CLOSED, DONE, IDLE, LAYOUT, LEFT_ORDER, MOST_ROWS, NO_ROOM,
                                 PORT_DONE, PORT_READY, REFUSALS, REFUSED, RIGHT_ORDER, RUNNING, TOO_MANY_CARRIED, TURNS_USED,
                                 UNKNOWN_CODE, VERSION_NUMBER, WANTS_RIGHT, WROTE, Options, Ranks)
from rowkeeper.interface import Join as Words

# Codes of a house that do not follow its order: stalls, circle, gods.
STALLS, CIRCLE, GODS = 30, 10, 20


def frame(rows):
    """Rows of one width as the words of a frame; None is a null."""
    cells = [cell for row in rows for cell in row]
    return array('q', [len(rows), len(rows[0]) if rows else 1, *(cell or 0 for cell in cells), *(cell is not None for cell in cells)])


def keys(*numbers):
    """A frame of keys alone."""
    return frame([(number,) for number in numbers])


class Calls(unittest.TestCase):
    """What the calls answer."""

    def refused(self, number, call, *words, **more):
        """A call must be refused by this number."""
        with self.assertRaises(Refused) as caught:
            call(*words, **more)
        self.assertEqual((caught.exception.number, caught.exception.text), (number, REFUSALS[number]))
        self.assertEqual(str(caught.exception), f'refused by {number}: {REFUSALS[number]}')

    def test_turns(self):
        """The worked case of SCOPE 21.1: a turn that wants, one that writes, one that is idle."""
        join = Join()
        self.assertEqual(join.turn(), (IDLE, None, None))
        join.left(keys(5, 20, 25))
        self.assertEqual(join.turn().answer, WANTS_RIGHT)
        join.right(keys(10, 20, 20, 30))
        turn = join.turn()
        self.assertEqual((turn.answer, turn.sequence, turn.matches.numbers(), list(turn.matches)), (WROTE, 0, [None, 2, 2], [None, 2, 2]))
        self.assertEqual((len(turn.matches), turn.matches.carried, join.held, join.pruned), (3, 0, 2, 2))
        join.left(keys(31))
        join.end_right()
        self.assertEqual((join.turn().sequence, join.right_ended, join.waiting_words), (2, True, 0))

    def test_carried(self):
        """The worked case of SCOPE 21.10: carried cells come with the match, nulls and all."""
        join = Join(carried=1)
        join.right(frame([(10, 1800), (20, 2200), (20, None), (30, 2500)]))
        join.end_right()
        join.left(keys(5, 10, 20, 35))
        matches = join.turn().matches
        self.assertEqual(matches.rows(), [None, (0, 1800), (2, None), (3, 2500)])
        self.assertEqual((matches.cells(0), matches.carried), ([None, 1800, None, 2500], 1))
        with self.assertRaises(IndexError):
            matches.cells(1)

    def test_distance(self):
        """SCOPE 12.5: the distance comes behind what is carried, 2^63 - 1 at most; it is kept in a saved join, and in a run."""
        join = Join(carried=1, distance=True)
        join.right(frame([(-2**63, 7), (10, 1800), (20, None)]))
        join.end_right()
        for left in (keys(-2**63 + 4, -1, 0), keys(14), keys(20, 27)):
            join.left(left)
        matches = join.turn().matches
        self.assertEqual(matches.rows(), [(0, 7, 4), (0, 7, 2**63 - 1), (0, 7, None)])
        self.assertEqual((matches.cells(0), matches.distances(), matches.carried), ([7, 7, 7], [4, 2**63 - 1, None], 1))
        join = Join.from_state(join.state())
        self.assertTrue(join.tells_distance)
        short = join.run(output=array('q', bytes(8 * 8)))
        self.assertEqual((short.stop, short.refusal.number, [turn.matches.rows() for turn in short.turns]), (REFUSED, NO_ROOM, [[(1, 1800, 4)]]))
        run = join.run()
        self.assertEqual((run.stop, [turn.matches.distances() for turn in run.turns]), (IDLE, [[0, 7]]))

    def test_distance_not_told(self):
        """A join that was opened without distances tells none, and its answers have no column for them."""
        join = Join()
        join.right(keys(10))
        join.end_right()
        join.left(keys(5, 15))
        matches = join.turn().matches
        self.assertEqual((matches.columns, join.tells_distance, matches.rows()), (1, False, [None, (0,)]))
        with self.assertRaises(ValueError):
            matches.distances()
        words = Words.from_buffer_copy(join.state())
        words.options.with_distance = 2
        strange = Join.from_state(bytes(words) + join.state()[ctypes.sizeof(Words):])
        self.refused(BAD_JOIN, strange.turn)

    def test_options(self):
        """Options that are refused, those that no number can say among them, and those that are none."""
        for options in ({'by': 5}, {'by': -1}, {'by': 2**64}, {'tolerance': -1}, {'tolerance': 2**63}, {'tolerance': 2**64 + 5},
                        {'strategy': 'nearest', 'allow_exact_matches': False}, {'by': 5, 'carried': 9}):
            with self.subTest(options):
                self.refused(BAD_OPTIONS, Join, **options)
        for carried in (9, -1, 2**64 + 1):
            self.refused(TOO_MANY_CARRIED, Join, carried=carried)
        for options in ({'strategy': 'back'}, {'descending': [True] * 5}, {'nulls_last': [False] * 5}):
            with self.assertRaises(ValueError):
                Join(**options)

    def test_order_flags(self):
        """By-columns that descend, with their nulls last."""
        join = Join(by=1, descending=[True], nulls_last=[True])
        join.right(frame([(2, 1), (1, 1), (None, 1)]))
        join.left(frame([(2, 3), (1, 3), (None, 3)]))
        join.end_right()
        self.assertEqual(join.turn().matches.numbers(), [0, 1, None])

    def bands(self, left, right, **options):
        """The matches of rows of a band and a key, with a list of ranks and the check strict."""
        join = Join(by=1, **{'check': 'strict', 'ranks': (0, [STALLS, CIRCLE, GODS]), **options})
        join.right(frame(right))
        join.left(frame(left))
        join.end_right()
        return join.turn().matches.numbers()

    def test_ranks(self):
        """A by-column goes by the places of its codes, the other way round if it descends, nulls as ever; without the list it goes
        by number."""
        sales, notices = [(STALLS, 9), (STALLS, 12), (CIRCLE, 12), (GODS, 99)], [(STALLS, 10), (CIRCLE, 10), (GODS, 15), (GODS, 20)]
        self.assertEqual(self.bands(sales, notices), [None, 0, 1, 3])
        self.assertEqual(self.bands(sales, notices, descending=[True], ranks=(0, (GODS, CIRCLE, STALLS))), [None, 0, 1, 3])
        self.assertEqual(self.bands([(None, 1), *sales], [(None, 1), *notices]), [None, None, 1, 2, 4])
        self.assertEqual(self.bands([*sales, (None, 1)], [*notices, (None, 1)], nulls_last=[True]), [None, 0, 1, 3, None])
        self.refused(LEFT_ORDER, self.bands, sales, notices, ranks=None)
        self.refused(LEFT_ORDER, self.bands, sales[::-1], notices)
        self.refused(RIGHT_ORDER, self.bands, [(STALLS, 11)], [(CIRCLE, 1), (STALLS, 1)])

    def test_bad_ranks(self):
        """Lists that are refused by 11, behind 1 and 10, and those that are none. The longest is taken."""
        self.assertEqual(Join(by=1, ranks=(0, range(64))).held, 0)
        for ranks in ((0, []), (0, range(65)), (0, range(1000)), (0, [1, 2, 1]), (1, [1]), (-1, [1]), (2**64, [1])):
            with self.subTest(ranks):
                self.refused(BAD_RANKS, Join, by=1, ranks=ranks)
                self.refused(TOO_MANY_CARRIED, Join, by=1, carried=9, ranks=ranks)
                self.refused(BAD_OPTIONS, Join, by=5, ranks=ranks)
        self.refused(BAD_RANKS, Join, by=0, ranks=(0, [1]))
        for ranks in (3, [1], (0, 1), (0, ['stalls']), (0, [1.5]), (0, [2**63]), (0, [-2**63 - 1]), ('band', [1]), {0: [1], 1: [2]}):
            with self.subTest(ranks), self.assertRaisesRegex(ValueError, 'ranks'):
                Join(by=1, ranks=ranks)

    def test_unknown_code(self):
        """A value that is not on the list is refused by 12, in either frame and in one that waits; nulls, keys and other columns are
        not looked at."""
        join = Join(by=2, ranks=(1, [STALLS, CIRCLE]), left_rows=2, right_rows=0)
        before = join.state()
        self.refused(UNKNOWN_CODE, join.left, frame([(1, GODS, 1)]))
        self.refused(UNKNOWN_CODE, join.right, frame([(1, GODS, 1)]))
        self.refused(NO_ROOM, join.right, frame([(1, CIRCLE, 1)]))
        self.assertEqual(join.state(), before)
        join.left(frame([(GODS, None, GODS)]))
        join.end_right()
        self.assertEqual(join.turn().matches.numbers(), [None])

    def test_saved_list(self):
        """A join keeps its list, and the places of its codes, where it is saved; with other ones it is refused by 2."""
        join = Join(by=1, ranks=(0, [STALLS, CIRCLE, GODS]), left_rows=1, right_rows=3)
        join.right(frame([(STALLS, 1), (CIRCLE, 1), (GODS, 1)]))
        saved = join.state()
        again = Join.from_state(saved)
        again.left(frame([(CIRCLE, 5)]))
        self.assertEqual(again.turn().matches.numbers(), [1])
        rising, codes = Words.rising.offset, Words.options.offset + Options.ranks.offset + Ranks.codes.offset
        self.assertEqual(saved[rising:rising + 4], bytes([1, 2, 0, 0]))
        for place, other in ((rising, b'\xff'), (rising + 1, b'\x01'), (codes, bytes([GODS]))):
            self.refused(BAD_JOIN, Join.from_state(saved[:place] + other + saved[place + 1:]).turn)

    def test_failed(self):
        """Rows out of order mark the join failed; without the check they do not."""
        join = Join()
        join.left(keys(2, 1))
        join.end_right()
        self.refused(LEFT_ORDER, join.turn)
        self.assertTrue(join.failed)
        self.assertEqual(join.run().refusal.number, 3)
        join = Join(check='off')
        join.left(keys(2, 1))
        join.end_right()
        self.assertEqual(join.turn().matches.numbers(), [None, None])

    def test_strict(self):
        """SCOPE 21.8 and 21.12: a row without a key lets disorder between frames by, and under strict it does not."""
        for check, last in (('on', None), ('strict', LEFT_ORDER)):
            join = Join(by=1, check=check)
            join.right(frame([(2, 1), (2, 7), (3, 1), (4, 1)]))
            for row, match in (((2, 5), 0), ((3, None), None)):
                join.left(frame([row]))
                self.assertEqual(join.turn().matches.numbers(), [match])
            join.left(frame([(2, 8)]))
            if last is None:
                self.assertEqual(join.turn().matches.numbers(), [None])
            else:
                self.refused(last, join.turn)
        with self.assertRaisesRegex(ValueError, 'check'):
            Join(check='sometimes')

    def test_run(self):
        """Turns in one call: as many as are allowed, then the rest, each with the number of its frame."""
        join = Join(carried=2)
        join.right(frame([(10, 1, 2), (20, 3, 4)]))
        for key in (5, 15, 25):
            join.left(keys(key))
        run = join.run(1)
        self.assertEqual((run.stop, run.refusal, [turn.sequence for turn in run.turns]), (TURNS_USED, None, [0]))
        self.assertEqual(join.run().stop, WANTS_RIGHT)
        join.end_right()
        join.left(keys(30))
        run = join.run()
        self.assertEqual((run.stop, [(turn.sequence, turn.matches.rows()) for turn in run.turns]),
                         (IDLE, [(4, [(1, 3, 4)]), (6, [(1, 3, 4)])]))

    def test_run_that_is_refused(self):
        """What the turns before a refused one wrote stands."""
        join = Join()
        join.end_right()
        join.left(keys(1))
        join.left(keys(3, 2))
        run = join.run()
        self.assertEqual((run.stop, run.refusal.number, len(run.turns), join.failed), (REFUSED, LEFT_ORDER, 1, True))

    def test_ports(self):
        """The node's ports, and that it ends."""
        join = Join()
        self.assertEqual((join.ports(PORT_READY, PORT_READY, PORT_READY), join.node_state), ((PORT_READY,) * 3, RUNNING))
        self.assertEqual((join.ports(PORT_DONE, PORT_READY, PORT_READY), join.node_state), ((PORT_DONE,) * 3, DONE))
        self.refused(CLOSED, join.left, keys(1))
        self.refused(BAD_JOIN, join.ports, 3, 0, 0)
        self.refused(BAD_JOIN, join.ports, 2**64, 0, 0)

    def test_grow(self):
        """A frame without room finds it after growing; what is held and what waits stays."""
        join = Join(left_rows=1, right_rows=2)
        join.left(keys(25))
        join.right(keys(10, 20))
        self.refused(NO_ROOM, join.right, keys(21))
        self.refused(NO_ROOM, join.left, keys(26))
        join.grow(right_rows=3, left_words=8)
        self.assertEqual((join.right_rows, join.left_words), (3, 8))
        join.right(keys(21))
        join.left(keys(26))
        join.grow(right_rows=1)
        self.assertEqual(join.right_rows, 3)
        join.end_right()
        self.assertEqual([turn.matches.numbers() for turn in join.run().turns], [[2], [2]])

    def test_full_frame(self):
        """The most rows of a frame, and one more."""
        join = Join()
        join.left(keys(*range(MOST_ROWS)))
        join.end_right()
        self.assertEqual(len(join.turn().matches), MOST_ROWS)
        self.refused(BAD_FRAME, join.left, keys(*range(MOST_ROWS + 1)))


class State(unittest.TestCase):
    """Joins that are kept in a file."""

    def half_way(self):
        """A join with a frame that waits and rows that are held."""
        join = Join(by=1, carried=1, left_rows=3, right_rows=5)
        join.left(frame([(7, 12)]))
        join.right(frame([(7, 10, 100), (7, 11, None)]))
        return join

    def test_goes_on(self):
        """A join that was saved goes on as the one that was not, and that one is not touched."""
        join = self.half_way()
        saved = join.state()
        self.assertEqual(struct.unpack_from('=Q', saved), (LAYOUT,))
        for each in (Join.from_state(saved), Join.from_state(bytearray(saved)), join):
            each.end_right()
            self.assertEqual(each.turn().matches.rows(), [(1, None)])
            self.assertEqual((each.right_rows, each.turn().answer), (5, IDLE))

    def test_others(self):
        """Another layout word is refused by 2; too few bytes, too many and none are a ValueError; other words are judged by
        calls."""
        saved = self.half_way().state()
        with self.assertRaises(Refused) as caught:
            Join.from_state(struct.pack('=Q', LAYOUT - 1) + saved[8:])
        self.assertEqual(caught.exception.number, BAD_JOIN)
        words = ctypes.sizeof(Words)
        for other in (b'', saved[:100], saved[:-8], saved + bytes(8), saved[:words] + struct.pack('=2q', -1, 0)):
            with self.assertRaises(ValueError):
                Join.from_state(other)
        join = Join.from_state(saved[:8] + b'\xff' * (words - 8) + saved[words:])
        self.assertRaises(Refused, join.turn)

    def test_refusals_travel(self):
        """A refusal can be handed to another process."""
        self.assertEqual(pickle.loads(pickle.dumps(Refused(6))).number, 6)


class Lent(unittest.TestCase):
    """Memory that calls are lent."""

    def test_kinds(self):
        """Arrays, views, bytes that cannot be written, ctypes: all are frames."""
        words = keys(1, 2)
        kinds = [words, memoryview(words), memoryview(bytes(words)).cast('q'), (ctypes.c_int64 * len(words))(*words)]
        for kind in kinds:
            join = Join()
            join.left(kind)
            self.assertEqual(join.waiting_words, len(words))

    def test_other_kinds(self):
        """What is no array of 64-bit numbers in one piece is a ValueError, before the library sees it."""
        for bad in (array('d', [1.0, 2.0]), array('i', [1, 1]), array('Q', [0, 1]), b'12345678', memoryview(keys(1, 2))[::2], [0, 1], None,
                    memoryview(bytearray(25))[1:17].cast('q')):
            with self.subTest(repr(bad)), self.assertRaises(ValueError):
                Join().left(bad)
        with self.assertRaises(ValueError):
            Join().turn(memoryview(bytes(64)).cast('q'))

    def test_held_while_lent(self):
        """A buffer cannot be resized, and so not be moved, while it is lent; afterwards it can."""
        words = keys(1, 2)
        with lent.in_place(words, 'words') as (address, length):
            self.assertEqual((address, length), words.buffer_info())
            self.assertRaises(BufferError, words.append, 1)
        words.append(1)

    def test_temporaries(self):
        """Frames and outputs that no one else holds: the join has copied them, and matches keep what they are seen in."""
        join = Join()
        join.right(keys(*range(1000)))
        join.end_right()
        found = []
        for first in range(0, 1000, 10):
            join.left(keys(*range(first, first + 10)))
            found.append(join.turn(array('q', bytes(8 * 64))).matches)
            gc.collect(0)
        self.assertEqual([number for matches in found for number in matches], list(range(1000)))

    def test_short_output(self):
        """An output that is too short is refused by 6, and what stands in it stays."""
        join = Join()
        join.left(keys(1, 2))
        join.end_right()
        output = array('q', [7] * 5)
        with self.assertRaises(Refused) as caught:
            join.turn(output)
        self.assertEqual((caught.exception.number, list(output)), (NO_ROOM, [7] * 5))


class Library(unittest.TestCase):
    """The shared object."""

    def test_another_version(self):
        """A library of another version is refused when it is loaded, in one line."""
        with mock.patch.object(library, 'VERSION_NUMBER', VERSION_NUMBER + 1), self.assertRaises(NoLibrary) as caught:
            library.loaded(library.place())
        self.assertIn(f'the library has the number {VERSION_NUMBER}', str(caught.exception))

    def test_none(self):
        """A file that is not there, and one that has not the calls."""
        for path in ('/no/such/librowkeeper.so', None):
            with self.assertRaisesRegex(NoLibrary, 'the library cannot be loaded'):
                library.loaded(path)


class Papers(unittest.TestCase):
    """What the docstrings show."""

    def test_docstrings(self):
        """Each sample gives what is shown."""
        tried = [doctest.testmod(module) for module in (join, asof_join)]
        self.assertEqual([result.failed for result in tried], [0, 0])
        self.assertGreater(min(result.attempted for result in tried), 1)

    def test_names(self):
        """All that the module says it has is there."""
        for name in rowkeeper.__all__:
            self.assertTrue(hasattr(rowkeeper, name), name)


if __name__ == '__main__':
    os.environ.setdefault('PYTHONDONTWRITEBYTECODE', '1')
    unittest.main()
