"""The parts that need no library."""
import ctypes
import io
import os
import unittest
from unittest import mock

import rowkeeper.library
from rowkeeper.interface import Join

from .. import build
from ..arguments import parse, parser
from ..cells import Whole, frame_words, number, parted
from ..input import Input
from ..judged import Judged
from ..kinds import Kinds
from ..order import Order
from ..page import PAGE
from ..pricing import Heights
from ..problem import Problem, at
from ..progress import Progress
from ..source import Source
from .command import Case
from .judge import row_before

# What makes the library in the repository.
library = rowkeeper.library.maker()


class Cells(unittest.TestCase):
    """Cells of whole-number columns."""

    def test_numbers(self):
        """What is a number or a null, alone and in a column."""
        for cell, value in (('0', 0), (' 12 ', 12), ('-5', -5), ('+7', 7), ('007', 7), ('-0', 0), ('', None), ('  ', None),
                            ('9223372036854775807', 2**63 - 1), ('-9223372036854775808', -2**63), ('0' * 5000 + '1', 1)):
            self.assertEqual(number(cell), value)
            self.assertEqual(list(Whole.column([cell, '3'])), [value, 3])

    def test_no_numbers(self):
        """What is none, though Python might take it for one."""
        for cell, said in (('x', 'not a whole number'), ('1.0', 'not a whole number'), ('1_000', 'not a whole number'),
                           ('٣', 'not a whole number'), ('1 2', 'not a whole number'), ('--1', 'not a whole number'),
                           ('9223372036854775808', 'beyond 64 bits'), ('-9223372036854775809', 'beyond 64 bits'),
                           ('9' * 5000, 'beyond 64 bits')):
            for read in (number, lambda each: Whole.column(['1', each]), lambda each: Whole.column(['', each])):
                with self.assertRaisesRegex(ValueError, said):
                    read(cell)

    def test_frame(self):
        """The example of the header file, and no rows."""
        columns = [parted(Whole.column(cells)) for cells in (['7', '7'], ['12', ''])]
        self.assertEqual(list(frame_words(columns, 0, 2)), [2, 2, 7, 12, 7, 0, 1, 1, 1, 0])
        self.assertEqual(list(frame_words(columns, 1, 2)), [1, 2, 7, 0, 1, 0])
        self.assertEqual(list(frame_words(columns, 1, 1)), [0, 2])


class Frames(unittest.TestCase):
    """How many sales a frame has."""

    def test_heights(self):
        """Twice as many up to a full frame; half where one called for too many notices, and never none."""
        heights = Heights()
        learnt = []
        for called in [0] * 10 + [16385] * 14 + [16384] * 2:
            heights.learn(called)
            learnt.append(heights.rows)
        self.assertEqual(learnt, [32, 64, 128, 256, 512, 1024, 2048, 4096, 4096, 4096,
                                  2048, 1024, 512, 256, 128, 64, 32, 16, 8, 4, 2, 1, 1, 1, 2, 4])


class Orders(unittest.TestCase):
    """The order, against the judge's own."""

    def test_all_pairs(self):
        """All pairs of rows with nulls and the ends of the range, in all directions."""
        cells = (None, -2**63, -1, 0, 5, 2**63 - 1)
        rows = [(a, b) for a in cells for b in cells]
        for down in (False, True):
            for last in (False, True):
                order = Order(['p'], 'm', ['p'] * down, ['p'] * last)
                for a in rows:
                    for b in rows:
                        before = row_before(b, a, [down], [last])
                        self.assertEqual(order.fault(a, b) is not None, before)
                        columns = list(map(list, zip(a, b)))
                        ranks = order.ranks_of(columns)
                        self.assertEqual((ranks[1] < ranks[0], not order.in_order(columns)), (before, before))

    def test_list(self):
        """All pairs of rows of listed codes and nulls, in all directions; which other cells may stand where."""
        codes = [30, -2**63, 10, 2**63 - 1]
        rows = [(a, b, c) for a in (None, 1, 2) for b in (None, *codes) for c in (None, 0, 5)]
        for down in (False, True):
            for last in (False, True):
                order = Order(['p', 'band'], 'm', ['band'] * down, ['band'] * last, ('band', codes))
                for a in rows:
                    for b in rows:
                        before = row_before(b, a, [False, down], [False, last], [None, codes])
                        self.assertEqual(order.fault(a, b) is not None, before)
                        columns = list(map(list, zip(a, b)))
                        ranks = order.ranks_of(columns)
                        self.assertEqual((ranks[1] < ranks[0], not order.in_order(columns)), (before, before))
        self.assertEqual([order.may_stand(column, 20) for column in range(3)], [True, False, True])
        self.assertEqual([order.may_stand(1, cell) for cell in (None, 30, 10)], [True] * 3)
        self.assertEqual([order.lacks([[20], cells, [20]]) for cells in ([], [30, None, 10], [30, 20])], [False, False, True])
        self.assertEqual(order.ranks, (1, codes))

    def test_column(self):
        """The column that a message names, and the order in words."""
        order = Order(['p', 'q'], 'm', ['q'], ['p'])
        self.assertEqual(order.fault((1, 2, 3), (1, 2, 2)), 2)
        self.assertEqual(order.fault((1, 2, 3), (1, 3, 9)), 1)
        self.assertEqual(order.fault((None, 2, 3), (1, 2, 3)), 0)
        self.assertEqual(str(order), 'p (empty cells last), then q (descending), then m')
        order = Order(['p', 'q'], 'm', ['q'], [], ('q', [30, 10, 20]))
        self.assertEqual(order.fault((1, 10, 3), (1, 20, 9)), 1)
        self.assertEqual(str(order), 'p, then q (descending, in the order 30 10 20), then m')
        self.assertEqual(str(Order(['p'], 'm', listed=('p', range(64)))), 'p (in the order 0 1 2 3 4 5 6 7 …), then m')


class Sources(Case):
    """Reading."""

    def source(self, content, by=('p',), check=True, words=('m',)):
        """A source over a new file."""
        source = Source(Input(self.file('t.csv', content)), [*by, *words], Kinds(Order(by, 'm'), may_be_text=False), check)
        self.addCleanup(source.input.close)
        return source

    def test_blocks(self):
        """However many bytes a block has, the same rows come, in the same lines."""
        text = 'p,m,t\n' + ''.join(f'{i // 4},{i},{t}\n' for i, t in enumerate(['x', '"y"', '"a\nb"', 'z', '', '"',  'é'] * 9))
        text = text.replace(',"\n', ',"q,"\n')
        wanted = None
        for size in (1, 7, 50, 1000, 1 << 15):
            with mock.patch('cli.records.FIRST_BYTES', size), mock.patch('cli.records.MOST_BYTES', size), \
                    mock.patch('cli.records.FEWEST_BYTES', 1):
                source, rows = self.source(text), []
                for block, columns in iter(source.next, None):
                    lines = [block.line(row) for row in range(block.height)]
                    rows += list(zip(*columns, block.lines, block.columns([2], 3)[0], lines))
            self.assertEqual(rows, wanted or rows)
            wanted = rows
        self.assertEqual([row[:2] for row in rows], [(i // 4, i) for i in range(63)])
        self.assertEqual(rows[2:4] + rows[6:7], [(0, 2, '0,2,"a\nb"', 'a\nb', 4), (0, 3, '0,3,z', 'z', 6), (1, 6, '1,6,é', 'é', 9)])
        self.assertEqual(source.share(), 1.0)

    def test_odd_line_ends(self):
        """Several carriage returns at the end of a line, one alone at the end of the file, blank lines in pieces of their own: the text of
        a row has none of them, and a second reading finds the same rows."""
        text = 'p,m,t\n' + '\n' * 9 + '1,2,x\r\r\n' + '\n' * 50 + '1,3,"y\r"\n\r\n\n1,4,z\n1,5,\r'
        for size in (1, 8, 1 << 15):
            with mock.patch('cli.records.FIRST_BYTES', size), mock.patch('cli.records.MOST_BYTES', size), \
                    mock.patch('cli.records.FEWEST_BYTES', 1):
                table = Judged(self.source(text))
                table.read(lambda: None)
                blocks = [block for block, _ in table.pairs()]
                cells = [text for block, _ in table.pairs(later=True) for text in block.chosen([0, 1, 2], 3, ',')]
            self.assertEqual([line for block in blocks for line in block.lines], ['1,2,x', '1,3,"y\r"', '1,4,z', '1,5,'])
            self.assertEqual([block.line(row) for block in blocks for row in range(block.height)], [11, 62, 65, 66])
            self.assertEqual(cells, ['1,2,x', '1,3,"y\r"', '1,4,z', '1,5,'])
            table.close()

    def test_kinds_of_text(self):
        """Line ends, a byte order mark, blanks, blank lines, quotes."""
        for text in ('p,m,t\r\n1,2,x\r\n', '\ufeffp,m,t\n1,2,x', 'p, m ,t\n\n1, 2,x\n\n', '"p","m","t"\n"1","2","x"\n'):
            block, columns = self.source(text).next()
            self.assertEqual((list(map(list, columns)), block.columns([2], 3)), ([[1], [2]], [['x']]))

    def test_quotes_over_lines(self):
        """A cell may run over lines, and lines are still counted right."""
        text = 'p,m,t\n1,1,"a\nb\nc"\n1,2,"d,""e"""\n1,x,f\n'
        with self.assertRaisesRegex(Problem, "line 6, column m: 'x' is not"):
            self.source(text).next()
        block, _ = self.source(text[:-6]).next()
        self.assertEqual(block.rows, [['1', '1', 'a\nb\nc'], ['1', '2', 'd,"e"']])
        self.assertEqual(block.lines, ['1,1,"a\nb\nc"', '1,2,"d,""e"""'])

    def test_one_column(self):
        """An empty cell in quotes is a row, a blank line is none."""
        self.assertEqual(self.source('m\n""\n\n3\n', by=()).next()[1], [[None, 3]])

    def test_first_fault_is_told(self):
        """Of several faults the first in the file is told, wherever frames end."""
        for text, said in (('p,m\n1,2\n1,1\n1,x\n', 'line 3, column m: out of order: 1 comes after 2 of line 2'),
                           ('p,m\n1,2\n1,x\n1,1\n', "line 3, column m: 'x'"),
                           ('p,m\n1,x\n"a"b,1\n', "line 2, column m: 'x'"),
                           ('p,m\n1,2\n"a"b,1\n1,x\n', 'line 3: the line cannot be read as CSV: a quote is closed inside'),
                           ('p,m\n1,1\n1\n1,1,1\n', 'line 3: columns: 1, but the header names 2'),
                           ('p,m\n2,1\n,1\n', 'line 3, column p: out of order: an empty cell comes after 2 of line 2'),
                           ('p,m\n1,1\n1,"2\n1,3\n', 'line 3: the line cannot be read as CSV: a quote is opened')):
            for size in (1, 9, 99):
                with mock.patch('cli.records.FIRST_BYTES', size), mock.patch('cli.records.MOST_BYTES', size):
                    source = self.source(text)
                    with self.assertRaises(Problem) as caught:
                        while source.next():
                            pass
                self.assertIn(said, str(caught.exception))

    def test_short_beside_long(self):
        """A row that lacks a cell is told, also where the next one has a cell more and both together look right."""
        for text in ('m,t\n1\n2,3,4\n', 'm,t\n1,2,3\n4\n'):
            with self.assertRaisesRegex(Problem, 'line 2: columns: [13], but the header names 2'):
                self.source(text, by=()).next()

    def test_without_check(self):
        """Rows in any order are taken where no check is wanted."""
        self.assertEqual(list(map(list, self.source('p,m\n1,2\n1,1\n', check=False).next()[1])), [[1, 1], [2, 1]])

    def test_place(self):
        """Places are told in one line."""
        self.assertEqual(at('a.csv', 3, 'm'), 'a.csv, line 3, column m')
        self.assertEqual(at('a\nb.csv').count('\n'), 0)


class Words(unittest.TestCase):
    """The command line and the page."""

    def test_page_tells_every_option(self):
        """No option is missing on the page, and it fits a screen."""
        commands = parser()._subparsers._group_actions[0].choices.values()
        for action in (action for command in commands for action in command._actions):
            for option in action.option_strings:
                if option not in ('-h', '--help'):
                    self.assertIn(f'  {option} ', PAGE)
        self.assertLessEqual(max(map(len, PAGE.splitlines())), 80)

    def test_check_is_on(self):
        """Unless it is turned off; the last word counts."""
        words = ['join', 'a', 'b', '--on', 'm']
        self.assertTrue(parse(words).check)
        self.assertFalse(parse(words + ['--no-check']).check)
        self.assertTrue(parse(words + ['--no-check', '--check']).check)

    def test_layout(self):
        """A join has no padding."""
        self.assertEqual(ctypes.sizeof(Join), Join.last_right.offset + Join.last_right.size)
        self.assertEqual(ctypes.sizeof(Join), sum(ctypes.sizeof(kind) for _, kind in Join._fields_))


class Shown(unittest.TestCase):
    """Progress."""

    class Terminal(io.StringIO):
        """A stream that is a terminal."""

        def isatty(self):
            """It is one."""
            return True

    def shown(self, stream, now, wanted=True):
        """What is on the stream after a run at these times."""
        times = iter(now)
        progress = Progress(stream, lambda: next(times), wanted)
        source = mock.Mock(rows=1234, **{'share.return_value': 0.5})
        progress.show('reading', source, source)
        progress.clear()
        return stream.getvalue()

    def test_only_long_runs_on_a_terminal(self):
        """Nothing is shown of a short run, or where no one looks; at the end the line is gone."""
        self.assertIn('reading: 1,234 sales (50 %)', self.shown(self.Terminal(), [0, 5, 5]))
        self.assertTrue(self.shown(self.Terminal(), [0, 5, 5]).endswith('\r\033[K'))
        self.assertEqual(self.shown(self.Terminal(), [0, 1]), '')
        self.assertEqual(self.shown(io.StringIO(), [0, 5]), '')
        self.assertEqual(self.shown(self.Terminal(), [0, 5], wanted=False), '')


class Building(Case):
    """What is made, and when."""

    def test_made_of(self):
        """A file is made if it is missing or was made of something else; no time of a file counts."""
        path, made = os.path.join(self.folder, 'a', 'x.so'), []

        def commands(new):
            made.append(new)
            return [['cp', os.devnull, new]]

        for total, times in (('one', 1), ('one', 1), ('two', 2), ('two', 2), ('one', 3)):
            self.assertEqual(library.make(path, total, commands), path)
            self.assertEqual(len(made), times)
            os.utime(path, (1000, 1000))
        os.remove(path)
        library.make(path, 'one', commands)
        self.assertEqual((len(made), sorted(os.listdir(os.path.dirname(path)))), (4, ['x.so', 'x.so.from']))

    def test_says_why_not(self):
        """No archive, a broken one, no compiler, no place: one reason, status 3, and nothing half made is left."""
        for name, value, said in (('ROWKEEPER_ARCHIVE', os.path.join(self.folder, 'none.a'), 'there is no file'),
                                  ('ROWKEEPER_ARCHIVE', self.file('bad.a', b'no archive'), 'the library cannot be made'),
                                  ('PATH', self.folder, 'there is no C compiler')):
            with mock.patch.dict(os.environ, {name: value}), mock.patch('sys.stderr', io.StringIO()), \
                    mock.patch.object(library, 'BUILD', os.path.join(self.folder, 'build')):
                with self.assertRaises(Problem) as caught:
                    build.told(rowkeeper.library.from_dist)
            self.assertIn(said, str(caught.exception))
            self.assertEqual(caught.exception.status, 3)
        left = [file for _, _, files in os.walk(os.path.join(self.folder, 'build')) for file in files]
        self.assertEqual(left, [])

    def test_another_archive(self):
        """An archive that ROWKEEPER_ARCHIVE names has a shared object of its own."""
        with mock.patch.object(library, 'BUILD', os.path.join(self.folder, 'build')):
            archive = library.static()
            with mock.patch.dict(os.environ, ROWKEEPER_ARCHIVE=archive):
                self.assertNotEqual(library.shared(), os.path.join(library.BUILD, library.soname()))
                self.assertEqual(library.static(), os.path.realpath(archive))
