"""--sort: files in any order."""
import random
from array import array
from unittest import mock

from ..cells import parted
from ..order import Order
from ..feed import Part
from ..sorting import Coding, HeldTexts, Placed, Rows, Sorter, decoded, encoded
from .command import Case, within
from .judge import in_order, matches


class Sorts(Case):
    """Sorting, in memory and in runs."""

    def test_runs(self):
        """Rows come out sorted however many runs they are in, and however the rows of the runs lie among each other."""
        r = random.Random(1)
        rows = [(r.choice((0, 5, 2**32, 2**64 - 1)), r.randrange(300), number) for number in range(2000)]
        for run, merged in ((1, 7), (7, 1), (100, 30), (2000, 30000), (2001, 30000)):
            with mock.patch('cli.sorting.RUN', run), mock.patch('cli.sorting.MERGED', merged):
                sorter = Sorter(3)
                for first in range(0, len(rows), 9):
                    sorter.add([array('Q', column) for column in zip(*rows[first:first + 9])])
                found = [row for columns, tails in sorter.columns(50) for row in zip(*columns) if tails is None]
                self.assertEqual(found, sorted(rows))
                self.assertEqual(bool(sorter.runs), run <= 2000)
                sorter.close()

    def test_texts(self):
        """Rows with texts, none of them and long ones too, in runs that end by their rows or by their bytes."""
        r = random.Random(4)
        rows = [(r.randrange(50), number, bytes(r.choice(b'ab\n') for _ in range(r.choice((0, 1, 3, 90))))) for number in range(700)]
        for run, run_bytes, merged_bytes, runs in ((5, 9999, 9999, 78), (9999, 600, 50, 34), (9999, 99999, 9999, 0)):
            with mock.patch.multiple('cli.sorting', RUN=run, RUN_BYTES=run_bytes, MERGED_BYTES=merged_bytes):
                sorter = Sorter(2, tails=True)
                for first in range(0, len(rows), 9):
                    keys, numbers, texts = zip(*rows[first:first + 9])
                    sorter.add([array('Q', keys), array('Q', numbers)], texts)
                found = [row for columns, texts in sorter.columns(50) for row in zip(*columns, texts)]
                self.assertEqual(found, sorted(rows))
                self.assertAlmostEqual(len(sorter.runs), runs, delta=8)
                sorter.close()

    def test_placed(self):
        """Texts come out by their places, in whatever order and parts they came: no place at all, one, stretches that are just full."""
        r = random.Random(5)
        for count in (0, 1, 6, 7, 8, 700):
            texts = [bytes(r.choice(b'ab\n') for _ in range(r.choice((0, 1, 3, 90)))) for _ in range(count)]
            places = r.sample(range(count), count)
            for run, run_bytes, stretch, stretches in ((5, 9999, 7, 256), (9999, 600, 7, 3), (9999, 99999, 1, 1000), (1, 1, 9999, 1)):
                with mock.patch.multiple('cli.sorting', RUN=run, RUN_BYTES=run_bytes, STRETCH=stretch, STRETCHES=stretches):
                    placed = Placed(count)
                    for first in range(0, count, 9):
                        part = places[first:first + 9]
                        placed.add(array('Q', part), [texts[place] for place in part])
                    found = list(placed.sorted())
                    self.assertEqual([text for each in found for text in each], texts)
                    self.assertEqual([len(each) for each in found[:-1]], [placed.width] * (len(found) - 1))
                    placed.close()

    def test_held(self):
        """The texts of notices: those that came last from memory, others from the file, near to each other or not."""
        texts = [f'{number} é\n' * (number % 4) for number in range(300)]
        for near, window in ((16384, 1 << 20), (40, 1 << 20), (40, 100), (1, 1)):
            with mock.patch.multiple('cli.sorting', NEAR=near, WINDOW=window):
                held = HeldTexts()
                for first in range(0, 300, 30):
                    block = Rows([array('Q', range(30))], encoded(texts[first:first + 30]))
                    for ends in ((0, 11), (11, 30)):
                        held.add(Part(block, [(array('q', range(30)), None)], *ends))
                    held.drop(first // 2)
                    for numbers in ([], [first // 2], [first + 29], [first // 2, first + 3, first + 3, first + 29]):
                        self.assertEqual(decoded(held.at(numbers)), [texts[number] for number in numbers])
                held.texts.close()

    def test_coding(self):
        """Columns in numbers sort as the judge sorts them, and come back as they were: all directions, nulls, a list, the ends."""
        r = random.Random(3)
        for case in range(200):
            down, last, codes = r.random() < 0.5, r.random() < 0.5, r.sample((30, -5, 2**63 - 1), 3) if case % 2 else None
            order = Order(['p'], 'm', ['p'] * down, ['p'] * last, ('p', codes) if codes else None)
            by = [None, *(codes or (-2**63, -1, 0, 7, 2**63 - 1))][case % 3 == 0:]
            rows = [(r.choice(by), r.choice((-2**63, -1, 0, 2**63 - 1))) for _ in range(20)]
            coding, columns = Coding(order, [None in by, False]), [parted(list(column)) for column in zip(*rows)]
            words = coding.words(columns)
            self.assertEqual([(values, marks if marks and 0 in marks else None) for values, marks in coding.columns(words)], columns)
            sorter = Sorter(coding.width + 1)
            sorter.add([*words, array('Q', range(20))])
            found = [number for columns, _ in sorter.columns(50) for number in columns[-1]]
            wanted = in_order([(*row, number) for number, row in enumerate(rows)], [down, False], [last, False], [codes, None])
            self.assertEqual(found, [row[-1] for row in wanted])

    def test_files(self):
        """Files of many runs and blocks, unsorted: every sale in its own place with the judge's notice, and the notice's own number."""
        r = random.Random(2)
        tables = [[(r.choice(('Lear', 'Hamlet', 'Ärger')), r.randrange(400)) for _ in range(rows)] for rows in (900, 700)]
        paths = [self.file(name, 'p,m,n\n' + ''.join(f'{p},{m},"{number}\né"\n' for number, (p, m) in enumerate(table)))
                 for name, table in zip(('s.csv', 'n.csv'), tables)]
        wanted = matches(*tables, 'nearest', True, 9)
        for run in (13, 50000):
            with mock.patch('cli.sorting.RUN', run), mock.patch('cli.records.FIRST_BYTES', 500), mock.patch('cli.records.MOST_BYTES', 500):
                said = within(['join', *paths, '--on', 'm', '--by', 'p', '--sort', '--strategy', 'nearest', '--tolerance', '9'])
            self.assertEqual(self.went_well(said)[1], 900)
            lines = [''.join(f'{p},{m},"{number}\né"' for p, m in [tables[0][number]]) + (
                ',,,' if match is None else f',{match},{tables[1][match][1]},"{match}\né"') for number, match in enumerate(wanted)]
            self.assertEqual(said.out, 'p,m,n,notice_row,notice_m,notice_n\n' + ''.join(f'{line}\n' for line in lines))

    def test_words(self):
        """It does not go with --stream, and a fault other than of order is told still."""
        path = self.file('s.csv', 'm\n5\n3\nx\n')
        self.refused(within(['join', path, path, '--on', 'm', '--sort', '--stream']), '--stream: does not go with --sort', 2)
        self.refused(within(['join', path, path, '--on', 'm', '--sort']), "line 4, column m: 'x' is not a whole number")
        path = self.file('s.csv', 'm\n5\n3\n')
        self.assertEqual(within(['join', path, path, '--on', 'm', '--sort']).out, 'm,notice_row,notice_m\n5,0,5\n3,1,3\n')
        self.refused(within(['join', path, path, '--on', 'm']), 'rows must be sorted by m, or add --sort')
