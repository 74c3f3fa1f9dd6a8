"""Times and text in the compared columns: what they are, and that what is converted keeps order and equality, by a judge that
reads the cells itself."""
import csv
import datetime
import io
import os
import random
import unittest
from itertools import chain
from unittest import mock

from rowkeeper.interface import STRATEGIES

from ..cells import Text
from ..dates import Dates, Days, Times
from .command import Case, within
from .judge import by_values, in_order, matches, moment

TABLES = int(os.environ.get('ROWKEEPER_TABLES', '1500')) // 6
TEXTS = ('Hamlet', 'Lear', 'hamlet', 'Ärger', 'Z', '1984', '7', '07', '10', 'a,b', 'a"b', '☂', 'Lear II', '-1')


def reader(zoned):
    """What reads a column of ISO times."""
    return Times(Days('ymd', '-'), zoned)


class IsoTimes(unittest.TestCase):
    """Cells of times in ISO form; test_dates.py has the others."""

    def test_times(self):
        """All forms, by the distance from another time, beside Python's own reader."""
        for zone in (False, True):
            kind, zones = reader(zone), ('Z', '+00:00', '-00:00', '+01:00', '-11:30', '+23:59') if zone else ('',)
            clocks = [' 00:00', 'T00:00', ' 19:30', 'T23:59:59', ' 19:30:05.1', 'T19:30:05.000001', 'T19:30:05.999999', ' 05:00']
            days = ['0001-01-01', '1969-12-31', '1970-01-01', '2026-01-05', '2024-02-29', '9999-12-31']
            cells = [f'{day}{clock}{sign}' for day in days for clock in ([] if zone else ['']) + clocks for sign in zones]
            self.assertEqual(list(kind.column(cells)), [kind.value(f' {cell} ') for cell in cells])
            # A zone may lead beyond the years that Python has: such a cell is compared by what it is without the zone.
            plain = [(kind.value(cell), moment(cell)) for cell in cells if not zone or '0001' not in cell and '9999' not in cell]
            one = plain[0]
            for value, time in plain:
                self.assertEqual(value - one[0], (time - one[1]) // datetime.timedelta(microseconds=1))
        self.assertEqual(reader(True).value('0001-01-01T00:00+23:59'), reader(False).value('0001-01-01') - 86340 * 10**6)

    def test_no_times(self):
        """What is none, though other readers may take it."""
        for cell in ('2026-02-29', '2026-13-01', '0000-01-01', '2026-01-05 24:01', '2026-01-05 19:60', '26-01-05',
                     '2026-01-05 19:30:60', '2026-01-05 1930', '2026-01-05 19', '2026-01-05  19:30', '2026-01-05t19:30', '2026-01-05Z',
                     '2026-01-05 19:30:05.', '2026-01-05 19:30:05.1234567', '2026-01-05 19:30+1', '٢٠٢٦-01-05',
                     '2026-01-05 19:30+24:00', '2026-01-05 19:30+01:60', '2026-W02-1', '19:30', '12.50'):
            for zoned in (False, True):
                for read in (reader(zoned).value, lambda each, kind=reader(zoned): kind.column([each])):
                    with self.assertRaisesRegex(ValueError, 'is not a (date or )?time'):
                        read(cell)
            with self.assertRaisesRegex(ValueError, 'is not a|has a year of two digits'):
                Dates().reader(cell)
        for cell, zoned in (('2026-01-05 19:30', True), ('2026-01-05', True), ('2026-01-05 19:30Z', False)):
            with self.assertRaises(ValueError):
                reader(zoned).value(cell)

    def test_many_times_of_day(self):
        """More than are remembered."""
        kind = reader(False)
        cells = [f'2026-01-05 19:30:05.{part:06}' for part in range(0, 1000000, 7)]
        values = kind.column(cells)
        self.assertEqual([value - values[0] for value in values], list(range(0, 1000000, 7)))
        self.assertLess(len(kind.clocks), len(cells))

    def test_times_that_come_again(self):
        """Columns of new cells and known ones, as Python's own reader has them: all remembered, some or none; a null and a cell that is
        no time among known ones are seen."""
        start, micro = datetime.datetime(1970, 1, 1), datetime.timedelta(microseconds=1)
        columns = [[f'2026-01-{1 + (row * step) % 28:02} 19:{row % 3}0' for row in range(40)] for step in (1, 0, 3, 5, 1)]
        for most, known in ((0, 0), (30, len(set(columns[0]))), (20000, len(set(chain(*columns))))):
            with mock.patch('cli.dates.REMEMBERED', most):
                kind = reader(False)
                for cells in columns:
                    self.assertEqual(list(kind.column(cells)), [(moment(cell) - start) // micro for cell in cells])
                self.assertEqual(len(kind.known), known)
                self.assertEqual(kind.column([columns[0][0], ' '])[1], None)
                self.assertRaises(ValueError, kind.column, [columns[0][0], '2026-01-32'])

    def test_codes(self):
        """Codes are in text order, and the same for the same text."""
        kind = Text(['b'])
        numbers = list(kind.numbers(kind.column(list(TEXTS) + [' Lear ']))) + list(kind.numbers(kind.column(['A', 'Lear'])))
        codes = [kind.codes()[number] for number in numbers]
        texts = [*TEXTS, 'Lear', 'A', 'Lear']
        self.assertEqual([a < b for a in codes for b in codes], [a < b for a in texts for b in texts])
        self.assertEqual([a == b for a in codes for b in codes], [a == b for a in texts for b in texts])


class Tables:
    """Two tables with times or numbers as keys and texts or numbers as groups, at random, as the cells that a file has."""

    def __init__(self, r, sort):
        self.r, self.sort = r, sort
        self.kind = r.choice(('plain', 'zoned', 'number'))
        self.by = ['p', 'q'][:r.choice((0, 1, 1, 1, 2))]
        self.texts = [r.sample(TEXTS, 5) if r.random() < 0.7 else ['7', '07', '10', '-1', '+10'] for _ in self.by]
        self.strategy, self.tolerance = r.choice(STRATEGIES), r.choice((None, None, (0, 's'), (90, 's'), (2, 'h'), (1, 'd'), (3, 'm')))
        self.descending = [name for name in self.by if r.random() < 0.2]
        self.nulls_last = [name for name in self.by if r.random() < 0.2]
        self.files = [[self.row() for _ in range(r.randrange(r.choice((1, 6, 40))))] for _ in range(2)]
        self.read()

    def key(self):
        """A cell of the key: times of few days, in any form."""
        r = self.r
        if r.random() < 0.05:
            return r.choice(('', ' '))
        if self.kind == 'number':
            return str(r.randrange(-5, 20000))
        clock = r.choice(('', ' 19:30', 'T19:30', ' 19:30:00', 'T19:31:30', ' 19:30:00.000001', 'T21:30:00.5', 'T20:00:00.50'))
        if self.kind == 'zoned':
            clock = (clock or 'T00:00') + r.choice(('Z', '+00:00', '+01:00', '-01:30'))
        return f'2026-03-0{r.randrange(1, 4)}{clock}'

    def row(self):
        """The cells of a row."""
        return [*(self.r.choice((*texts, '', f' {texts[0]} ') if self.r.random() < 0.4 else texts) for texts in self.texts), self.key()]

    def read(self):
        """Reads the cells, sorts the files by what they say unless the command is to do it, and finds the matches."""
        columns = [by_values(*([row[place] for row in file] for file in self.files)) for place in range(len(self.by))]
        key = moment if self.kind != 'number' else lambda cell: int(cell) if cell.strip() else None
        rows = [[(*(column[side][row] for column in columns), key(file[row][-1])) for row in range(len(file))]
                for side, file in enumerate(self.files)]
        if not self.sort:
            flags = [[name in names for name in self.by] for names in (self.descending, self.nulls_last)]
            for side, file in enumerate(self.files):
                numbered = in_order([(*row, place) for place, row in enumerate(rows[side])], [*flags[0], False], [*flags[1], False])
                self.files[side] = [file[row[-1]] for row in numbered]
                rows[side] = [row[:-1] for row in numbered]
        limit = None
        if self.tolerance:
            limit = self.tolerance[0] * {'s': 1, 'm': 60, 'h': 3600, 'd': 86400}[self.tolerance[1]]
            limit = limit if self.kind == 'number' else datetime.timedelta(seconds=limit)
        self.matches = matches(*rows, self.strategy, True, limit)

    def text(self, file):
        """A file as CSV."""
        out = io.StringIO(newline='')
        csv.writer(out, lineterminator='\n').writerows([[*self.by, 't', 'n'], *([*row, number] for number, row in enumerate(file))])
        return out.getvalue()

    def words(self):
        """The options."""
        words = ['--on', 't', '--strategy', self.strategy, *(['--sort'] if self.sort else [])]
        if self.tolerance:
            count, unit = self.tolerance
            words += ['--tolerance', f'{count}{unit}' if self.kind != 'number' else count * {'s': 1, 'm': 60, 'h': 3600, 'd': 86400}[unit]]
        for option, names in (('--by', self.by), ('--descending', self.descending), ('--nulls-last', self.nulls_last)):
            words += [word for name in names for word in (option, name)]
        return words


class RandomTables(Case):
    """The whole command beside the judge."""

    def test_times_and_texts(self):
        """Sorted files, and files in any order with --sort: each sale comes in its place with the notice that the judge gives it."""
        met = set()
        for seed in range(TABLES):
            r = random.Random(seed)
            tables = Tables(r, sort=seed % 2 == 1)
            paths = [self.file(name, tables.text(file)) for name, file in zip(('s.csv', 'n.csv'), tables.files)]
            with self.subTest(seed=seed):
                run = within(['join', *paths, *tables.words()])
                self.assertEqual(run.status, 0, run.err)
                rows = list(csv.DictReader(io.StringIO(run.out, newline='')))
                self.assertEqual([row['notice_row'] for row in rows], ['' if each is None else str(each) for each in tables.matches])
                self.assertEqual([row['n'] for row in rows], list(map(str, range(len(rows)))))
                self.assertEqual([row['notice_n'] for row in rows], [row['notice_row'] for row in rows])
            met.add((tables.kind, tables.sort, len(tables.by), any(each is not None for each in tables.matches)))
        self.assertGreaterEqual(len(met), min(30, TABLES // 8))


class Columns(Case):
    """What columns hold, in whole commands."""

    def run_over(self, sales, notices, *words):
        """A run over two tables of p and t, and a column more in the notices."""
        paths = [self.file(name, ''.join(f'{row}\n' for row in rows))
                 for name, rows in (('s.csv', ['p,t', *sales]), ('n.csv', ['p,t,x', *notices]))]
        return within(['join', *paths, '--on', 't', '--by', 'p', *words])

    def priced(self, *tables):
        """The rows that come out, without the columns of the sale."""
        run = self.run_over(*tables)
        self.assertEqual(run.status, 0, run.err)
        return [line.split(',')[2:] for line in run.out.splitlines()[1:]]

    def test_times(self):
        """Times in several forms, by their place in time; a tolerance in each unit."""
        sales, notices = ['Lear,2026-01-05 19:30', 'Lear,2026-01-06'], ['Lear,2026-01-05T17:30:00,a', 'Lear,2026-01-05 19:29:59.999999,b']
        self.assertEqual(self.priced(sales, notices)[0], ['1', '2026-01-05 19:29:59.999999', 'b'])
        for words, found in (('1s', ['1', '']), ('0s', ['', '']), ('4h', ['1', '']), ('271m', ['1', '1']), ('1d', ['1', '1'])):
            self.assertEqual([row[0] for row in self.priced(sales, notices, '--tolerance', words)], found)
        self.assertEqual([row[0] for row in self.priced(['a,2026-01-05T19:30Z'], ['a,2026-01-05T20:29+01:00,x', 'a,2026-01-05T20:31+01:00,y'])],
                         ['0'])

    def test_mixes(self):
        """A key of another kind than the first one, in either file: one line, with file, line and column."""
        time, zoned = '2026-01-05 19:30', '2026-01-05 19:30Z'
        for first, other, said in (('5', time, f"'{time}' is not a whole number, as the column has them from"),
                                   (time, '5', "'5' is not a date or time without a zone, as the column has them from"),
                                   (time, zoned, f"'{zoned}' is not a date or time without a zone, as"),
                                   (zoned, time, f"'{time}' is not a time with a zone, as"), (time, 'soon', "'soon' is not a date or time"),
                                   ('', 'soon', "'soon' is not a whole number, nor a date or time")):
            self.refused(self.run_over([f'a,{first}', f'a,{other}'], []), f's.csv, line 3, column t: {said}')
            self.refused(self.run_over([f'a,{first}'], [f'a,{other},x']), f'n.csv, line 2, column t: {said}')

    def test_tolerances(self):
        """One that does not fit the key is refused as a word of the command line, before anything is written."""
        for words in ('2h', '2'):
            self.assertEqual(self.went_well(self.run_over([], [], '--tolerance', words))[:2], [0, 0])
            self.assertEqual(self.went_well(self.run_over(['1,'], [], '--tolerance', words, '--stream'))[:2], [0, 1])
        self.refused(self.run_over(['a,5'], [], '--tolerance', '2h'), '--tolerance 2h: does not go with t, which holds whole numbers', 2)
        self.refused(self.run_over(['a,2026-01-05'], [], '--tolerance', '2'), '--tolerance 2: does not go with t, which holds times', 2)
        self.refused(self.run_over(['a,2026-01-05'], [], '--tolerance', f'{2**62}d'), 'is beyond 64 bits of microseconds', 2)

    def test_text_or_numbers(self):
        """Numbers as long as all cells of both files are; a note where they are not, and why the order is another one then."""
        self.assertEqual(self.priced(['007,5', '10,5'], ['7,4,a', ' +10 ,4,b']), [['0', '4', 'a'], ['1', '4', 'b']])
        run = self.run_over(['07,5', '7,5'], ['07,4,a', '7,4,b', 'x,4,c'])
        self.assertEqual([line.split(',')[2] for line in run.out.splitlines()[1:]], ['0', '1'])
        self.assertIn(f"rowkeeper: p is compared as text, because of 'x' in {self.folder}/n.csv, line 4\n", run.err)
        run = self.run_over(['7,5', '10,5'], ['x,4,c'])
        self.assertEqual((run.status, run.out), (1, ''))
        self.assertIn(f"s.csv, line 3, column p: out of order: '10' comes after '7' of line 2 (as text, because of 'x' in {self.folder}/n.csv, "
                      'line 2); rows must be sorted by p, then t, or add --sort', run.err)
        self.refused(self.run_over(['Lear,5', 'Hamlet,5'], []), "column p: out of order: 'Hamlet' comes after 'Lear' of line 2; rows")
        self.refused(self.run_over(['Lear,5', ',5'], []), "column p: out of order: an empty cell comes after 'Lear' of line 2; rows")
        self.refused(self.run_over(['Lear,5'], [], '--stream'), "'Lear' is not a whole number, as --stream wants it of --by columns")

    def test_text_known_late(self):
        """A column that only its last cell makes text, far behind rows that are not sorted as numbers; a fault before it is told still."""
        numbers = sorted(map(str, range(9000)))
        run = self.run_over([f'{each},5' for each in numbers], [f'{each},4,x' for each in numbers + ['z']])
        self.assertEqual((run.status, run.out.count('\n')), (0, 9001), run.err)
        self.assertEqual([line.split(',')[2] for line in run.out.splitlines()[1:]], list(map(str, range(9000))))
        run = self.run_over([f'{each},5' for each in numbers], ['1,4'])
        self.assertEqual((run.status, run.err.count('\n')), (1, 1))
        self.assertIn('line 16, column p: out of order: 101 comes after 1009 of line 15; rows', run.err)

    def test_rank(self):
        """Bands by their names: stalls, then circle, then gods; any other is told, and so is another order."""
        rank = ('--rank', 'p=stalls,circle,gods')
        sales, notices = ['stalls,9', 'circle,9', ' gods ,9'], ['stalls,1,a', 'circle,1,b', 'gods,1,c']
        for words in ([], ['--stream'], ['--no-check']):
            self.assertEqual([row[2] for row in self.priced(sales, notices, *rank, *words)], ['a', 'b', 'c'])
        self.assertEqual([row[2] for row in self.priced([',9', *sales], notices, *rank, '--stream')], ['', 'a', 'b', 'c'])
        self.assertEqual([row[2] for row in self.priced(sales[::-1], notices[::-1], *rank, '--descending', 'p')], ['c', 'b', 'a'])
        self.assertEqual([row[2] for row in self.priced(sales[::-1], notices[1:] + notices[:1], *rank, '--sort')], ['c', 'b', 'a'])
        self.assertEqual(self.priced(['"a,b",9'], ['"a,b",1,x'], '--rank', 'p=z,"a,b"')[0][-1:], ['x'])
        self.refused(self.run_over(sales[::-1], notices, *rank), "line 3, column p: out of order: 'circle' comes after 'gods' of line 2; "
                     'rows must be sorted by p (in the order stalls circle gods), then t')
        for words in ([], ['--no-check'], ['--sort']):
            self.refused(self.run_over(sales, ['pit,1,a'], *rank, *words), "n.csv, line 2, column p: 'pit' is not among the codes of --rank")
            self.refused(self.run_over(['7,1'], ['pit,1,a'], '--rank', 'p=7,8', *words), "n.csv, line 2, column p: 'pit' is not among the codes")
