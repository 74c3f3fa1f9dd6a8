"""takings: random sales and notices against a dictionary of sums, subtotals added in random orders, files of every form, bad input."""
import csv
import io
import os
import random
import subprocess
import sys
import unittest
from decimal import Decimal

from .command import PROGRAM, SEASON, Case, apart, plain, within
from .judge import in_order, matches
from .test_random import TABLES, Tables

SALES, NOTICES, TILL, PRICES = (os.path.join(SEASON, f'{name}.csv') for name in ('sales', 'notices', 'till', 'prices'))
ON = ('--on', 'm', '--amount', 'price')


def text(names, rows):
    """A file of these rows; None is an empty cell."""
    out = io.StringIO(newline='')
    csv.writer(out, lineterminator='\n').writerows([names, *(['' if cell is None else cell for cell in row] for row in rows)])
    return out.getvalue()


def said(numbers, unpriced, added=None):
    """The line at the end, for sales that begin in line 2 and have a line each, by the numbers of their notices."""
    none = [row for row, number in enumerate(numbers) if number is None]
    have, many = len(numbers) - len(none), lambda count: 'has' if count == 1 else 'have'
    line = f'rowkeeper: {have} of {len(numbers)} sale{"s" * (len(numbers) != 1)} {many(1 if 1 in (have, len(numbers)) else 0)} a notice'
    if none:
        line += f'; {len(none)} {many(len(none))} none, {"it is" if len(none) == 1 else "the first"} in line {none[0] + 2}'
    line += f'; {unpriced} of those with a notice {many(unpriced)} no amount'
    return line + ('' if added is None else f'; with what was added {added} {many(added)} none') + '\n'


def sums(sales, numbers, amounts):
    """The totals and counts by group, and the sales without an amount: by a dictionary."""
    found, unpriced = {}, 0
    for sale, number in zip(sales, numbers):
        if number is not None and amounts[number] is None:
            unpriced += 1
        elif number is not None:
            total, count = found.get(sale[:-1], (0, 0))
            found[sale[:-1]] = total + amounts[number], count + 1
    return found, unpriced


class RandomTakings(Case):
    """The command over random files."""

    def test_dictionary(self):
        """All options, sorted and in any order: each group's total and count, the last line, and the line at the end."""
        groups = without = 0
        for seed in range(TABLES // 5):
            r = random.Random(seed)
            tables, sort = Tables(r), r.random() < 0.5
            notices = [(*row, r.choice((None, 0, -5, 1800, 10**9, -10**9, r.randrange(5000)))) for row in tables.notices]
            if sort:
                r.shuffle(tables.sales)
                r.shuffle(notices)
            paths = self.file('s.csv', text([*tables.by, 'm', 'seat'], [(*row, 'A') for row in tables.sales])), self.file('n.csv', text([*tables.by, 'm', 'price'], notices))
            words = [word for word in tables.words() if word not in ('--check', '--no-check')]
            flags = [[name in names for name in tables.by] for names in (tables.descending, tables.nulls_last)]
            lists = [tables.rank[1] if tables.rank and name == tables.rank[0] else None for name in tables.by]
            ordered = in_order(notices, *flags, lists)
            numbers = matches(tables.sales, [row[:-1] for row in ordered], tables.strategy, tables.exact, tables.tolerance)
            found, unpriced = sums(tables.sales, numbers, [row[-1] for row in ordered])
            rows = [(*group[:-1], *found[group[:-1]]) for group in in_order([(*group, 0) for group in found], *flags, lists)]
            with self.subTest(seed=seed):
                run = within(['takings', *paths, *words, '--amount', 'price', *['--sort'] * sort])
                wanted = text([*tables.by, 'total', 'sales'], [*rows, (*[None] * len(tables.by), None, unpriced)])
                self.assertEqual((run.status, run.out, plain(run.err)), (0, wanted, said(numbers, unpriced)))
            groups, without = groups + len(rows), without + unpriced
        self.assertGreater(groups, TABLES // 15)
        self.assertGreater(without, TABLES // 60)

    def test_orders(self):
        """Sales cut in parts, each added by itself, one after another in any order, or all at once: one and the same file, which is that of
        a plain sum. Groups of text or of numbers, times, decimals."""
        for seed in range(TABLES // 50):
            r = random.Random(seed)
            groups = r.choice((('Lear', 'Hamlet, again', 'Was "ihr" wollt', '007'), ('7', '12', '-3')))
            times = [f'2026-01-{day:02}{clock}' for day in range(1, 9) for clock in ('', ' 19:30')]
            notices = [(group, r.choice(times), r.choice(('', '18', '18,5', '18.50', '-3.25', '0,05'))) for group in groups for _ in range(5)]
            sales = [(r.choice((*groups, '')), r.choice((*times, ''))) for _ in range(r.randrange(60))]
            path, on = self.file('n.csv', text(('p', 'm', 'price'), notices)), ['--by', 'p', *ON, '--decimals', '2', '--sort']
            cuts = sorted(r.randrange(len(sales) + 1) for _ in range(r.randrange(1, 4)))
            parts = [self.file(f's{place}.csv', text(('p', 'm'), sales[first:end]))
                     for place, (first, end) in enumerate(zip([0, *cuts], [*cuts, len(sales)]))]
            with self.subTest(seed=seed):
                whole = self.took([self.file('s.csv', text(('p', 'm'), sales)), path, *on])
                self.assertEqual(self.read(whole), self.plainly(sales, notices, groups[-1] == '-3'))
                for order in (parts, parts[::-1], r.sample(parts, len(parts))):
                    so_far = []
                    for each in order:
                        so_far = ['--add', self.took([each, path, *on, *so_far])]
                    self.assertEqual(self.read(so_far[1]), self.read(whole))
                alone = [word for each in r.sample(parts, len(parts)) for word in ('--add', self.took([each, path, *on]))]
                self.assertEqual(self.read(self.took([self.file('none.csv', 'p,m\n'), path, *on, *alone])), self.read(whole))

    def took(self, words):
        """The file that a run writes."""
        self.files = getattr(self, 'files', 0) + 1
        path = os.path.join(self.folder, f'taken{self.files}.csv')
        run = within(['takings', *words, '-o', path])
        self.assertEqual((run.status, run.out), (0, ''), run.err)
        return path

    def plainly(self, sales, notices, whole):
        """The file by a loop over all notices for each sale."""
        found, unpriced = {}, 0
        value = lambda group: int(group) if whole else group
        for group, time in sales:
            fits = [each for each in notices if each[0] == group and time and each[1].ljust(16, ' ') <= time.ljust(16, ' ')]
            if fits:
                last = max(each[1] for each in fits)
                amount = [each[2] for each in fits if each[1] == last][-1].replace(',', '.')
                unpriced += not amount
                if amount:
                    total, count = found.get(group, (Decimal(0), 0))
                    found[group] = total + Decimal(amount), count + 1
        rows = [(group, f'{found[group][0]:.2f}', found[group][1]) for group in sorted(found, key=value)]
        return text(('p', 'total', 'sales'), [*rows, ('', '', unpriced)])

    def test_long_files(self):
        """More sales and notices than frames have, and many groups, sorted and in any order."""
        sales = [(row % 5000, row) for row in range(11000)]
        notices = [(group, 0, group * 3 if group % 7 else None) for group in range(0, 5000, 2)]
        found, unpriced = sums(sales, [None if group % 2 else group // 2 for group, _ in sales], [row[-1] for row in notices])
        wanted = text(('p', 'total', 'sales'), [*((*group, *found[group]) for group in sorted(found)), ('', '', unpriced)])
        for sort in (False, True):
            path = self.file('s.csv', text(('p', 'm'), sales if sort else sorted(sales)))
            run = within(['takings', path, self.file('n.csv', text(('p', 'm', 'price'), notices)), '--by', 'p', *ON, *['--sort'] * sort])
            self.assertEqual((run.status, run.out), (0, wanted), run.err)


class Files(Case):
    """Files of every form."""

    def test_added_twice(self):
        """A file that --add names twice, by whichever name, is refused."""
        path, day = self.file('s.csv', 'p,m\n'), self.file('day.csv', 'p,total,sales\n1,5,1\n,,0\n')
        self.refused(within(['takings', path, path, '--on', 'm', '--by', 'p', '--amount', 'm', '--add', day, '--add',
                             os.path.join(self.folder, '.', 'day.csv')]), 'is named twice, and would be added twice', 2)

    def test_season(self):
        """The season's takings are those of examples/season, also by a pipe, sorted first, and as two halves."""
        words, wanted = ['--on', 'minute', '--by', 'performance', '--amount', 'price'], self.read(os.path.join(SEASON, 'takings.csv'))
        counted = ('rowkeeper: 27 of 30 sales have a notice; 3 have none, the first in line 2; '
                   '0 of those with a notice have no amount\n')
        for more in ([], ['--sort']):
            run = apart(['takings', SALES, NOTICES, *words, *more])
            self.assertEqual((run.status, run.out, plain(run.err)), (0, wanted, counted))
        with open(SALES, 'rb') as file:
            piped = subprocess.run([sys.executable, PROGRAM, 'takings', '-', NOTICES, *words], stdin=file, capture_output=True, check=True)
        self.assertEqual(piped.stdout.decode('utf-8'), wanted)
        header, *lines = self.read(SALES).splitlines(True)
        halves = [self.file(name, header + ''.join(half)) for name, half in (('a.csv', lines[:14]), ('b.csv', lines[14:]))]
        first = self.file('first.csv', apart(['takings', halves[0], NOTICES, *words]).out)
        self.assertEqual(within(['takings', halves[1], NOTICES, *words, '--add', first]).out, wanted)
        with open(first, 'rb') as file:
            piped = subprocess.run([sys.executable, PROGRAM, 'takings', halves[1], NOTICES, *words, '--add', '-'], stdin=file,
                                   capture_output=True, check=True)
        self.assertEqual(piped.stdout.decode('utf-8'), wanted)

    def test_till(self):
        """A till's files: times, text, semicolons, and amounts with a comma."""
        run = within(['takings', TILL, PRICES, '--left-on', 'sold_at', '--right-on', 'valid_from', '--by', 'performance', '--sort',
                      '--tolerance', '30d', '--amount', 'price', '--decimals', '2'])
        self.assertEqual((run.status, run.out), (0, self.read(os.path.join(SEASON, 'till_takings.csv'))), run.err)
        self.assertTrue(run.err.endswith('2 have none, the first in line 7; 1 group has no notice at all: performance Macbeth; 0 of those with a notice have no amount\n'), run.err)

    def test_names_and_signs(self):
        """By-columns that are called as the output's own, text that needs quotes, tabs, an encoding; what comes out can be added."""
        sales = self.file('s.csv', 'total\tsales\tm\n"a ""b"""\té\t5\n'.encode('utf-16'))
        notices = self.file('n.csv', '\ufefftotal\tsales\tm\tprice\n"a ""b"""\té\t5\t7\n')
        words, wanted = ['--by', 'total', '--by', 'sales', *ON], '\ufefftotal\tsales\ttakings_total\ttakings_sales\n"a ""b"""\té\t{}\t{}\n\t\t\t0\n'
        run = within(['takings', sales, notices, *words])
        self.assertEqual((run.status, run.out), (0, wanted.format(7, 1)), run.err)
        run = within(['takings', sales, notices, *words, '--add', self.file('t.csv', run.out)])
        self.assertEqual((run.status, run.out), (0, wanted.format(14, 2)), run.err)

    def test_any_order_of_added(self):
        """Takings are added whatever order their groups have, and by columns in any order; text in one file makes a column text."""
        sales, notices = self.file('s.csv', 'p,m\n1,5\n10,5\n9,5\n'), self.file('n.csv', 'p,m,price\n1,5,7\n10,5,\n9,5,8\n')
        added = self.file('t.csv', 'sales;p;total\n2;x;20\n1;9;-5\n4;;\n')
        run = within(['takings', sales, notices, '--by', 'p', *ON, '--sort', '--add', added])
        self.assertEqual((run.status, run.out), (0, 'p,total,sales\n1,7,1\n9,3,2\nx,20,2\n,,5\n'), run.err)
        self.assertTrue(run.err.endswith('rowkeeper: 3 of 3 sales have a notice; 1 of those with a notice has no amount; '
                                         'with what was added 5 have none\n'), run.err)
        added = self.file('t.csv', 'p,total,sales\n1,1,1\n9,1,1\n,,0\n')
        run = within(['takings', sales, notices, '--by', 'p', *ON, '--sort', '--rank', 'p=9,10,1', '--add', added])
        self.assertEqual((run.status, run.out), (0, 'p,total,sales\n9,9,2\n1,8,2\n,,1\n'), run.err)

    def test_no_rows(self):
        """No sales, no notices, no groups."""
        none, one = self.file('s0.csv', 'm\n'), self.file('s1.csv', 'm\n5\n')
        empty, notice = self.file('n0.csv', 'm,price\n'), self.file('n1.csv', 'm,price\n5,8\n')
        for paths, wanted in (((none, empty), ''), ((none, notice), ''), ((one, empty), ''), ((one, notice), '8,1\n')):
            for more in ([], ['--sort']):
                run = within(['takings', *paths, *ON, *more])
                self.assertEqual((run.status, run.out), (0, f'total,sales\n{wanted},0\n'), run.err)
        added = self.file('t.csv', 'total;sales\n-1;2\n;3\n'), self.file('u.csv', 'total,sales\n,0\n')
        run = within(['takings', one, notice, *ON, '--add', added[0], '--add', added[1]])
        self.assertEqual((run.status, run.out), (0, 'total,sales\n7,3\n,3\n'), run.err)


class Faults(Case):
    """What is wrong is told in one line, and nothing is written."""

    def refuses(self, words, said_of):
        """The run writes nothing."""
        out = os.path.join(self.folder, 'out.csv')
        with self.subTest(said_of):
            self.refused(within(['takings', *words, '-o', out]), said_of)
            self.assertFalse(os.path.exists(out))

    def test_amounts(self):
        """Amounts that are none or too large, also of a notice that no sale takes."""
        sales, none = self.file('s.csv', 'p,m\n1,5\n'), self.file('none.csv', 'p,m\n')
        for places, cell, said_of in ((0, '18.50', "'18.50' is not a whole number; for amounts as 18.50 say --decimals 2"),
                                      (0, 'free', "'free' is not a whole number"), (0, '1000000001', "is beyond 1000000000, the largest amount"),
                                      (2, '1.005', "'1.005' is not an amount with at most 2 places behind the point, as --decimals 2 has it"),
                                      (2, '-10000000.01', 'is beyond 10000000.00, the largest amount'), (1, '1.', 'at most 1 place behind'),
                                      (0, '9' * 50, 'is not a whole number'), (2, '1e3', 'is not an amount')):
            path = self.file('n.csv', f'p,m,price\n1,5,7\n2,5,8\n9,9,{cell}\n')
            for more in ([], ['--sort']):
                self.refuses([sales, path, '--by', 'p', *ON, '--decimals', places, *more], f'{path}, line 4, column price: ')
                self.refuses([none, path, '--by', 'p', *ON, '--decimals', places, *more], said_of)

    def test_amounts_come_last(self):
        """Of a wrong amount and a fault in what is compared, or in a file that is added, the other one is told; and the amount where a
        by-column turns out to be text, so that the files are read twice, or is the amount itself."""
        sales, wrong = self.file('s.csv', 'p,m\n1,5\n'), 'p,m,price\n1,5,x\n'
        added = self.file('t.csv', 'p,total,sales\n1,5,1\n')
        for more, words, said_of in (('2,1,1\n1,6,1\n', [], 'line 4, column p: out of order'), ('2,1\n', [], 'line 3: columns: 2, but'),
                                     ('2,y,1\n', [], "line 3, column m: 'y' is not a whole number"),
                                     ('', ['--add', added], f'{added}: the last line of takings is missing'),
                                     ('z,1,1\nz,2,w\n', [], "n.csv, line 2, column price: 'x' is not a whole number"),
                                     ('z,1,1\nz,2,w\n', ['--sort'], "n.csv, line 2, column price: 'x' is not a whole number")):
            path = self.file('n.csv', wrong + more)
            self.refuses([sales, path, '--by', 'p', *ON, *words], said_of)
        run = within(['takings', sales, sales, '--by', 'p', '--on', 'm', '--amount', 'm'])
        self.assertEqual((run.status, run.out), (0, 'p,total,sales\n1,5,1\n,,0\n'))

    def test_added(self):
        """Files that are no takings."""
        sales, notices = self.file('s.csv', 'p,m\n1,5\n'), self.file('n.csv', 'p,m,price\n1,5,7\n')
        path = os.path.join(self.folder, 't.csv')
        for lines, said_of in (('1,5,1\n', f'{path}: the last line of takings is missing'), (',,0\n1,5,1\n', f'{path}, line 3: there is a line behind'),
                               ('1,5,1\n01,5,1\n,,0\n', f'{path}, line 3: this group has a line already'),
                               (',5,1\n,,0\n', f'{path}, line 2, column p: there is an empty cell'),
                               ('1,,1\n,,0\n', f"{path}, line 2, column total: '' is not a total"),
                               ('1,5.00,1\n,,0\n', f"{path}, line 2, column total: '5.00' is not a whole number"),
                               ('1,5,0\n,,0\n', f"{path}, line 2, column sales: '0' is not a number of sales from 1 to 2,147,483,648"),
                               ('1,5,1\n,,-1\n', f"{path}, line 3, column sales: '-1' is not a number of sales from 0 to"),
                               ('1,5,x\n,,0\n', f"{path}, line 2, column sales: 'x' is not a whole number"),
                               ('1,1000000001,1\n,,0\n', f'{path}, line 2, column total: 1000000001 is more than 1 sale can have together'),
                               ('1,5,2147483648\n,,0\n', 'the takings together have more than 2^31 sales'),
                               ('1,5\n,,0\n', f'{path}, line 2: columns: 2, but the header names 3')):
            self.file('t.csv', 'p,total,sales\n' + lines)
            self.refuses([sales, notices, '--by', 'p', *ON, '--add', path], said_of)
        self.refuses([sales, notices, '--by', 'p', *ON, '--add', sales], f'{sales}, line 1, column total: there is no such column')
        self.file('t.csv', 'p,total,sales\n1,5,1\n,,0\n')
        self.refuses([sales, notices, '--by', 'p', *ON, '--decimals', '2', '--add', path], "'5' is not a total with 2 places behind the point")
        self.refused(within(['takings', sales, notices, '--by', 'p', *ON, '--add', path, '-o', path]), 'is one of the files to be read')

    def test_files(self):
        """Disorder, and columns that are missing."""
        good, falls = self.file('s.csv', 'p,m\n1,5\n'), self.file('n.csv', 'p,m,price\n2,5,7\n1,5,7\n')
        self.refuses([good, falls, '--by', 'p', *ON], f'{falls}, line 3, column p: out of order: 1 comes after 2 of line 2')
        self.refuses([good, falls, '--by', 'p', '--on', 'm', '--amount', 'cost'], f'{falls}, line 1, column cost: there is no such column')

    def test_words(self):
        """Options that the command does not have or that are missing."""
        for words, said_of in ((['a', 'b', '--on', 'm'], 'required: --amount'), (['a', 'b', '--amount', 'x'], '--on: say which column'),
                               (['a', 'b', *ON, '--decimals', '7'], 'from 0 to 6'), (['a', 'b', *ON, '--amount', 'y'], 'is said twice'),
                               (['a', 'b', *ON, '--no-check'], '--no-check'), (['a', 'b', *ON, '--stream'], '--stream'),
                               (['-', 'b', *ON, '--add', '-'], 'standard input can be one of the files'),
                               (['a', 'b', *ON, '--strategy', 'nearest', '--no-exact'], 'does not go with')):
            with self.subTest(said_of):
                self.refused(within(['takings', *words]), said_of, 2)


if __name__ == '__main__':
    unittest.main()
