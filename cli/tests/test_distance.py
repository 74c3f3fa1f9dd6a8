"""--distance: how far each sale is from its notice, in whole commands, by a judge that reads the cells itself."""
import csv
import datetime
import io
import os
import random
import re
import unittest

from ..times import SECOND, UNITS, length, microseconds
from . import test_kinds, test_random
from .command import SEASON, Case, within
from .judge import distance

TABLES = int(os.environ.get('ROWKEEPER_TABLES', '1500')) // 5
WAYS = ([], ['--stream'], ['--sort'])


class Lengths(unittest.TestCase):
    """Lengths of time."""

    def test_said(self):
        """Days, hours, minutes and seconds, those without a count left out; what is written is read again."""
        for count, said in ((0, '0s'), (1, '0.000001s'), (SECOND, '1s'), (1500000, '1.5s'), (60 * SECOND, '1m'), (61 * SECOND, '1m1s'),
                            (3600 * SECOND, '1h'), (86400 * SECOND, '1d'), (UNITS['d'] + 1, '1d0.000001s'), (UNITS['d'] + UNITS['m'], '1d1m')):
            self.assertEqual((length(count), microseconds(said)), (said, count))
        r = random.Random(1)
        for _ in range(2000):
            count = r.randrange(r.choice((100, 10**7, 10**12, 4 * 10**17)))
            self.assertEqual(microseconds(length(count)), count)

    def test_read(self):
        """Other counts and blanks are read too; what is no length is not."""
        for text, count in (('36h', 36 * UNITS['h']), ('1d12h', 36 * UNITS['h']), ('90m', 90 * UNITS['m']), (' 2 h ', 2 * UNITS['h']),
                            ('1d 2h 3m 4.25s', UNITS['d'] + 2 * UNITS['h'] + 3 * UNITS['m'] + 4250000), ('0d', 0)):
            self.assertEqual(microseconds(text), count)
        for text in ('', ' ', '5', 'h', '1.5h', '2h1d', '1h1h', '1.s', '.5s', '1.0000001s', '-1s', '1 0s', '٣s', '1d5'):
            self.assertIsNone(microseconds(text), text)


class Commands(Case):
    """The column in whole commands."""

    def told(self, sales, notices, *words):
        """What comes out of two files, the same in every way of running."""
        paths = self.file('s.csv', sales), self.file('n.csv', notices)
        runs = [within(['join', *paths, *words, *way]) for way in WAYS]
        self.assertEqual({(run.status, run.out) for run in runs}, {(0, runs[0].out)}, runs[0].err)
        return runs[0].out

    def test_numbers(self):
        """The last column, empty without a notice; its name, with the prefix and when it is taken."""
        sales, notices = 'm\n5\n20\n25\n', 'm,price\n10,a\n20,b\n20,c\n30,d\n'
        head, rows = 'm,notice_row,notice_m,price', ('5,,,,', '20,2,20,c,0', '25,2,20,c,5')
        for words, name in (((), 'notice_age'), (('age',), 'age'), (('m',), 'notice_notice_m'), (('price',), 'notice_price')):
            out = self.told(sales, notices, '--on', 'm', '--distance', *words)
            self.assertEqual(out.splitlines(), [f'{head},{name}', *rows])
        out = self.told(sales, notices, '--on', 'm', '--distance', '--prefix', 'n_', '--columns', 'price', '--matched-only')
        self.assertEqual(out.splitlines(), ['m,n_row,price,n_age', '20,2,c,0', '25,2,c,5'])
        out = self.told(sales, notices, '--distance=a b', '--on', 'm', '--strategy', 'nearest', '--tolerance', '4')
        self.assertEqual(out.splitlines(), [f'{head},a b', '5,,,,', '20,2,20,c,0', '25,,,,'])

    def test_ends(self):
        """2^63 - 1 is written; what is further is an empty cell beside the notice."""
        out = self.told(f'm\n-1\n0\n{2**63 - 1}\n', f'm\n{-2**63}\n', '--on', 'm', '--distance')
        self.assertEqual([line.rsplit(',', 1)[1] for line in out.splitlines()[1:]], [str(2**63 - 1), '', ''])
        self.assertEqual([line.split(',')[1] for line in out.splitlines()[1:]], ['0', '0', '0'])

    def test_times_and_semicolons(self):
        """Times as lengths of time, texts as groups, columns that are separated otherwise, quotes in a notice's last cell."""
        sales = 'at;play\n2026-01-12 18:05;Lear\n2026-01-12 18:05:00.5;Lear\n'
        notices = 'from;play;why\n2026-01-01;Lear;"a;b"\n2026-01-12 18:05;Lear;"say ""no"""\n'
        words = ('--left-on', 'at', '--right-on', 'from', '--by', 'play', '--distance')
        paths = self.file('s.csv', sales), self.file('n.csv', notices)
        for way in ([], ['--sort']):
            run = within(['join', *paths, *words, *way, '--no-exact'])
            self.assertEqual(run.out.splitlines(), ['at;play;notice_row;from;why;notice_age', '2026-01-12 18:05;Lear;0;2026-01-01;"a;b";11d18h5m',
                                                    '2026-01-12 18:05:00.5;Lear;1;2026-01-12 18:05;"say ""no""";0.5s'])

    def test_distance_as_tolerance(self):
        """What is written can be said as a tolerance: with it the sale keeps its notice, with a little less it does not."""
        sales, notices = 'at\n2026-01-12 18:05:07.25\n', 'at\n2026-01-01\n'
        far = self.told(sales, notices, '--on', 'at', '--distance').splitlines()[1].rsplit(',', 1)[1]
        self.assertEqual(far, '11d18h5m7.25s')
        for tolerance, found in ((far, '0'), ('11d18h5m7.249999s', ''), ('282h5m8s', '0')):
            out = self.told(sales, notices, '--on', 'at', '--tolerance', tolerance)
            self.assertEqual(out.splitlines()[1].split(',')[1], found)

    def test_season(self):
        """README's second command with the column gives the file beside the season: all else as without, and every age that of
        Python's own times."""
        words = [os.path.join(SEASON, name) for name in ('till.csv', 'prices.csv')]
        words += '--left-on sold_at --right-on valid_from --by performance --sort --tolerance 30d'.split()
        plain, aged = within(['join', *words]), within(['join', *words, '--distance'])
        self.assertEqual(aged.out, self.read(os.path.join(SEASON, 'till_aged.csv')))
        self.assertEqual([line.rsplit(';', 1)[0] for line in aged.out.splitlines()], plain.out.splitlines())
        for row in csv.DictReader(io.StringIO(aged.out), delimiter=';'):
            if row['notice_row']:
                sold, valid = (test_kinds.moment(row[name]) for name in ('sold_at', 'valid_from'))
                self.assertEqual(microseconds(row['notice_age']), (sold - valid) // datetime.timedelta(microseconds=1))
            else:
                self.assertEqual(row['notice_age'], '')

    def test_explain(self):
        """--explain names the column; the output of a turn has two words more for each row."""
        paths = [os.path.join(SEASON, name) for name in ('sales.csv', 'notices.csv')]
        run = within(['join', *paths, '--on', 'minute', '--by', 'performance', '--distance', 'minute', '--explain'])
        self.assertIn('strategy    backward, equal keys match, tolerance none, distance in notice_notice_minute\n', run.err)
        self.assertIn('output      16,386 words\n', run.err)

    def test_words(self):
        """A name that is none, and one said twice; neither a picture nor another command takes it."""
        join = ['join', 'none.csv', 'none.csv', '--on', 'm']
        for words, said in (([*join, '--distance', '--distance'], '--distance: is said twice'), ([*join, '--distance', 'a', '--distance'], 'is said twice'),
                            ([*join, '--distance='], '--distance: must be a text that can be printed'), ([*join, '--distance', 'a\nb'], '--distance'),
                            (['picture', 'none.csv', 'none.csv', '--on', 'm', '--price', 'p', '--distance'], '--distance'),
                            (['merge', 'none.csv', 'none.csv', '--on', 'm', '--distance'], '--distance')):
            self.refused(within(words), said, 2)


class RandomTables(Case):
    """The column beside the judge's matches."""

    def test_numbers(self):
        """Numbers, both ends of the 64-bit range among them, in each way of running."""
        told = above = 0
        for seed in range(TABLES):
            r = random.Random(seed)
            tables = test_random.Tables(r)
            paths = [self.file(name, tables.text(rows, r)) for name, rows in (('s.csv', tables.sales), ('n.csv', tables.notices))]
            with self.subTest(seed=seed):
                run = within(['join', *paths, *tables.words(), '--distance', *WAYS[seed % 3]])
                self.went_well(run)
                tables.judge(self, run.out)
                far = [None if number is None else distance(sale[-1], tables.notices[number][-1])
                       for sale, number in zip(tables.sales, tables.matches)]
                due = ['' if each is None or each >= 2**63 else str(each) for each in far]
                self.assertEqual([row['notice_age'] for row in csv.DictReader(io.StringIO(run.out, newline=''))], due)
                told, above = told + len(due) - due.count(''), above + sum(each is not None and each >= 2**63 for each in far)
        self.assertGreater(told, TABLES)
        self.assertGreater(above, TABLES // 40)

    def test_times_and_texts(self):
        """Times in all forms, with zones or without, and numbers; texts as groups; sorted files and others."""
        for seed in range(TABLES // 2):
            tables = test_kinds.Tables(random.Random(seed), sort=seed % 2 == 1)
            paths = [self.file(name, tables.text(file)) for name, file in zip(('s.csv', 'n.csv'), tables.files)]
            key = int if tables.kind == 'number' else test_kinds.moment
            with self.subTest(seed=seed):
                run = within(['join', *paths, *tables.words(), '--distance'])
                self.assertEqual(run.status, 0, run.err)
                for row, match in zip(csv.DictReader(io.StringIO(run.out, newline='')), tables.matches):
                    if match is None:
                        self.assertEqual(row['notice_age'], '')
                        continue
                    far = distance(key(row['t']), key(tables.files[1][match][-1]))
                    self.assertEqual(row['notice_age'] if tables.kind == 'number' else microseconds(row['notice_age']),
                                     str(far) if tables.kind == 'number' else far // datetime.timedelta(microseconds=1))
                    self.assertTrue(tables.kind == 'number' or re.fullmatch('[0-9.dhms]+', row['notice_age']))
