"""Dates and times as tills write them: the cases of the data file, random files against a plain rule, whole commands."""
import csv
import datetime
import io
import json
import os
import random
import sys
import unittest
from unittest import mock

from ..dates import Dates, Zone
from ..input import Input
from ..judged import Judged, judge
from ..kinds import Kinds
from ..order import Order
from ..problem import Problem
from ..progress import Progress
from ..source import Source
from .command import Case, within
from .judge import matches

CASES = os.path.join(os.path.dirname(os.path.abspath(__file__)), 'cases', 'dates.txt')
PAIRS = int(os.environ.get('ROWKEEPER_DATE_PAIRS', '500'))
EPOCH, MICRO = datetime.datetime(1970, 1, 1), datetime.timedelta(microseconds=1)
ZONES = sys.version_info >= (3, 9)


def iso(value, zoned):
    """Microseconds as the cases write a time."""
    return None if value is None else (EPOCH + value * MICRO).isoformat() + 'Z' * zoned


class Cases(Case):
    """The data file, a line a case."""

    def read_column(self, cells, dates):
        """The values of a column, whether they have a zone, and the notes."""
        path = self.file('t.csv', 't,x\n' + ''.join(f'"{cell}",1\n' for cell in cells))
        kinds = Kinds(Order([], 't'))
        source = Source(Input(path), ['t'], kinds, True, None, (), dates)
        self.addCleanup(source.input.close)
        source.check = False
        source.restart()
        for each in source.repeated or ():
            each.by_group = True
        table = Judged(source)
        self.addCleanup(table.close)
        judge([table], kinds, Progress(io.StringIO()))
        values = [None if marks and not marks[row] else value for _, ((found, marks),) in table.pairs() for row, value in enumerate(found)]
        return values, kinds.key.zoned, kinds.notes

    def test_all(self):
        """Each column gives its values or is refused in words that say why."""
        with open(CASES, encoding='utf-8') as file:
            cases = [json.loads(line) for line in file if line.strip() and not line.startswith('#')]
        self.assertGreater(len(cases), 45)
        for case in cases:
            if 'zone' in case and not ZONES:
                continue
            with self.subTest(**case):
                dates = Dates(case.get('dates'), Zone(case['zone']) if 'zone' in case else None)
                if 'refused' in case:
                    with self.assertRaises(Problem) as caught:
                        self.read_column(case['cells'], dates)
                    self.assertIn(case['refused'], str(caught.exception))
                else:
                    values, zoned, notes = self.read_column(case['cells'], dates)
                    self.assertEqual([iso(value, zoned) for value in values], case['gives'])
                    self.assertIn(case.get('note', ''), '\n'.join(notes))


# The forms in which a random file writes its times: the date, the clock, and the words that the command needs.
DATE_FORMS = (('%d.%m.%Y', []), ('%Y/%m/%d', []), ('%Y-%m-%d', []), ('%d/%m/%Y', ['--dates', 'dmy']), ('%m/%d/%Y', ['--dates', 'mdy']),
              ('%d-%m-%Y', ['--dates', 'dmy']), ('excel', ['--dates', 'excel']))
CLOCK_FORMS = ('%H:%M', '%I:%M %p', '%H:%M:%S', '%H:%M:%S.%f', '%H:%M:%S,%f')


class Pair:
    """Two random tables, each in a form of its own, and their matches by a plain rule over datetimes."""

    def __init__(self, r):
        self.r, self.sort = r, r.random() < 0.5
        self.forms = [r.choice(DATE_FORMS), None]
        # Of two files that need --dates both need the same word.
        self.forms[1] = r.choice([form for form in DATE_FORMS if not form[1] or not self.forms[0][1] or form[1] == self.forms[0][1]])
        self.clocks, self.zone = [r.choice(CLOCK_FORMS) for _ in self.forms], r.choice(('', '', '+01:00', '+0100', 'Z'))
        if 'excel' in (self.forms[0][0], self.forms[1][0]):
            self.zone = ''
        self.apart = [form[0] != 'excel' and r.random() < 0.3 for form in self.forms]
        self.rows = [sorted(self.row() for _ in range(r.randrange(1, 25))) for _ in self.forms]
        if self.sort:
            list(map(r.shuffle, self.rows))
        self.matches = matches(*self.rows)

    def row(self):
        """A group and a time."""
        return self.r.choice('ab'), datetime.datetime(2026, 1, 1) + datetime.timedelta(minutes=self.r.randrange(200) * 613)

    def cells(self, side, time):
        """A time as this side writes it, in one cell or two."""
        form, clock = self.forms[side][0], self.clocks[side]
        if form == 'excel':
            days = time - datetime.datetime(1899, 12, 30)
            return [f'{days.days}.{round(days.seconds * 10**10 / 86400):010}']
        date = time.strftime(form)
        if self.r.random() < 0.3:
            date = self.short(date)
        clock = time.strftime(clock) + self.zone
        return [date, clock] if self.apart[side] else [f'{date} {clock}']

    @staticmethod
    def short(date):
        """A date without the zeros before its numbers."""
        sign = next(each for each in './-' if each in date)
        return sign.join(part.lstrip('0') for part in date.split(sign))

    def text(self, side):
        """A side as CSV."""
        out = io.StringIO(newline='')
        names = ['p', 'd', 't', 'n'] if self.apart[side] else ['p', 'd', 'n']
        csv.writer(out, lineterminator='\n').writerows([names, *([group, *self.cells(side, time), number]
                                                                 for number, (group, time) in enumerate(self.rows[side]))])
        return out.getvalue()

    def words(self):
        """The options."""
        keys = ['d+t' if apart else 'd' for apart in self.apart]
        return ['--left-on', keys[0], '--right-on', keys[1], '--by', 'p', *['--sort'] * self.sort, *(self.forms[0][1] or self.forms[1][1])]


class RandomPairs(Case):
    """Random file pairs in the forms of tills."""

    def test_against_plain_rule(self):
        """Each sale has the notice that a rule over datetimes gives it."""
        met = set()
        for seed in range(PAIRS):
            pair = Pair(random.Random(seed))
            paths = [self.file(name, pair.text(side)) for side, name in enumerate(('s.csv', 'n.csv'))]
            with self.subTest(seed=seed):
                run = within(['join', *paths, *pair.words()])
                self.assertEqual(run.status, 0, run.err)
                rows = list(csv.DictReader(io.StringIO(run.out, newline='')))
                self.assertEqual([row['notice_n'] for row in rows], ['' if each is None else str(each) for each in pair.matches])
            met.update((form[0], apart) for form, apart in zip(pair.forms, pair.apart))
        self.assertEqual(len(met), 13 if PAIRS >= 500 else len(met))


class Commands(Case):
    """Whole commands."""

    def join(self, sales, notices, *words):
        """A run over two texts."""
        return within(['join', self.file('s.csv', sales), self.file('n.csv', notices), '--on', 't', *words])

    def test_two_columns(self):
        """A date and a time of day in two columns; where one is empty the time is not known. A column of the whole name comes first."""
        run = self.join('d,c,n\n05.01.2026,19:30,1\n05.01.2026,,2\n,19:40,3\n', 't,x\n2026-01-05 19:30,y\n', '--sort')
        self.refused(run, 'column t: there is no such column')
        words = ('--left-on', 'd+c', '--right-on', 't', '--sort')
        sales, notices = self.file('s.csv', 'd,c,n\n05.01.2026,19:30,1\n05.01.2026,,2\n,19:40,3\n'), self.file('n.csv', 't,x\n2026-01-05 19:30,y\n')
        run = within(['join', sales, notices, *words])
        self.assertEqual(run.out.splitlines()[1:], ['05.01.2026,19:30,1,0,2026-01-05 19:30,y', '05.01.2026,,2,,,', ',19:40,3,,,'])
        self.file('s.csv', 'd+c,c,d\n5,19:30,1\n')
        self.file('n.csv', 't\n4\n')
        run = within(['join', sales, notices, *words])
        self.assertEqual(run.out.splitlines()[1:], ['5,19:30,1,0,4'])

    def test_stream(self):
        """Read once, a column is settled by the first rows or by --dates."""
        notices = 't,x\n2026-01-01,y\n'
        self.refused(self.join('t,n\n1/5/2026,1\n', notices, '--stream'), 'add --dates dmy')
        run = self.join('t,n\n1/5/2026,1\n1/13/2026,2\n', notices, '--stream')
        self.assertEqual((run.status, run.out.count('\n')), (0, 3), run.err)

    def test_kinds_between_files(self):
        """Dates beside numbers, zoned times beside local ones: refused with the form that the other has, and what would mend it."""
        self.refused(self.join('t\n05.01.2026\n', 't\n5\n'), "n.csv, line 2, column t: '5' is not a date or time without a zone, as the column has "
                     f'them from {self.folder}/s.csv, line 2 on: 05.01.2026 19:30')
        self.refused(self.join('t\n2026-01-05 19:30Z\n', 't\n2026-01-05 19:30\n'), '--zone Europe/Berlin')
        if ZONES:
            run = self.join('t\n2026-01-05 19:30Z\n', 't\n2026-01-05 20:30\n', '--zone', 'Europe/Berlin')
            self.assertEqual(run.out.splitlines()[1:], ['2026-01-05 19:30Z,0,2026-01-05 20:30'])

    @unittest.skipUnless(ZONES, 'needs zoneinfo')
    def test_repeated_hour(self):
        """By the order of a group, or of a till's whole file with --sort; not where rows are in any order."""
        rows = ['a,2026-10-25 02:40', 'a,2026-10-25 02:20', 'b,2026-10-25 02:50', 'b,2026-10-25 02:10']
        zone, notices = ('--by', 'p', '--zone', 'Europe/Berlin'), 'p,t,x\na,2026-10-25 02:30+01:00,late\nb,2026-10-25 02:00+01:00,late\n'
        late = lambda run: [line.rsplit(',', 1)[1] for line in run.out.splitlines()[1:]]
        run = self.join('p,t\n' + ''.join(f'{row}\n' for row in rows), notices, *zone)
        self.assertEqual(late(run), ['', '', '', 'late'], run.err)
        till = [rows[0], rows[2], rows[3], rows[1]]
        run = self.join('p,t\n' + ''.join(f'{row}\n' for row in till), notices, *zone, '--sort')
        self.assertEqual(late(run), ['', '', 'late', ''], run.err)
        mixed = [*till, 'a,2026-10-24 19:30']
        self.refused(self.join('p,t\n' + ''.join(f'{row}\n' for row in mixed), notices, *zone, '--sort'),
                     "'2026-10-25 02:40' comes twice in Europe/Berlin, and the rows are not in order of time, so nothing tells which is meant")
        run = self.join('t\n2026-10-25 02:40\n2026-10-25 02:20\n', 't\n2026-01-01\n')
        self.refused(run, '(if the clocks were put back here, name the zone, as --zone Europe/Berlin)')

    def test_zone_unknown(self):
        """A zone that is not there, and a Python that knows none: one line."""
        self.refused(self.join('t\n1\n', 't\n1\n', '--zone', 'Europe/Atlantis'), '--zone: ', 2)
        with mock.patch.dict(sys.modules, {'zoneinfo': None}):
            self.refused(self.join('t\n1\n', 't\n1\n', '--zone', 'Europe/Berlin'), '--zone: needs Python 3.9 or later', 2)

    def test_passes(self):
        """A date alone in --to is the whole day, in every form and in a zone; with --exclude-to the day is not covered."""
        shows = self.file('f.csv', 's\n2026-01-11 23:59:59.999999\n2026-01-12\n')
        for last in ('2026-01-11', '11.01.2026'):
            passes = self.file('p.csv', f'a,z\n{last},{last}\n')
            words = ['passes', passes, shows, '--from', 'a', '--to', 'z', '--on', 's']
            self.assertEqual(within(words).out.splitlines()[1:], [f'{last},{last},2026-01-11 23:59:59.999999'])
            self.assertEqual(within([*words, '--exclude-to']).out.splitlines()[1:], [])
            if ZONES:
                self.assertEqual(within([*words, '--zone', 'Europe/Berlin']).out.count('\n'), 2)


if __name__ == '__main__':
    unittest.main()
