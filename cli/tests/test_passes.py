"""passes: random passes and performances against a double loop, files of every form, bad input."""
import csv
import datetime
import io
import os
import random
import subprocess
import sys
import unittest

from .command import PROGRAM, SEASON, Case, apart, within
from .judge import moment
from .test_random import TABLES

MICRO = datetime.timedelta(microseconds=1)
COLUMNS = ('--from', 'a', '--to', 'z', '--on', 't')
SEASONS = ('--from', 'valid_from', '--to', 'valid_to', '--on', 'starts')
PASSES, PERFORMANCES, COVERED = (os.path.join(SEASON, f'{name}.csv') for name in ('passes', 'performances', 'covered'))


def whole(cell):
    """The number in a cell; None where it is empty."""
    return int(cell) if cell.strip() else None


class Tickets:
    """Passes in any order and performances, sorted or not, of whole numbers or of times."""

    def __init__(self, r):
        self.times, self.sort = r.random() < 0.5, r.random() < 0.4
        self.read = moment if self.times else whole
        self.flags = [r.random() < 0.6 for _ in range(2)]
        self.passes = [(self.cell(r, 0.15), self.cell(r, 0.15), f'pass "{row}", {row}') for row in range(r.randrange(30))]
        self.performances = [(self.cell(r, 0), f'play; {row}') for row in range(r.randrange(40))]
        if not self.sort:
            self.performances.sort(key=lambda row: self.read(row[0]))

    def cell(self, r, empty):
        """A cell of a time, in one of its forms; now and then an empty one."""
        if r.random() < empty:
            return r.choice(('', ' '))
        if not self.times:
            return r.choice(('{}', ' {}', '{} ')).format(r.choice((r.randrange(-9, 20), r.choice((-2**63, 2**63 - 1)))))
        return r.choice(('2026-01-{:02}', '2026-01-{:02} 00:00', '2026-01-{:02}T12:30', '2026-01-{:02} 12:30:00.5')).format(r.randrange(1, 9))

    def covers(self, lower, upper, time):
        """Whether a pass of these times covers a performance of that one."""
        if lower is None or upper is None:
            return False
        return (lower <= time if self.flags[0] else lower < time) and (time <= upper if self.flags[1] else time < upper)

    def last(self, cell):
        """The last time of a pass: of a date alone the end of its day, unless the last time is excluded."""
        found = self.read(cell)
        return found + datetime.timedelta(1) - MICRO if self.times and self.flags[1] and len(cell.strip()) == 10 else found

    def pairs(self):
        """Which pass covers which performance, by their numbers, by a double loop."""
        times = [self.read(time) for time, _ in self.performances]
        bounds = [(self.read(lower), self.last(upper)) for lower, upper, _ in self.passes]
        return [(row, number) for row, each in enumerate(bounds) for number, time in enumerate(times) if self.covers(*each, time)]

    def options(self):
        """What they are, as the command's words."""
        return [*COLUMNS, *['--sort'] * self.sort, *['--exclude-from'] * (not self.flags[0]), *['--exclude-to'] * (not self.flags[1])]


def text(names, rows, separator, r):
    """A file of one line a row."""
    out = io.StringIO(newline='')
    write = csv.writer(out, lineterminator='\n', delimiter=separator, quoting=r.choice((csv.QUOTE_MINIMAL, csv.QUOTE_ALL)))
    write.writerows([names, *rows])
    return out.getvalue()


def said(pairs, passes):
    """The line at the end, for passes that begin in line 2 and have a line each."""
    count, covering = len(passes), {row for row, _ in pairs}
    none = [row for row in range(count) if row not in covering]
    line = f'rowkeeper: {len(pairs):,} row{"s" * (len(pairs) != 1)}: {len(covering):,} of {count:,} pass{"es" * (count != 1)} '
    line += 'covers a performance' if 1 in (len(covering), count) else 'cover a performance'
    if none:
        line += f'; {len(none):,} cover{"s" * (len(none) == 1)} none, {"it is" if len(none) == 1 else "the first"} in line {none[0] + 2}'
    return line + '\n'


class RandomPasses(Case):
    """The command over random files."""

    def test_double_loop(self):
        """A row for each pass and performance that it covers, in the order of both files, as text where the separators are alike."""
        rows = sorts = 0
        for seed in range(TABLES // 5):
            r = random.Random(seed)
            tickets, signs = Tickets(r), [r.choice(',;') for _ in range(2)]
            texts = [text('azn', tickets.passes, signs[0], r), text(('t', 'n'), tickets.performances, signs[1], r)]
            paths = [self.file(name, each) for name, each in zip(('p.csv', 'f.csv'), texts)]
            wanted = tickets.pairs()
            with self.subTest(seed=seed):
                run = within(['passes', *paths, *tickets.options()])
                self.assertEqual((run.status, run.err.splitlines(True)[-1]), (0, said(wanted, tickets.passes)), run.err)
                found = list(csv.reader(io.StringIO(run.out, newline=''), delimiter=signs[0]))
                self.assertEqual(found, [['a', 'z', 'n', 't', 'performance_n'],
                                         *([*tickets.passes[row], *tickets.performances[number]] for row, number in wanted)])
                if signs[0] == signs[1]:
                    one, other = (each.splitlines()[1:] for each in texts)
                    self.assertEqual(run.out.splitlines()[1:], [f'{one[row]}{signs[0]}{other[number]}' for row, number in wanted])
            rows, sorts = rows + len(wanted), sorts + tickets.sort
        self.assertGreater(rows, TABLES)
        self.assertTrue(0 < sorts < TABLES // 5)

    def test_long_files(self):
        """More rows than a frame has in both files, passes that cover few performances and passes that cover all."""
        times = [each * 7919 % 10007 for each in range(10007)]
        passes = [(each * 31 % 10007, each * 31 % 10007 + each % 3) for each in range(9000)] + [(0, 10006)] * 30
        for sort in (False, True):
            rows = times if sort else sorted(times)
            paths = [self.file('p.csv', 'a,z\n' + ''.join(f'{a},{z}\n' for a, z in passes)),
                     self.file('f.csv', 't\n' + ''.join(f'{t}\n' for t in rows))]
            run = within(['passes', *paths, *COLUMNS, *['--sort'] * sort])
            place = {time: number for number, time in enumerate(rows)}
            wanted = [(a, z, rows[number]) for a, z in passes
                      for number in sorted(place[t] for t in range(a, z + 1) if t in place)]
            self.assertEqual(run.out, 'a,z,t\n' + ''.join(f'{a},{z},{t}\n' for a, z, t in wanted))
            self.assertEqual(run.err, f'rowkeeper: {len(wanted):,} rows: 9,030 of 9,030 passes cover a performance\n')


class Season(Case):
    """The passes of examples/season."""

    def test_covered(self):
        """The output is the file beside them, and the line counts."""
        run = apart(['passes', PASSES, PERFORMANCES, *SEASONS])
        self.assertEqual((run.status, run.out), (0, self.read(COVERED)))
        self.assertEqual(run.err, 'rowkeeper: 6 rows: 3 of 4 passes cover a performance; 1 covers none, it is in line 5\n')

    def test_output_file(self):
        """The same into a file."""
        out = os.path.join(self.folder, 'out.csv')
        self.assertEqual(within(['passes', PASSES, PERFORMANCES, *SEASONS, '-o', out]).out, '')
        self.assertEqual(self.read(out), self.read(COVERED))

    def test_standard_input(self):
        """Either file from a pipe."""
        for path, words in ((PASSES, ['-', PERFORMANCES]), (PERFORMANCES, [PASSES, '-'])):
            with open(path, 'rb') as file:
                ran = subprocess.run([sys.executable, PROGRAM, 'passes', *words, *SEASONS], input=file.read(),
                                     stdout=subprocess.PIPE, stderr=subprocess.PIPE)
            self.assertEqual((ran.returncode, ran.stdout.decode('utf-8')), (0, self.read(COVERED)))


class Forms(Case):
    """Files as box offices have them."""

    def test_bounds(self):
        """A bound is inside unless it is excluded, equal performances are all there, and a pass that ends before it begins has none."""
        paths = self.file('p.csv', 'a,z\n10,30\n30,10\n20,20\n'), self.file('f.csv', 't\n10\n20\n20\n30\n')
        for more, wanted in (([], [(10, 30, [10, 20, 20, 30]), (20, 20, [20, 20])]),
                             (['--exclude-from'], [(10, 30, [20, 20, 30])]),
                             (['--exclude-to'], [(10, 30, [10, 20, 20])]),
                             (['--exclude-from', '--exclude-to'], [(10, 30, [20, 20])])):
            run = within(['passes', *paths, *COLUMNS, *more])
            self.assertEqual(run.out, 'a,z,t\n' + ''.join(f'{a},{z},{t}\n' for a, z, each in wanted for t in each))

    def test_text_as_it_came(self):
        """Quotes, blanks, line ends in cells and blank lines; the line of a pass is that of an editor."""
        passes = self.file('p.csv', 'a,z,n\r\n1,2,"x\ny"\r\n\r\n 3 , 4,"z"\r\n9,9,d "e\r\n')
        performances = self.file('f.csv', 't,n\n 2 ,"p"\n3,"q, ""r"""\n')
        run = within(['passes', passes, performances, *COLUMNS])
        self.assertEqual(run.out, 'a,z,n,t,performance_n\n1,2,"x\ny", 2 ,"p"\n 3 , 4,"z",3,"q, ""r"""\n')
        self.assertEqual(run.err, 'rowkeeper: 2 rows: 2 of 3 passes cover a performance; 1 covers none, it is in line 6\n')

    def test_one_column_for_both(self):
        """A pass for one day has one column for its first and its last time."""
        paths = self.file('p.csv', 'day\n2026-01-02\n'), self.file('f.csv', 't\n2026-01-01\n2026-01-02\n2026-01-02 19:30\n')
        run = within(['passes', *paths, '--from', 'day', '--to', 'day', '--on', 't'])
        self.assertEqual((run.status, run.out), (0, 'day,t\n2026-01-02,2026-01-02\n2026-01-02,2026-01-02 19:30\n'))

    def test_kind_by_any_column(self):
        """Times are known by the first cell that has one, in whichever of the columns; zones are compared as moments."""
        performances = self.file('f.csv', 't\n2026-01-01T12:00Z\n')
        for rows in (',2026-01-02T00:00Z\n2026-01-01T13:00+01:00,2026-01-01T12:00Z\n', '2026-01-01T12:00Z,\n2026-01-01T13:00+01:00,2026-01-02T00:00Z\n'):
            run = within(['passes', self.file('p.csv', 'a,z\n' + rows), performances, *COLUMNS])
            self.assertEqual((run.status, run.out), (0, f'a,z,t\n{rows.splitlines()[1]},2026-01-01T12:00Z\n'), run.err)

    def test_encodings(self):
        """UTF-16 by its mark and another encoding by its name come out as UTF-8 with a mark."""
        for name, more in (('utf-16', []), ('cp1252', ['--encoding', 'cp1252'])):
            paths = self.file('p.csv', 'a,z,é\n1,2,ü\n'.encode(name)), self.file('f.csv', 't,é\n1,ä\n'.encode(name))
            run = within(['passes', *paths, *COLUMNS, *more])
            self.assertEqual((run.status, run.out), (0, '\ufeffa,z,é,t,performance_é\n1,2,ü,1,ä\n'))

    def test_no_rows(self):
        """No passes, no performances, no times at all."""
        none, one = self.file('none.csv', 'a,z\n'), self.file('one.csv', 'a,z\n1,2\n')
        empty, three = self.file('empty.csv', 't\n'), self.file('three.csv', 't\n3\n')
        for paths, counted in (((none, empty), '0 of 0 passes cover a performance'), ((none, three), '0 of 0 passes cover a performance'),
                               ((one, empty), '0 of 1 pass covers a performance; 1 covers none, it is in line 2'),
                               ((self.file('nulls.csv', 'a,z\n ,\n'), three), '0 of 1 pass covers a performance; 1 covers none, it is in line 2')):
            for more in ([], ['--sort']):
                run = within(['passes', *paths, *COLUMNS, *more])
                self.assertEqual((run.status, run.out, run.err), (0, 'a,z,t\n', f'rowkeeper: 0 rows: {counted}\n'))


class Faults(Case):
    """What is wrong is told in one line, and nothing is written."""

    def test_files(self):
        """Performances out of order or without a time, other kinds, missing columns, in either file."""
        good, rises = self.file('good.csv', 'a,z\n5,6\n1,2\n'), self.file('rises.csv', 't\n1\n2\n')
        falls, empty = self.file('falls.csv', 't,n\n2,x\n1,y\n'), self.file('empty.csv', 't,n\n,x\n1,y\n')
        word, late = self.file('word.csv', 'a,z\n1,2\n1,soon\n'), self.file('late.csv', 't\n2026-01-01\n')
        mixed = self.file('mixed.csv', 'a,z\n1,2026-01-01\n')
        for paths, said_of in (((good, falls), f'{falls}, line 3, column t: out of order: 1 comes after 2 of line 2; rows must be sorted by t, or'),
                               ((good, empty), f'{empty}, line 2, column t: there is an empty cell: every performance needs its time'),
                               ((word, rises), f"{word}, line 3, column z: 'soon' is not a whole number"),
                               ((good, late), f"{late}, line 2, column t: '2026-01-01' is not a whole number, as the column has them from"),
                               ((mixed, rises), f"{mixed}, line 2, column z: '2026-01-01' is not a whole number, as the column"),
                               ((rises, rises), f'{rises}, line 1, column a: there is no such column; the columns are t'),
                               ((good, good), f'{good}, line 1, column t: there is no such column; the columns are a, z'),
                               ((good, 'none.csv'), 'none.csv: cannot be read')):
            with self.subTest(said_of):
                out = os.path.join(self.folder, 'out.csv')
                self.refused(within(['passes', *paths, *COLUMNS, '-o', out]), said_of)
                self.assertFalse(os.path.exists(out))
        self.refused(within(['passes', good, empty, *COLUMNS, '--sort']), 'there is an empty cell')
        self.refused(within(['passes', good, rises, *COLUMNS, '-o', rises]), 'is one of the files to be read')

    def test_words(self):
        """Options that the command does not have or that are missing."""
        for words, said_of in ((['a', 'b', '--from', 'x', '--to', 'y'], '--on: say which column is compared'),
                               (['a', 'b', '--from', 'x', '--on', 'y'], 'required: --to'), (['a', *COLUMNS], 'PERFORMANCES.csv'),
                               (['-', '-', *COLUMNS], 'standard input can be one of the two files'),
                               (['a', 'b', *COLUMNS, '--by', 'p'], '--by'), (['a', 'b', *COLUMNS, '--no-check'], '--no-check'),
                               (['a', 'b', *COLUMNS, '--from', 'x'], 'is said twice')):
            with self.subTest(said_of):
                self.refused(within(['passes', *words]), said_of, 2)


if __name__ == '__main__':
    unittest.main()
