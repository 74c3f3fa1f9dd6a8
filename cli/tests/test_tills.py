"""Files as tills and spreadsheets write them: encodings of each side, separators, titles, workbooks; and files that change, short reads,
permissions, limits."""
import os
import stat
import subprocess
import sys
import threading
import time
import zipfile
from unittest import mock

from .. import input as reading
from .. import sink as sinking
from ..input import proposed, read_at, temporary
from ..problem import Problem
from .command import PROGRAM, Case, apart, within

ON = ('--on', 'm', '--by', 'p')


class Encodings(Case):
    """Each file in its own encoding."""

    SALES, NOTICES = 'p,m\nCosì,5\n', 'p,m,x\nCosì,4,y\n'

    def join(self, sales, notices, *words):
        """A run over bytes."""
        return within(['join', self.file('s.csv', sales), self.file('n.csv', notices), *ON, *words])

    def test_sides(self):
        """One side in another encoding than the other."""
        wanted = '\ufeffp,m,notice_row,notice_m,x\nCosì,5,0,4,y\n'
        for name in ('cp1252', 'utf-16-le'):
            run = self.join(self.SALES.encode(name), self.NOTICES, '--left-encoding', name)
            self.assertEqual((run.status, run.out), (0, wanted), run.err)
            run = self.join(self.SALES, self.NOTICES.encode(name), '--right-encoding', name)
            self.assertEqual((run.status, run.out), (0, wanted[1:]), run.err)
        run = self.join(self.SALES.encode('cp1252'), self.NOTICES.encode('cp850'), '--encoding', 'cp1252', '--right-encoding', 'cp850')
        self.assertEqual((run.status, run.out), (0, wanted), run.err)

    def test_proposed(self):
        """The message names the encoding in which the line reads as text, and the option of that side."""
        for name in ('cp1252', 'cp850'):
            for text in ('Brückner', 'Grün', 'Käthchen', 'Così fan tutte', 'Molière'):
                self.assertEqual(proposed(f'{text},5\n'.encode(name)), (name, f'{text},5'))
        self.assertIsNone(proposed(b'\x01\xfe\x02'))
        self.refused(self.join(self.SALES.encode('cp1252'), self.NOTICES), "s.csv, line 2: byte 4 of the line is not UTF-8 text; in cp1252 it reads "
                     "'Così,5': add --left-encoding cp1252")
        self.refused(self.join(self.SALES, self.NOTICES.encode('cp1252')), 'add --right-encoding cp1252')
        self.refused(self.join(self.SALES, self.NOTICES.encode('utf-16-be')), 'n.csv, line 1: the line reads as UTF-16: add --right-encoding utf-16-be')

    def test_wrong_for_one(self):
        """An encoding for both files that one of them is plainly not in is refused; said for that file alone it is taken."""
        self.refused(self.join(self.SALES.encode('cp1252'), self.NOTICES, '--encoding', 'cp1252'), 'n.csv: is UTF-8 text, though --encoding says '
                     'cp1252; say --left-encoding cp1252 for the other file alone, or --right-encoding cp1252 if this is right')
        run = self.join(self.SALES.encode('cp1252'), self.NOTICES, '--encoding', 'cp1252', '--right-encoding', 'cp1252')
        self.assertEqual(run.status, 0)
        self.refused(self.join(self.SALES, self.NOTICES, '--left-encoding', '\x1b'), "--left-encoding: '\\x1b' is not known", 2)


class Spreadsheets(Case):
    """What spreadsheets add to a file, and workbooks."""

    def run_over(self, sales, *words):
        """A run over these sales."""
        return within(['join', self.file('s.csv', sales), self.file('n.csv', 'p,m,x\n1,4,y\n'), *ON, *words])

    def test_separator_line(self):
        """A first line as sep=; is taken, also for a sign that is not tried else."""
        for sign in ';|\t':
            run = self.run_over(f'sep={sign}\np{sign}m\n1{sign}5\n')
            self.assertEqual((run.status, run.out), (0, f'p{sign}m{sign}notice_row{sign}notice_m{sign}x\n1{sign}5{sign}0{sign}4{sign}y\n'), run.err)
            self.assertNotIn('are passed', run.err)

    def test_titles(self):
        """Lines above the header are passed, with a note; lines are counted with them."""
        for words in ([], ['--sort'], ['--stream']):
            run = self.run_over('Sales of January\n\nBox office 1\np,m\n1,5\n', *words)
            self.assertEqual((run.status, run.out), (0, 'p,m,notice_row,notice_m,x\n1,5,0,4,y\n'), run.err)
            self.assertIn('s.csv: the columns are named in line 4, and the lines above it are passed\n', run.err)
        self.refused(self.run_over('Title\np,m\n1,5\n1,soon\n'), "s.csv, line 4, column m: 'soon' is not a whole number")
        self.refused(self.run_over('Title\n' * 25 + 'p,m\n1,5\n'), 's.csv, line 1, column p: there is no such column')

    def test_separators_at_the_end(self):
        """Rows with a separator more than the header, and the other way round."""
        run = self.run_over('p,m\n1,5,\n1,6,\n')
        self.assertEqual((run.status, run.out), (0, 'p,m,,notice_row,notice_m,x\n1,5,,0,4,y\n1,6,,0,4,y\n'), run.err)
        run = self.run_over('p,m,\n1,5\n1,6\n')
        self.assertEqual((run.status, run.out), (0, 'p,m,notice_row,notice_m,x\n1,5,0,4,y\n1,6,0,4,y\n'), run.err)
        self.refused(self.run_over('p,m\n1,5,x\n'), 's.csv, line 2: columns: 3, but the header names 2')

    def test_rows_of_separators(self):
        """They are passed as blank lines are, wherever they stand and however often the file is read."""
        for rows in (',\n1,5\n', '1,5\n,\n', '1,5\n,\n,\n', ',\n\n1,5\n,', '1,5\r\n,\r\n', '"1",5\n,\n'):
            for words in ([], ['--sort'], ['--stream']):
                run = self.run_over(f'p,m\n{rows}', *words)
                self.assertEqual((run.status, run.out.replace('"', '')), (0, 'p,m,notice_row,notice_m,x\n1,5,0,4,y\n'), run.err)

    def test_workbooks(self):
        """What is no text is named, with what to do."""
        path = os.path.join(self.folder, 'w.xlsx')
        with zipfile.ZipFile(path, 'w') as book:
            book.writestr('xl/workbook.xml', '<workbook/>')
        self.refused(within(['join', path, path, *ON]), 'w.xlsx: this is a workbook, not CSV: save it as "CSV UTF-8" and give that file')
        self.refused(self.run_over(b'\x1f\x8b\x08\x00'), 'the file is compressed')

    def test_hints(self):
        """Columns said with commas, a header of very many columns."""
        self.refused(within(['join', self.file('s.csv', 'p,m\n1,5\n'), self.file('n.csv', 'p,m\n'), '--on', 'x', '--by', 'p,m']),
                     'several columns are said one by one, as --by p --by m')
        wide = self.file('w.csv', ','.join(f'c{number}' for number in range(100000)) + '\n')
        run = within(['join', wide, wide, '--on', 'm'])
        self.refused(run, 'c39 and 99,960 more')
        self.assertLess(len(run.err), 500)


class Changes(Case):
    """Files that change while they are read."""

    def changed(self, change, *words):
        """A run whose sales are changed when both files have been read to their ends."""
        sales, notices = self.file('s.csv', 'p,m,seat\n1,5,a\n1,6,22'), self.file('n.csv', 'p,m,x\n1,4,y\n')
        code = ('import sys; sys.path.insert(0, sys.argv[1]); import cli.join as join; judged = join.Pricing.judged\n'
                f'def changed(self):\n    tables = judged(self)\n    with open(sys.argv[3], "r+b") as file:\n        {change}\n    return tables\n'
                'join.Pricing.judged = changed\nfrom cli.main import main\nsys.exit(main(sys.argv[2:]))')
        ran = subprocess.run([sys.executable, '-c', code, os.path.dirname(PROGRAM), 'join', sales, notices, *ON, *words],
                             stdout=subprocess.PIPE, stderr=subprocess.PIPE)
        return ran.returncode, ran.stdout.decode(), ran.stderr.decode(), sales

    def test_noticed(self):
        """A line that is completed, a row that is added, names that are exchanged: told before a row is written, also to standard output."""
        for change in ('file.seek(0, 2); file.write(b"00\\n")', 'file.seek(0, 2); file.write(b"\\n1,7,b\\n")', 'file.write(b"m,p")',
                       'file.write(b"p,m,tare")'):
            for words in ([], ['--sort'], ['-o', os.path.join(self.folder, 'o.csv')]):
                status, out, err, sales = self.changed(change, *words)
                self.assertEqual((status, out, err), (1, '', f'rowkeeper: {sales}: the file was changed while it was read\n'))
                self.assertFalse(os.path.exists(os.path.join(self.folder, 'o.csv')))

    def test_header(self):
        """Names that are exchanged are noticed by the header's sum, whatever the file's time says."""
        change = 'import os; old = os.stat(sys.argv[3]); file.write(b"p,m,tare"); file.flush(); os.utime(sys.argv[3], ns=(old.st_atime_ns, old.st_mtime_ns))'
        out = os.path.join(self.folder, 'o.csv')
        status, _, err, sales = self.changed(change, '-o', out)
        self.assertEqual((status, err, os.path.exists(out)), (1, f'rowkeeper: {sales}: the file was changed while it was read\n', False))


class Limits(Case):
    """Short reads, permissions, rows without end."""

    def test_short_reads(self):
        """A temporary file is read to where it should be, however little comes at once; one that ends too early is told."""
        rows = sorted(((row * 7919) % 6007, row) for row in range(6007))
        path = self.file('s.csv', 'p,m\n' + ''.join(f'{p % 9},{m}\n' for p, m in rows))
        words = ['join', path, path, *ON, '--sort']
        wanted, pread = within(words).out, os.pread
        with mock.patch('cli.sorting.RUN', 500), mock.patch.object(reading.os, 'pread', lambda file, size, place: pread(file, min(size, 999), place)):
            for more in (words, ['standing', path, *ON, '--sort', '--all'], ['takings', path, path, *ON, '--sort', '--amount', 'm']):
                run = within(more)
                self.assertEqual(run.status, 0, run.err)
                self.assertTrue(more is not words or run.out == wanted)
        with temporary() as file:
            file.write(b'abc')
            file.flush()
            self.assertEqual(read_at(file, 2, 1), b'bc')
            self.assertRaisesRegex(Problem, 'ends too early', read_at, file, 3, 1)

    def test_permissions(self):
        """The new file allows no more than the old one at any moment."""
        long, out = self.file('s.csv', 'm\n' + ''.join(f'{row}\n' for row in range(150000))), self.file('o.csv', 'old')
        os.chmod(out, 0o600)
        seen, done = set(), threading.Event()

        def watch():
            """Looks at the folder until the run is over."""
            while not done.is_set():
                for name in os.listdir(self.folder):
                    if name.endswith('.part'):
                        try:
                            seen.add(stat.S_IMODE(os.stat(os.path.join(self.folder, name)).st_mode))
                        except FileNotFoundError:
                            pass
                time.sleep(0.002)
        watcher = threading.Thread(target=watch)
        watcher.start()
        run = apart(['join', long, long, '--on', 'm', '-o', out])
        done.set()
        watcher.join()
        self.assertEqual((run.status, seen, stat.S_IMODE(os.stat(out).st_mode)), (0, {0o600}, 0o600), run.err)
        os.chmod(out, 0o644)
        first, fchmod = [], os.fchmod
        with mock.patch.object(sinking.os, 'fchmod', lambda file, mode: (first.append(stat.S_IMODE(os.fstat(file).st_mode)), fchmod(file, mode))):
            self.assertEqual(within(['join', long, long, '--on', 'm', '-o', out]).status, 0)
        self.assertEqual(first, [0o600])

    def test_rows_without_end(self):
        """A quote that is never closed is told by its line, and does not fill the memory."""
        path = self.file('s.csv', 'm,x\n1,a\n2,"b\n' + 'c\n' * 200000)
        self.refused(within(['join', path, path, '--on', 'm']), 's.csv, line 3: a row has more than 10,000 lines or 16 MB: a quote is opened and '
                     'never closed')

    def test_output_names(self):
        """- is standard output, and an empty name is refused."""
        path = self.file('s.csv', 'm\n1\n')
        self.assertEqual(within(['join', path, path, '--on', 'm', '-o', '-']).out, 'm,notice_row,notice_m\n1,0,1\n')
        self.refused(within(['join', path, path, '--on', 'm', '-o', '']), 'the name is empty', 2)

    def test_rank_with_sign(self):
        """A code may have an equals sign."""
        path = self.file('s.csv', 'p,m\nb=2,1\na=1,1\n')
        run = within(['join', path, path, *ON, '--rank', 'p=b=2,a=1'])
        self.assertEqual(run.out.splitlines()[1:], ['b=2,1,0,1', 'a=1,1,1,1'], run.err)
