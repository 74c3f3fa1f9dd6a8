"""What once went wrong around the join: each test has failed."""
import hashlib
import os
import re
import resource
import shutil
import signal
import subprocess
import sys
import time
from unittest import mock

from rowkeeper.interface import MOST_ROWS

from ..build import ROOT
from ..page import PAGE
from ..pricing import Matching
from .command import PROGRAM, Case, apart, within

ON = ('--on', 'minute', '--by', 'performance')


def closed(number):
    """What closes a standard stream in the program that is started."""
    return lambda: os.close(number)


def small_files():
    """What keeps the program that is started from writing long files."""
    resource.setrlimit(resource.RLIMIT_FSIZE, (10000, 10000))


class Faults(Case):
    """The faults one by one."""

    def misplaced(self):
        """Sales and notices: the last notice is the first performance's, and most sales should have had it."""
        sales = self.file('s.csv', 'performance,minute\n' + ''.join(f'1,{minute}\n' for minute in range(5000)))
        notices = '1,0,100\n' + ''.join(f'2,{minute},300\n' for minute in range(5000)) + '1,10,200\n'
        return sales, self.file('n.csv', 'performance,minute,price\n' + notices)

    def test_nothing_before_the_fault(self):
        """No row comes out before both files are found right, from files and from pipes; a file of --output is not made."""
        sales, notices = self.misplaced()
        said = 'line 5003, column performance: out of order: 1 comes after 2 of line 5002'
        self.refused(apart(['join', sales, notices, *ON]), said)
        with open(notices, 'rb') as file:
            self.refused(apart(['join', sales, '-', *ON], input=file.read()), f'standard input, {said}')
        self.refused(within(['join', sales, notices, *ON, '-o', os.path.join(self.folder, 'o.csv')]), said)
        self.assertEqual(sorted(os.listdir(self.folder)), ['n.csv', 's.csv'])

    def test_rows_early_if_wanted(self):
        """With --stream rows come as they are matched, while the pipe is still open; the fault is told at the end."""
        sales, notices = self.misplaced()
        run = apart(['join', sales, notices, *ON, '--stream'])
        self.assertEqual((run.status, run.out.count('\n')), (1, 5001))
        self.assertIn('line 5003, column performance: out of order', run.err)
        self.assertTrue(run.err.endswith('or add --sort; 5,000 rows were already written: do not use them\n'), run.err)
        started = subprocess.Popen([sys.executable, PROGRAM, 'join', '-', notices, *ON, '--stream', '--no-check'],
                                   stdin=subprocess.PIPE, stdout=subprocess.PIPE, stderr=subprocess.PIPE)
        with started:
            started.stdin.write(b'performance,minute\n' + b'1,5\n' * 3000)
            started.stdin.flush()
            self.assertEqual(started.stdout.readline(), b'performance,minute,notice_row,notice_minute,price\n')
            self.assertEqual(started.stdout.readline(), b'1,5,0,0,100\n')
            started.stdin.write(b'1,5\n')
            started.stdin.close()
            out, err = started.stdout.read(), started.stderr.read()
        self.assertEqual((out.count(b'\n'), err), (3000, b'rowkeeper: 3,001 of 3,001 sales have a notice\n'))

    def test_carriage_return_in_quotes(self):
        """It comes out in quotes, from a sale, a notice and a header, and what came out can go in again."""
        for text in ('m,p\n1,"a\rb"\n', 'm,"p\rq"\n1,x\n'):
            path, out = self.file('crc.csv', text), os.path.join(self.folder, 'o.csv')
            self.went_well(within(['join', path, path, '--on', 'm', '-o', out]))
            self.assertEqual(self.read(out).count('\r'), self.read(out).count('"') // 2)
            self.went_well(within(['join', out, out, '--on', 'm']))

    def test_an_option_twice(self):
        """What can be said once and is said twice is refused, also with the same value."""
        once = [('--on', 'm'), ('--left-on', 'm'), ('--right-on', 'm'), ('--strategy', 'forward'), ('--tolerance', '1'),
                ('--output', 'x'), ('-o', 'x'), ('--rank', 'p=1'), ('--columns', 'a'), ('--prefix', 'a'), ('--separator', ';'),
                ('--encoding', 'utf-8'), ('--distance', 'age')]
        for words in once:
            run = within(['join', 'none.csv', 'none.csv', '--by', 'p', *words, *words])
            self.refused(run, 'is said twice', 2)
            self.assertIn(words[0], run.err)

    def test_closed_streams(self):
        """A closed standard output is told, unless nothing goes there; a closed standard error keeps nothing from its place."""
        path, out = self.file('s.csv', 'm\n1\n'), os.path.join(self.folder, 'o.csv')
        words = ['join', path, path, '--on', 'm']
        self.refused(apart(words, preexec_fn=closed(1)), 'standard output: cannot be written: it is closed')
        self.went_well(apart([*words, '-o', out], preexec_fn=closed(1)))
        self.assertEqual(self.read(out), 'm,notice_row,notice_m\n1,0,1\n')
        for more in ([], ['--explain']):
            run = apart([*words, *more], preexec_fn=closed(2))
            self.assertEqual((run.status, run.out, run.err), (0, 'm,notice_row,notice_m\n1,0,1\n', ''))
        run = apart(['join', path, 'none.csv', '--on', 'm'], preexec_fn=closed(2))
        self.assertEqual((run.status, run.out, run.err), (1, '', ''))
        self.refused(apart(['join', path, '-', '--on', 'm'], preexec_fn=closed(0)), 'standard input: cannot be read: it is closed')

    def test_signal_while_the_library_is_made(self):
        """The compiler, and what it started, end with the command."""
        archive = self.file('lib.a', b'')
        made = os.path.join(ROOT, 'build', 'other', hashlib.sha256(os.path.realpath(archive).encode()).hexdigest()[:12])
        self.addCleanup(shutil.rmtree, made, True)
        pids = os.path.join(self.folder, 'pids')
        compiler = self.file('cc', f'#!/bin/sh\nsleep 60 &\necho $$ $! >{pids}.new\nmv {pids}.new {pids}\nwait\n')
        os.chmod(compiler, 0o755)
        path = self.file('s.csv', 'm\n1\n')
        run = subprocess.Popen([sys.executable, PROGRAM, 'join', path, path, '--on', 'm'], stdout=subprocess.PIPE, stderr=subprocess.PIPE,
                               env={**os.environ, 'CC': compiler, 'ROWKEEPER_ARCHIVE': archive})
        with run:
            until = time.monotonic() + 30
            while not os.path.exists(pids) and time.monotonic() < until:
                time.sleep(0.01)
            run.send_signal(signal.SIGTERM)
            self.assertEqual((*run.communicate(), run.returncode), (b'', b'', 128 + signal.SIGTERM))
        for pid in self.read(pids).split():
            while gone(int(pid)) is False and time.monotonic() < until:
                time.sleep(0.01)
            self.assertTrue(gone(int(pid)))
        self.assertEqual(os.listdir(made), [])

    def test_no_room_for_temporary_files(self):
        """What does not fit there is told, and nothing is written: for the numbers of a file, a pipe, the sorting, the end."""
        path = self.file('s.csv', 'm\n' + ''.join(f'{minute}\n' for minute in range(9000)))
        for words in ([path], ['-'], [path, '--sort'], [path, '--fail-unmatched']):
            with open(path, 'rb') as file:
                run = apart(['join', path, *words, '--on', 'm'], preexec_fn=small_files, input=file.read())
            self.refused(run, 'a temporary file: cannot be ')
            self.assertIn('File too large', run.err)

    def test_blank_lines(self):
        """They are passed and not counted, as the page says; lines are still counted as an editor does."""
        self.assertIn('Blank lines are passed\n  and not counted,', PAGE)
        sales, notices = self.file('s.csv', 'm\n\n3\n'), self.file('n.csv', 'm\n\n\n4\n')
        run = within(['join', sales, notices, '--on', 'm', '--strategy', 'forward'])
        self.assertEqual((self.went_well(run), run.out), ([1, 1, None, None], 'm,notice_row,notice_m\n3,0,4\n'))
        run = within(['join', sales, notices, '--on', 'm'])
        self.assertEqual(self.went_well(run), [0, 1, 1, 3])

    def work(self, rows, more):
        """What a join of so many sales with as many notices, all of one key, counts: the sales that each frame was to have; and, as
        --explain tells them, the rows and the frames of sales, the same of notices, and the turns of each kind."""
        path, wanted, next_sales = self.file('k.csv', 'm\n' + '7\n' * rows), [], Matching.next_sales

        def counted(matching):
            """Hands in the next sales, counted."""
            wanted.append(matching.heights.rows)
            return next_sales(matching)

        with mock.patch.object(Matching, 'next_sales', counted):
            run = within(['join', path, path, '--on', 'm', '--explain', '-o', os.path.join(self.folder, 'o.csv'), *more])
        self.assertEqual(run.status, 0, run.err)
        told = dict(line.split(None, 1) for line in run.err.splitlines())
        return wanted[:-1], [[int(each.replace(',', '')) for each in re.findall('[0-9][0-9,]*', told[name])]
                             for name in ('sales', 'notices', 'turns')]

    def test_many_notices_of_one_key(self):
        """The work grows with the rows: every notice is handed in once, frames grow to full ones and stay full while all notices are
        held, and the turns beyond those of the first frames are as many as the rows fill. All notices are held by the first frame."""
        few, many, startup = 20000, 60000, 12
        for more in ([], ['--sort']):
            turns = []
            for rows in (few, many):
                wanted, (sales, notices, each) = self.work(rows, more)
                self.assertEqual((sales[0], notices[0], notices[1]), (rows, rows, rows))
                self.assertEqual(set(wanted[startup:]), {MOST_ROWS})
                self.assertLess(max(sales[1] - startup, notices[2]), rows / (0.8 * MOST_ROWS) + 1)
                turns.append(sum(each))
            self.assertLess(turns[1] - turns[0], 3 * (many - few) / (0.8 * MOST_ROWS) + 3)


def gone(pid):
    """Whether a process has ended."""
    try:
        with open(f'/proc/{pid}/stat', encoding='ascii') as file:
            return file.read().split(')')[-1].split()[0] == 'Z'
    except OSError:
        return True
