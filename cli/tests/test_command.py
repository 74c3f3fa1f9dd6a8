"""The command from outside: the season, bad input, where the output goes."""
import os
import re
import signal
import stat
import subprocess
import sys
import time
import unittest

from rowkeeper.interface import VERSION

from ..arguments import parser
from ..build import ROOT
from ..page import PAGE, man
from .command import PROGRAM, SEASON, Case, apart, within

ON = ('--on', 'minute', '--by', 'performance')
SALES, NOTICES, PRICED = (os.path.join(SEASON, name) for name in ('sales.csv', 'notices.csv', 'priced.csv'))


class Season(Case):
    """The example of the first page."""

    def test_priced(self):
        """The output is the file beside the season."""
        run = apart(['join', SALES, NOTICES, *ON])
        self.assertEqual(self.went_well(run), [27, 30, 3, 2])
        self.assertEqual(run.out, self.read(PRICED))

    def test_from_another_folder_in_another_locale(self):
        """Where it is started and the machine's own encoding do not matter."""
        run = apart(['join', SALES, NOTICES, *ON], cwd=self.folder, env={**os.environ, 'LC_ALL': 'C', 'PYTHONUTF8': '0'})
        self.assertEqual((run.status, run.out), (0, self.read(PRICED)))

    def test_explain(self):
        """The options, rows, turns and areas are told, and the output stays as it is."""
        run = apart(['join', SALES, NOTICES, *ON, '--explain'])
        self.assertEqual((run.status, run.out), (0, self.read(PRICED)))
        for said in ('strategy    backward, equal keys match, tolerance none', 'key         minute (a whole number)',
                     'by          performance (a whole number)', 'order       performance, then minute; checked',
                     'sales       30 rows', 'notices     11 rows', 'turns       2 wrote',
                     'left area   16,386 words', 'right area  ', 'output      8,194 words'):
            self.assertIn(said, run.err)

    def test_one_minute(self):
        """Notices of one minute stay held: they make the frames of sales no smaller, and each sale takes the last."""
        rows = 20000
        table = self.file('table.csv', 'minute,price\n' + ''.join(f'7,{row}\n' for row in range(rows)))
        run = within(['join', table, table, '--on', 'minute', '--explain'])
        self.assertEqual(run.status, 0)
        self.assertEqual(run.out.splitlines()[1:], [f'7,{row},{rows - 1},7,{rows - 1}' for row in range(rows)])
        self.assertIn('sales       20,000 rows in 15 frames\n', run.err)


class Till(Case):
    """README's second command: files as a till writes them."""

    def test_priced(self):
        """The output is the file beside them, and the notes say what was found."""
        command = re.findall(r'(?m)^    [.]/rowkeeper (join .*)$', self.read(os.path.join(ROOT, 'README.md')))[1]
        run = apart(command.split(), cwd=ROOT)
        self.assertEqual((run.status, run.out), (0, self.read(os.path.join(SEASON, 'till_priced.csv'))))
        self.assertEqual(run.err, 'rowkeeper: examples/season/till.csv: columns are separated by semicolons\n'
                         'rowkeeper: 5 of 7 sales have a notice; 2 have none, the first in line 7; 1 group has no notice at all: performance Macbeth\n')


class Help(Case):
    """The page."""

    def test_page(self):
        """However help is asked for, the page comes."""
        for words in (['--help'], ['-h'], ['help']):
            run = apart(words)
            self.assertEqual((run.status, run.out, run.err), (0, PAGE, ''))

    def test_page_of_a_command(self):
        """A command's own help has its example and all its options, and none that it does not have."""
        commands = parser()._subparsers._group_actions[0].choices
        for name, each in commands.items():
            run = apart([name, '--help'])
            self.assertEqual((run.status, run.err, apart(['help', name]).out), (0, '', run.out))
            own = {option for action in each._actions for option in action.option_strings} - {'-h', '--help'}
            self.assertEqual(set(re.findall('(?m)^  (--?[a-z][a-z-]*)', run.out)), own, name)
            self.assertIn(f'  rowkeeper {name} ', run.out)
            self.assertLess(len(run.out.splitlines()), len(PAGE.splitlines()) * 2 // 3)

    def test_quiet(self):
        """A run that goes well says nothing; a fault is told."""
        run = apart(['join', SALES, NOTICES, *ON, '--quiet'])
        self.assertEqual((run.status, run.out, run.err), (0, self.read(PRICED), ''))
        self.refused(within(['join', SALES, 'none.csv', *ON, '--quiet']), 'none.csv: cannot be read')
        self.went_well(within(['join', SALES, NOTICES, *ON]))

    def test_version(self):
        """The version of the description, and nothing else."""
        run = apart(['--version'])
        self.assertEqual((run.status, run.out, run.err), (0, f'rowkeeper {VERSION}\n', ''))

    def test_man_page(self):
        """The man page has every line of the page, in order; its headings are sections."""
        plain = man().replace('\\-', '-').replace('\\(aq', "'").replace('\\e', '\\').replace('\n\\&', '\n').split('\n')
        rest = iter(plain)
        for line in filter(None, PAGE.splitlines()[1:]):
            wanted = line.strip() if line.startswith(' ') else f'.SH {line}'
            self.assertTrue(any(each.strip() == wanted for each in rest), line)


class Usage(Case):
    """Words that do not go together: one line, status 2, and no file is opened."""

    def test_words(self):
        """Each case says what is wrong with the words."""
        join = ['join', 'none.csv', 'none.csv']
        for words, said in (([], 'say what to do'), (['mend'], "'mend'"), (['merge', 'a'], 'FESTIVAL.csv'), (['standing'], 'NOTICES.csv'), (['passes'], 'PASSES.csv'), (['join'], 'SALES.csv'), (join, '--on'),
                            ([*join, '--on', 'm', '--by', 'm'], 'column m is named twice'),
                            ([*join, '--on', 'm', *'--by a --by b --by c --by d --by e'.split()], '4 at most'),
                            ([*join, '--on', 'm', '--descending', 'm'], '--descending: m is not a --by column'),
                            ([*join, '--on', 'm', '--by', 'p', '--nulls-last', 'q'], '--nulls-last: q is not'),
                            ([*join, '--on', 'm', '--by', 'p', '--rank', 'q=1'], '--rank: q is not a --by column'),
                            ([*join, '--on', 'm', '--by', 'p', '--rank', 'm=1'], '--rank: m is not a --by column'),
                            ([*join, '--on', 'm', '--by', 'p', '--rank', 'p'], "must be COLUMN=CODES, as band=30,10,20, not 'p'"),
                            ([*join, '--on', 'm', '--by', 'p', '--rank', 'p='], '--rank: there is an empty code'),
                            ([*join, '--on', 'm', '--by', 'p', '--rank', 'p=1,,2'], '--rank: there is an empty code'),
                            ([*join, '--on', 'm', '--by', 'p', '--rank', 'p=a,b, a'], '--rank: code a is named twice'),
                            ([*join, '--on', 'm', '--by', 'p', '--rank', 'p=1,"two'], 'a quote is not closed'),
                            ([*join, '--on', 'm', '--by', 'p', '--rank', 'p=1,2,01'], '--rank: code 1 is named twice'),
                            ([*join, '--on', 'm', '--by', 'p', '--rank', 'p=' + ','.join(map(str, range(65)))], '64 at most'),
                            ([*join, '--on', 'm', '--by', 'p', '--rank', 'p=1', '--rank', 'p=2'], '--rank: is said twice'),
                            ([*join, '--on', 'm', '--strategy', 'nearest', '--no-exact'], 'does not go with'),
                            ([*join, '--on', 'm', '--strategy', 'sideways'], 'sideways'),
                            ([*join, '--on', 'm', '--tolerance', '-1'], '--tolerance'),
                            ([*join, '--on', 'm', '--tolerance', '1.5'], 'not a whole number'),
                            ([*join, '--on', 'm', '--tolerance', ''], '--tolerance'),
                            ([*join, '--on', 'm', '--tolerance', str(2**63)], 'beyond 64 bits'),
                            ([*join, '--on', 'm', '--strat', 'nearest'], '--strat')):
            with self.subTest(words=words):
                self.refused(within(words), said, 2)
        self.refused(apart(join), '--on', 2)


class BadFiles(Case):
    """Files that are not as they must be: one line with file, line and column, status 1, and no output file."""

    GOOD = 'performance,minute\n1,5\n'

    def test_files(self):
        """Each fault, in the sales and in the notices."""
        beyond = str(2**63)
        for content, said in (
                ('', 'line 1: the file is empty'), ('\n\n', 'line 1: the file is empty'),
                ('performance,hour\n1,5\n', 'line 1, column minute: there is no such column; the columns are performance, hour'),
                ('performance,minute,minute\n1,5,5\n', 'line 1, column minute: 2 columns have this name'),
                ('performance,minute\n1,5\n1,soon\n', "line 3, column minute: 'soon' is not a whole number"),
                (f'performance,minute\n1,5\n2,{beyond}\n', f"line 3, column minute: '{beyond}' is beyond 64 bits"),
                ('performance,minute\n1,7\n1,5\n', 'line 3, column minute: out of order: 5 comes after 7 of line 2'),
                ('performance,minute\n2,5\n1,7\n', 'line 3, column performance: out of order: 1 comes after 2 of line 2'),
                ('performance,minute\n1,5\n1,\n', 'line 3, column minute: out of order: an empty cell comes after 5'),
                ('performance,minute\n1,5,9\n', 'line 2: columns: 3, but the header names 2'),
                ('performance,minute\n1,"5\n', 'line 2: the line cannot be read as CSV: a quote is opened and never closed'),
                ('performance,minute\n1,"5"6\n', 'line 2: the line cannot be read as CSV'),
                ('performance,minute\r1,5\r', 'line 1: the line cannot be read as CSV: there is a carriage return'),
                (b'performance,minute\n1,\xff\n', 'line 2: byte 3 of the line is not UTF-8 text'),
                ('performance,minute\n1,"a\nb\x1b[0m"\n', "line 2, column minute: 'a\\nb\\x1b[0m' is not a whole number"),
                ('performance,minute\n1,' + '7' * 500 + '\n', "line 2, column minute: '7777777")):
            bad, good, out = self.file('bad.csv', content), self.file('good.csv', self.GOOD), os.path.join(self.folder, 'out')
            for files in ((bad, good), (good, bad)):
                with self.subTest(said=said, files=files):
                    self.refused(within(['join', *files, *ON, '--output', out]), f'{bad}, {said}')
                    self.assertEqual(sorted(os.listdir(self.folder)), ['bad.csv', 'good.csv'])

    def test_codes(self):
        """A code that --rank does not name, with the check and without it; and rows out of the order that it names."""
        rank, good = [*ON, '--rank', 'performance=30,10,20'], self.file('good.csv', 'performance,minute\n30,5\n10,5\n')
        for content, words, said in (
                ('30,5\n40,5\n', [], 'line 3, column performance: 40 is not among the codes of --rank'),
                ('30,5\n40,5\n', ['--no-check'], 'line 3, column performance: 40 is not among the codes of --rank'),
                ('30,5\n10,5\n30,6\n', [], 'line 4, column performance: out of order: 30 comes after 10 of line 3; rows must be sorted by '
                                            'performance (in the order 30 10 20), then minute'),
                ('10,5\n30,5\n', [], 'line 3, column performance: out of order: 30 comes after 10 of line 2'),
                ('30,5\n,5\n', [], 'line 3, column performance: out of order: an empty cell comes after 30 of line 2'),
                ('20,5\n10,5\n40,5\n', [], 'line 3, column performance: out of order')):
            bad = self.file('bad.csv', f'performance,minute\n{content}')
            for files in ((bad, good), (good, bad)):
                with self.subTest(said=said, files=files):
                    self.refused(within(['join', *files, *rank, *words]), f'{bad}, {said}')

    def test_no_file(self):
        """A file that is not there, and a folder."""
        good = self.file('good.csv', self.GOOD)
        for bad, said in ((os.path.join(self.folder, 'none.csv'), 'No such file'), (self.folder, 'directory')):
            for files in ((bad, good), (good, bad)):
                self.refused(within(['join', *files, *ON]), f'{bad}: cannot be read: ')
                self.assertIn(said, within(['join', *files, *ON]).err)

    def test_fault_behind_the_last_sale(self):
        """A notice that no sale asked for is read too: it might have been one's notice."""
        sales = self.file('sales.csv', self.GOOD)
        late = ''.join(f'9,{minute}\n' for minute in range(9000))
        notices = self.file('notices.csv', 'performance,minute\n1,4\n' + late + '1,5\n')
        self.refused(within(['join', sales, notices, *ON]), 'line 9003, column performance: out of order: 1 comes after 9')
        run = within(['join', sales, notices, *ON, '--no-check'])
        self.assertEqual((run.status, run.out), (0, 'performance,minute,notice_row,notice_minute\n1,5,0,4\n'))

    def test_null_keys_between_frames(self):
        """What the library's own check overlooks: a row with a null key of a later performance, then one before it."""
        sales = self.file('sales.csv', 'performance,minute\n2,5\n3,\n2,8\n')
        notices = self.file('notices.csv', 'performance,minute\n2,1\n2,7\n3,1\n4,1\n')
        self.refused(within(['join', sales, notices, *ON]), 'sales.csv, line 4, column performance: out of order')


class Tables(Case):
    """Tables at their ends."""

    def priced(self, sales, notices, *words):
        """The output for these two tables."""
        run = within(['join', self.file('s.csv', sales), self.file('n.csv', notices), *words])
        self.went_well(run)
        return run.out

    def test_no_sales(self):
        """Only the header comes out."""
        self.assertEqual(self.priced('performance,minute\n', 'performance,minute,price\n1,5,9\n', *ON),
                         'performance,minute,notice_row,notice_minute,price\n')

    def test_no_notices(self):
        """Every sale comes out without a notice."""
        self.assertEqual(self.priced('performance,minute\n,5\n1,5\n', 'performance,minute\n', *ON),
                         'performance,minute,notice_row,notice_minute\n,5,,\n1,5,,\n')

    def test_names_that_are_taken(self):
        """Columns of the same name are told apart."""
        self.assertEqual(self.priced('m,notice_row,x,notice_x\n5,a,b,c\n', 'm,x\n5,z\n', '--on', 'm'),
                         'm,notice_row,x,notice_x,notice_notice_row,notice_m,notice_notice_x\n5,a,b,c,0,5,z\n')

    def test_text_is_carried_as_it_is(self):
        """Quotes, line ends, blanks, signs and letters of any script come out as they went in."""
        self.assertEqual(self.priced('m,t\r\n +05 ,"a, ""b""\r\nc"\r\n', '\ufeffm,t\r\n4,  ü ☂ \r\n', '--on', 'm'),
                         'm,t,notice_row,notice_m,notice_t\n +05 ,"a, ""b""\r\nc",0,4,  ü ☂ \n')

    def test_numbers_are_carried_as_text(self):
        """Cells of a notice that are whole numbers come out as they came in, also those that a number would be written
        otherwise, and ones that are no number only in a later row: so the command looks them up by the notice's number."""
        cells = ['7', '007', '+7', '-0', '', ' 7 ', '9' * 30, 'seven', '0']
        sales = 'm\n' + ''.join(f'{row}\n' for row in range(len(cells)))
        notices = 'm,price\n' + ''.join(f'{row},{cell}\n' for row, cell in enumerate(cells))
        self.assertEqual(self.priced(sales, notices, '--on', 'm').splitlines()[1:],
                         [f'{row},{row},{row},{cell}' for row, cell in enumerate(cells)])

    def test_four_by_columns(self):
        """The most by-columns, in another order of columns in each file."""
        self.assertEqual(self.priced('a,b,c,d,m\n1,2,3,4,9\n1,2,3,5,9\n', 'm,d,c,b,a\n8,4,3,2,1\n9,4,3,2,1\n',
                                     '--on', 'm', *'--by a --by b --by c --by d'.split()),
                         'a,b,c,d,m,notice_row,notice_m\n1,2,3,4,9,1,9\n1,2,3,5,9,,\n')

    def test_bands(self):
        """Bands whose codes do not follow their order: stalls 30, circle 10, gods 20; and the other way round."""
        sales, notices = ['30,9', '30,12', '10,12', '20,99'], ['30,10,55', '10,10,40', '20,15,20', '20,20,25']
        priced = ['30,9,,,', '30,12,0,10,55', '10,12,1,10,40', '20,99,3,20,25']
        words = ('--on', 'minute', '--by', 'band', '--rank')
        table = lambda head, rows: '\n'.join([head, *rows, ''])
        head = 'band,minute,notice_row,notice_minute,price'
        for rank in (['band=30,10,20'], ['band= 30 ,+10, 020'], ['band=20,10,30', '--descending', 'band']):
            self.assertEqual(self.priced(table('band,minute', sales), table('band,minute,price', notices), *words, *rank), table(head, priced))
        self.assertEqual(self.priced(table('a=b,minute', sales), table('a=b,minute', ['30,1']), '--on', 'minute', '--by', 'a=b', '--rank',
                                     'a=b=30,10,20').splitlines()[1:], ['30,9,0,1', '30,12,0,1', '10,12,,', '20,99,,'])
        run = within(['join', self.file('s.csv', table('band,minute', sales)), self.file('n.csv', table('band,minute', ['30,1'])), *words,
                      'band=30,10,20', '--explain'])
        self.assertIn('order       band (in the order 30 10 20), then minute; checked\n', run.err)

    def test_a_file_with_itself(self):
        """One file may serve as both."""
        path = self.file('s.csv', 'm\n1\n1\n2\n')
        self.assertEqual(within(['join', path, path, '--on', 'm']).out, 'm,notice_row,notice_m\n1,1,1\n1,1,1\n2,2,2\n')

    def test_from_a_pipe(self):
        """A table need not be a file whose length is known."""
        sales = self.file('s.csv', 'm\n1\n2\n')
        run = apart(['join', '/dev/stdin', sales, '--on', 'm'], input=b'm\n2\n')
        self.assertEqual((run.status, run.out), (0, 'm,notice_row,notice_m\n2,1,2\n'))


class Output(Case):
    """Where the output goes."""

    def test_file(self):
        """The same as on the screen; a new file follows the umask, one that is replaced keeps its permissions."""
        out = os.path.join(self.folder, 'out.csv')
        mask = os.umask(0o027)
        self.addCleanup(os.umask, mask)
        for mode in (0o640, 0o604):
            run = within(['join', SALES, NOTICES, *ON, '--output', out])
            self.assertEqual((self.went_well(run), run.out), ([27, 30, 3, 2], ''))
            self.assertEqual((self.read(out), os.listdir(self.folder)), (self.read(PRICED), ['out.csv']))
            self.assertTrue(mode == 0o640 or stat.S_IMODE(os.stat(out).st_mode) == mode)
            os.chmod(out, 0o604)

    def test_file_stays_as_it_was(self):
        """A fault near the end of a long file leaves the old output."""
        out = self.file('out.csv', 'kept')
        rows = ''.join(f'1,{minute}\n' for minute in range(50000))
        bad = self.file('bad.csv', 'performance,minute\n' + rows + '1,x\n')
        self.refused(within(['join', bad, NOTICES, *ON, '--output', out]), 'line 50002, column minute')
        self.assertEqual((self.read(out), sorted(os.listdir(self.folder))), ('kept', ['bad.csv', 'out.csv']))

    def test_link_stays_a_link(self):
        """The file that a link leads to is replaced, not the link."""
        goal, link = self.file('goal.csv', ''), os.path.join(self.folder, 'link.csv')
        os.symlink('goal.csv', link)
        self.assertEqual(within(['join', SALES, NOTICES, *ON, '--output', link]).status, 0)
        self.assertTrue(os.path.islink(link))
        self.assertEqual(self.read(goal), self.read(PRICED))

    def test_not_over_its_input(self):
        """An input is never overwritten."""
        sales = self.file('s.csv', self.read(SALES))
        self.refused(within(['join', sales, NOTICES, *ON, '--output', sales]), 'is one of the files to be read')
        self.assertEqual(self.read(sales), self.read(SALES))

    def test_no_place_for_it(self):
        """A folder that is not there, and a folder of that name."""
        for out, said in ((os.path.join(self.folder, 'none', 'out'), 'No such file'), (self.folder, 'it is a folder')):
            self.refused(within(['join', SALES, NOTICES, *ON, '--output', out]), said)

    def test_device(self):
        """A device is written to and stays a device."""
        self.assertEqual(within(['join', SALES, NOTICES, *ON, '--output', '/dev/null']).status, 0)
        self.assertFalse(os.path.isfile('/dev/null'))
        self.refused(within(['join', SALES, NOTICES, *ON, '--output', '/dev/full']), '/dev/full: cannot be written')

    def test_full_screen(self):
        """What cannot be written is told."""
        with open('/dev/full', 'wb') as full:
            self.refused(apart(['join', SALES, NOTICES, *ON], stdout=full), 'standard output: cannot be written')


def heed_signals():
    """A program that a shell starts in the background ignores SIGINT, and so do those that it starts: this one does not."""
    signal.signal(signal.SIGINT, signal.SIG_DFL)


class Ends(Case):
    """Runs that are ended from outside."""

    def long(self):
        """A file of sales that takes a while."""
        return self.file('long.csv', 'performance,minute\n' + ''.join(f'1,{minute}\n' for minute in range(300000)))

    def test_reader_goes(self):
        """A reader that stops reading ends the run without a word."""
        run = subprocess.Popen([sys.executable, PROGRAM, 'join', self.long(), NOTICES, *ON], stdout=subprocess.PIPE,
                               stderr=subprocess.PIPE)
        self.assertTrue(run.stdout.readline().startswith(b'performance,minute,notice_row'))
        run.stdout.close()
        self.assertEqual((run.stderr.read(), run.wait()), (b'', 128 + signal.SIGPIPE))
        run.stderr.close()

    def signalled(self, number, long, out):
        """Sends a signal to a run that has begun to write; what it said, and its status."""
        run = subprocess.Popen([sys.executable, PROGRAM, 'join', long, NOTICES, *ON, '--output', out],
                               stdout=subprocess.DEVNULL, stderr=subprocess.PIPE, preexec_fn=heed_signals)
        until = time.monotonic() + 30
        while len(os.listdir(self.folder)) < 2 and time.monotonic() < until:
            time.sleep(0.005)
        run.send_signal(number)
        with run.stderr:
            return run.stderr.read(), run.wait()

    def test_signals(self):
        """Whenever it comes, the file of --output is not there, nor a part of it. A busy machine may bring it when all is written: then the
        file is whole, and another run is made."""
        long, out = self.long(), os.path.join(self.folder, 'out.csv')
        for number in (signal.SIGTERM, signal.SIGINT, signal.SIGHUP):
            for _ in range(9):
                said, status = self.signalled(number, long, out)
                if status:
                    break
                with open(out, 'rb') as file:
                    self.assertEqual(sum(1 for _ in file), 300001)
                os.remove(out)
            self.assertEqual((said, status), (b'', 128 + number))
            self.assertEqual(os.listdir(self.folder), ['long.csv'])


if __name__ == '__main__':
    unittest.main()
