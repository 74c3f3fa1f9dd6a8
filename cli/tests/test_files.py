"""The files of a box office: separators, encodings, standard input, names of columns, what comes out."""
import os
import subprocess
import sys

from .command import PROGRAM, SEASON, Case, apart, plain, within

ON = ('--on', 'minute', '--by', 'performance')
SALES, NOTICES, PRICED = (os.path.join(SEASON, name) for name in ('sales.csv', 'notices.csv', 'priced.csv'))


class Files(Case):
    """What goes in."""

    def run_over(self, sales, notices, *words):
        """A run over two texts or bytes."""
        return within(['join', self.file('s.csv', sales), self.file('n.csv', notices), *words])

    def test_separators(self):
        """Semicolons and tabs are found by the header, with a note; what comes out is separated as the sales are."""
        sales, notices = 'performance{0}minute{0}seat\n1{0}5{0}"a{0}b"\n2{0}5{0}c,d\n', 'performance{0}minute{0}price\n1{0}4{0}12,50\n2{0}4{0}"1;3"\n'
        for sign, name in ((';', 'semicolons'), ('\t', 'tabs')):
            run = self.run_over(sales.format(sign), notices.replace('12,50', '"12,50"').format(','), *ON)
            price = '"1;3"' if sign == ';' else '1;3'
            self.assertEqual(run.out, 'performance{0}minute{0}seat{0}notice_row{0}notice_minute{0}price\n1{0}5{0}"a{0}b"{0}0{0}4{0}12,50\n'
                             '2{0}5{0}c,d{0}1{0}4{0}{1}\n'.format(sign, price))
            self.assertEqual(run.err, f'rowkeeper: {self.folder}/s.csv: columns are separated by {name}\n'
                             'rowkeeper: 2 of 2 sales have a notice\n')
        run = self.run_over('performance,minute\n1,5\n', notices.format(';'), *ON)
        self.assertEqual(run.out.splitlines()[1], '1,5,0,4,"12,50"')
        for words in (('--separator', ';'), ('--separator', 'semicolon')):
            self.went_well(self.run_over(sales.format(';'), notices.format(';'), *ON, *words))
        self.went_well(self.run_over(sales.format('\t'), notices.format('\t'), *ON, '--separator', 'tab'))
        self.went_well(self.run_over(sales.format('|'), notices.format('|'), *ON, '--separator', '|'))
        self.refused(self.run_over(sales.format(';'), notices.format(';'), *ON, '--separator', ','), 's.csv, line 1, column performance: there is '
                     'no such column; the columns are performance;minute;seat')
        self.refused(self.run_over(sales.format('|'), notices.format('|'), *ON), 'there is no such column')

    def test_header_in_quotes(self):
        """Names in quotes with semicolons or tabs between them cannot be read by commas, and are read by these."""
        for sign in ';\t':
            run = self.run_over('"performance"{0}"minute"\n"1"{0}"5"\n'.format(sign), '"performance"{0}"minute"\n"1"{0}"4"\n'.format(sign), *ON)
            self.assertEqual((run.status, run.out.splitlines()[1:]), (0, ['"1"{0}"5"{0}0{0}"4"'.format(sign)]), run.err)
        self.refused(self.run_over('"performance"|"minute"\n', 'performance,minute\n', *ON), 's.csv, line 1: the line cannot be read as CSV')

    def test_groups_in_quotes(self):
        """A notice's by-cell with a separator or a quote in it is cut off as a whole, wherever it stands."""
        for sales, notices in (('p,m\n"a,b",5\n', 'p,m,x\n"a,b",4,"c,d"\n'), ('p,m\n"a,b",5\n', 'm,x,p\n4,"c,d","a,b"\n'),
                               ('p,m\n"a""b",5\n', 'p,m,x\n"a""b",4,"c,d"\n'), ('p,m\na,5\n', 'p,m,x\n"a",4,"c,d"\n')):
            for words in ((), ('--sort',)):
                run = self.run_over(sales, notices, '--on', 'm', '--by', 'p', *words)
                self.went_well(run)
                self.assertEqual(run.out, f'p,m,notice_row,notice_m,x\n{sales.splitlines()[1]},0,4,"c,d"\n')

    def test_quotes_kept(self):
        """A notice's cells come out with the quotes that they came with, whatever stands in the rows beside them; with others where
        the sales have another separator."""
        sales, beside = 'p,m\n1,5\n2,5\n', ('', '2,4,y\n', '"2",4,y\n', '2,4,"y\nz"\n', '2,4,"y\r\nz"\n\n')
        for last in beside:
            for words in ((), ('--sort',), ('--stream',)):
                run = self.run_over(sales, 'p,m,x\n1,4,"c"\n' + last, '--on', 'm', '--by', 'p', *words)
                self.assertEqual((run.status, run.out.splitlines()[1:2]), (0, ['1,5,0,4,"c"']), run.err)
        run = self.run_over(sales, 'm,x,p\n"4","","1"\n', '--on', 'm', '--by', 'p')
        self.assertEqual((run.status, run.out.splitlines()[1:2]), (0, ['1,5,0,"4",""']), run.err)
        run = self.run_over(sales.replace(',', ';'), 'p,m,x\n1,4,"c"\n2,4,"d;e"\n', '--on', 'm', '--by', 'p')
        self.assertEqual((run.status, run.out.splitlines()[1:]), (0, ['1;5;0;4;c', '2;5;1;4;"d;e"']), run.err)

    def test_encodings(self):
        """cp1252 by name, UTF-16 by its mark; a mark of the sales is kept, one of the notices is not carried."""
        sales, notices, mark = 'm,Käufer\n5,Brückner €\n', 'm,Grund\n4,früh\n', b'\xef\xbb\xbf'
        wanted = 'm,Käufer,notice_row,notice_m,Grund\n5,Brückner €,0,4,früh\n'.encode()
        cases = [((sales.encode(), notices.encode()), (), wanted), ((mark + sales.encode(), notices.encode()), (), mark + wanted),
                 ((sales.encode(), mark + notices.encode()), (), wanted),
                 ((sales.encode('cp1252'), notices.encode('cp1252')), ('--encoding', 'cp1252'), mark + wanted),
                 ((mark + sales.encode(), notices.encode('cp1252')), ('--encoding', 'windows-1252'), mark + wanted)]
        for order, sign in (('le', b'\xff\xfe'), ('be', b'\xfe\xff')):
            cases.append(((sign + sales.encode(f'utf-16-{order}'), notices.encode()), (), mark + wanted))
            cases.append(((sales.encode(), sign + notices.encode(f'utf-16-{order}')), (), wanted))
        for files, words, out in cases:
            for more in ((), ('--stream',), ('--sort',)):
                run = self.run_over(*files, '--on', 'm', *words, *more)
                self.went_well(run)
                self.assertEqual(run.out.encode(), out)

    def test_bad_encodings(self):
        """Text that is not in its encoding, and an encoding that there is not."""
        good = 'm\n5\n'
        self.refused(self.run_over('m,x\n5,ü\n'.encode('cp1252'), good, '--on', 'm'), 's.csv, line 2: byte 3 of the line is not UTF-8 text')
        self.refused(self.run_over(b'\xff\xfem\x00\n\x00\x00\xd8', good, '--on', 'm'), 's.csv, line 2: the line is not text in the '
                     'encoding utf-16-le')
        self.refused(self.run_over('m\n5\n'.encode('utf-16-le'), good, '--on', 'm'), 's.csv, line 1: the line reads as UTF-16: add --left-encoding utf-16-le')
        self.refused(self.run_over(b'm,x\n5,abcdef\0\n', good, '--on', 'm'), 's.csv, line 2: there is a NUL character')
        self.refused(self.run_over(b'm,x\n5,\x80\n6,\x81\n', good, '--on', 'm', '--encoding', 'cp1252'), 's.csv, line 3: the line is not '
                     'text in the encoding cp1252')
        for name in ('klingon', 'base64', ''):
            self.refused(self.run_over(good, good, '--on', 'm', '--encoding', name), '--encoding: ', 2)

    def test_standard_input(self):
        """As the sales and as the notices, from a pipe and from a file; not as both."""
        for path in (SALES, NOTICES):
            words = ['join', *('-' if each == path else each for each in (SALES, NOTICES)), *ON]
            with open(path, 'rb') as file:
                run = apart(words, input=file.read())
                self.assertEqual((self.went_well(run), run.out), ([27, 30, 3, 2], self.read(PRICED)))
                file.seek(0)
                self.assertEqual(apart(words, stdin=file).out, self.read(PRICED))
        self.refused(within(['join', '-', '-', *ON]), 'not both', 2)

    def test_names(self):
        """Columns that the files name differently; messages name them as their file does."""
        sales, notices = 'show,sold_at\n1,5\n1,9\n', 'valid_from,performance,price\n4,1,100\n'
        words = ('--left-on', 'sold_at', '--right-on', 'valid_from', '--left-by', 'show', '--right-by', 'performance')
        run = self.run_over(sales, notices, *words)
        self.assertEqual(run.out, 'show,sold_at,notice_row,valid_from,price\n1,5,0,4,100\n1,9,0,4,100\n')
        self.refused(self.run_over(sales, notices + '3,1,90\n', *words), 'n.csv, line 3, column valid_from: out of order: 3 comes after 4 of '
                     'line 2; rows must be sorted by performance, then valid_from, or add --sort')
        for words, said in ((('--left-on', 'a'), '--left-on, --right-on: 1 and 0 columns'), (('--on', 'a', '--left-on', 'b'), '--on: does not go'),
                            (('--on', 'a', '--left-by', 'b'), '--left-by, --right-by: 1 and 0 columns'),
                            (('--on', 'a', '--by', 'b', '--left-by', 'c', '--right-by', 'd'), '--by: does not go with --left-by'),
                            (('--left-on', 'a', '--right-on', 'b', '--left-by', 'a', '--right-by', 'c'), 'column a is named twice')):
            self.refused(self.run_over(sales, notices, *words), said, 2)

    def test_changed_while_it_is_read(self):
        """A file that is another one at the second reading is told, and no file of --output appears."""
        path = self.file('s.csv', 'm\n' + ''.join(f'{minute}\n' for minute in range(200000)))
        change = ('import sys, os; sys.path.insert(0, sys.argv[1]); import cli.join as join; judged = join.Pricing.judged\n'
                  'def changed(self):\n    tables = judged(self)\n    with open(sys.argv[3], "r+b") as file:\n        file.seek(900000)\n'
                  '        file.write(b"7")\n    return tables\n'
                  'join.Pricing.judged = changed\nfrom cli.main import main\nsys.exit(main(sys.argv[2:]))')
        ran = subprocess.run([sys.executable, '-c', change, os.path.dirname(PROGRAM), 'join', path, path, '--on', 'm', '-o', f'{path}.out'],
                             stdout=subprocess.PIPE, stderr=subprocess.PIPE)
        self.assertEqual((ran.returncode, ran.stderr.decode()), (1, f'rowkeeper: {path}: the file was changed while it was read\n'))
        self.assertEqual(os.listdir(self.folder), ['s.csv'])


class ComesOut(Case):
    """What comes out."""

    def join(self, *words):
        """The season, joined."""
        return within(['join', SALES, NOTICES, *ON, *words])

    def test_columns(self):
        """The columns that are named, in their order, and none else; one that is not there is told."""
        run = self.join('--columns', 'reason,price')
        self.assertEqual(run.out.splitlines()[0], 'performance,minute,seat,buyer,notice_row,reason,price')
        self.assertEqual(run.out.splitlines()[10], '1,9200,B2,Hanley,2,"nearly full, last rows",2600')
        self.assertEqual(self.join('--columns', 'performance').out.splitlines()[2], '1,5,A1,Adler,0,1')
        self.assertEqual(self.join('--columns', 'price', '--sort').out, self.join('--columns', 'price').out)
        self.refused(self.join('--columns', 'cost'), 'notices.csv, line 1, column cost: there is no such column')
        self.refused(self.join('--columns', 'price,'), 'there is an empty name', 2)

    def test_prefix(self):
        """It is in front of the notice's number and of names that are taken."""
        run = self.join('--prefix', 'n.')
        self.assertEqual(run.out.splitlines()[0], 'performance,minute,seat,buyer,n.row,n.minute,price,reason')
        self.refused(self.join('--prefix', ''), '--prefix', 2)

    def test_matched_only(self):
        """Sales without a notice are left out, and counted still."""
        for words in ((), ('--sort',), ('--stream',)):
            run = self.join('--matched-only', *words)
            self.assertEqual(self.went_well(run), [27, 30, 3, 2])
            self.assertEqual(run.out.splitlines(), [line for line in self.read(PRICED).splitlines() if not line.endswith(',,,,')])
        lonely = self.file('lonely.csv', 'performance,minute\n9,9\n')
        run = within(['join', lonely, NOTICES, *ON, '--matched-only'])
        self.assertEqual((self.went_well(run), run.out.count('\n')), ([0, 1, 1, 2], 1))

    def test_fail_unmatched(self):
        """Status 4, the same line, and nothing is written; with all matched, everything is."""
        out, said = os.path.join(self.folder, 'o.csv'), '27 of 30 sales have a notice; 3 have none, the first in line 2'
        self.refused(self.join('--fail-unmatched'), said, 4)
        self.refused(self.join('--fail-unmatched', '--sort'), said, 4)
        self.refused(self.join('--fail-unmatched', '-o', out), said, 4)
        self.assertEqual(os.listdir(self.folder), [])
        run = self.join('--fail-unmatched', '--stream')
        self.assertEqual((run.status, run.out), (4, self.read(PRICED)))
        sales = self.file('s.csv', 'performance,minute\n1,5\n')
        run = within(['join', sales, NOTICES, *ON, '--fail-unmatched'])
        self.assertEqual((self.went_well(run), run.out.splitlines()[1]), ([1, 1, None, None], '1,5,0,0,1800,early'))
        self.refused(self.join('--fail-unmatched', '--matched-only'), 'does not go with', 2)

    def test_counted(self):
        """The line at the end, of none, one and several."""
        for sales, said in (('', '0 of 0 sales have a notice'), ('1,5\n', '1 of 1 sale has a notice'),
                            ('1,5\n9,9\n', '1 of 2 sales has a notice; 1 has none, it is in line 3'),
                            ('9,9\n', '0 of 1 sale has a notice; 1 has none, it is in line 2'),
                            ('"1",5\n8,8\n9,9\n', '1 of 3 sales has a notice; 2 have none, the first in line 3')):
            run = within(['join', self.file('s.csv', 'performance,minute\n' + sales), NOTICES, *ON])
            self.assertEqual(plain(run.err), f'rowkeeper: {said}\n')
