"""merge and standing: random books against plain readings of them, files of every form, bad input."""
import contextlib
import csv
import io
import os
import random
import subprocess
import sys
import unittest
from unittest import mock

import rowkeeper

from ..build import ROOT
from .command import PROGRAM, SEASON, Case, apart, within
from .judge import in_order
from .test_random import TABLES, Tables

ON = ('--on', 'minute', '--by', 'performance')
NOTICES, FESTIVAL, BOOK, CORRECTIONS, STANDING = (
    os.path.join(SEASON, f'{name}.csv') for name in ('notices', 'festival', 'book', 'corrections', 'standing'))


class Books(Tables):
    """Two sorted books, or two in any order, with columns in one order or in two."""

    def __init__(self, r):
        super().__init__(r)
        self.sort, self.names = r.random() < 0.4, [*self.by, 'm', 'w', 'n']
        r.shuffle(self.names)
        self.flags = ([name in names for name in self.by] for names in (self.descending, self.nulls_last))
        self.flags = [*self.flags, [self.rank[1] if self.rank and name == self.rank[0] else None for name in self.by]]
        self.books = [[(*row, r.choice(('', '0', '1', ' 1')), f'{book}, {place}') for place, row in enumerate(rows)]
                      for book, rows in (('house', self.sales), ('festival', self.notices))]
        if self.sort:
            for book in self.books:
                r.shuffle(book)

    def book_text(self, rows, names, r):
        """A book as CSV, with these columns; none of its rows has more than one line."""
        out = io.StringIO(newline='')
        write = csv.writer(out, lineterminator='\n', quoting=r.choice((csv.QUOTE_MINIMAL, csv.QUOTE_ALL)))
        write.writerow(names)
        for row in rows:
            cells = dict(zip([*self.by, 'm', 'w', 'n'], row))
            write.writerow(['' if cells[name] is None else cells[name] for name in names])
        return out.getvalue()

    def options(self):
        """How the books are sorted, as the command's words."""
        words = ['--on', 'm', *['--sort'] * self.sort]
        for option, names in (('--by', self.by), ('--descending', self.descending), ('--nulls-last', self.nulls_last)):
            for name in names:
                words += [option, name]
        return words + (['--rank', f'{self.rank[0]}={",".join(map(str, self.rank[1]))}'] if self.rank else [])

    def last_lines(self):
        """For each row of the house whether it stands, and the line of the last row of its group and key, by a dictionary."""
        rows, width, found = self.books[0], len(self.by) + 1, []
        last = {row[:width]: number for number, row in enumerate(rows)}
        for number, row in enumerate(rows):
            if None in row[:width]:
                found.append(('no', ''))
            elif last[row[:width]] == number and row[width].strip() != '1':
                found.append(('yes', ''))
            else:
                found.append(('no', str(last[row[:width]] + 2)))
        return found


class RandomBooks(Case):
    """The commands over random books."""

    def test_merge(self):
        """Every row of both, sorted, equal ones in the order of their books and the house's first, as text where the columns are alike."""
        rows = 0
        for seed in range(TABLES // 5):
            r = random.Random(seed)
            books, alike = Books(r), r.random() < 0.6
            names = books.names if alike else r.sample(books.names, len(books.names))
            texts = [books.book_text(book, each, r) for book, each in zip(books.books, (books.names, names))]
            paths = [self.file(name, text) for name, text in zip(('h.csv', 'f.csv'), texts)]
            wanted = in_order([*books.books[0], *books.books[1]], *books.flags)
            with self.subTest(seed=seed):
                run = within(['merge', *paths, *books.options()])
                counts = [len(book) for book in books.books]
                self.assertEqual((run.status, run.err), (0, f'rowkeeper: {len(wanted)} notice{"s" * (len(wanted) != 1)}: '
                                                         f'{counts[0]} of {paths[0]}, {counts[1]} of {paths[1]}\n'))
                found = list(csv.DictReader(io.StringIO(run.out, newline='')))
                self.assertEqual([row['n'] for row in found], [row[-1] for row in wanted])
                self.assertEqual([[row[name] for name in (*books.by, 'm', 'w')] for row in found],
                                 [['' if cell is None else str(cell) for cell in row[:-1]] for row in wanted])
                lines = {row[-1]: line for book, text in zip(books.books, texts) for row, line in zip(book, text.splitlines()[1:])}
                if alike:
                    self.assertEqual(run.out.splitlines()[1:], [lines[row[-1]] for row in wanted])
            rows += len(wanted)
        self.assertGreater(rows, TABLES)

    def test_standing(self):
        """The notices that stand as they came in; with --all each notice, whether it stands and by which line it is corrected."""
        stood = corrected = 0
        for seed in range(TABLES // 5):
            r = random.Random(seed)
            books = Books(r)
            text = books.book_text(books.books[0], books.names, r)
            path, lines, wanted = self.file('h.csv', text), text.splitlines(), books.last_lines()
            with self.subTest(seed=seed):
                run = within(['standing', path, *books.options(), '--withdrawn', 'w'])
                self.assertEqual(run.status, 0, run.err)
                self.assertEqual(run.out.splitlines()[1:], [line for line, (stands, _) in zip(lines[1:], wanted) if stands == 'yes'])
                run = within(['standing', path, *books.options(), '--withdrawn', 'w', '--all'])
                self.assertEqual(run.out.splitlines()[1:], [f'{line},{stands},{last}' for line, (stands, last) in zip(lines[1:], wanted)])
            stood, corrected = stood + sum(each[0] == 'yes' for each in wanted), corrected + sum(each[1] != '' for each in wanted)
        self.assertGreater(min(stood, corrected), TABLES // 5)

    def test_long_books(self):
        """Books of many blocks, sorted and in any order."""
        books = [sorted((each * step % 13, each * step % 10007) for each in range(30000)) for step in (7919, 7907)]
        wanted = ''.join(f'{p},{m},{book}\n' for p, m, book in sorted((*row, book) for book in (0, 1) for row in books[book]))
        for more in ([], ['--sort']):
            paths = []
            for book, rows in enumerate(books):
                if more:
                    random.Random(book).shuffle(rows)
                paths.append(self.file(f'{book}.csv', 'p,m,b\n' + ''.join(f'{p},{m},{book}\n' for p, m in rows)))
            run = within(['merge', *paths, '--on', 'm', '--by', 'p', *more])
            self.assertEqual((run.status, run.out), (0, 'p,m,b\n' + wanted))
            self.assertIn('60,000 notices: 30,000 of ', run.err)


# The command, which prints at its end the most memory that it had, in KB.
MEASURED = '''
import os, re, sys
sys.path.insert(0, sys.argv[1])
from cli.main import command
command(sys.argv[2:])
with open('/proc/self/status', encoding='ascii') as file:
    print(re.search('VmHWM: *\\t* *([0-9]+) kB', file.read()).group(1))
'''


class Parts(Case):
    """Books handed in part by part, and the same books whole."""

    @contextlib.contextmanager
    def parts_of(self, rows, heights, size=1 << 15):
        """Has parts of so many rows of a book, and blocks of so many bytes; the rows of each book of each call go to `heights`."""
        def counted(call):
            """A call that is counted; words that are not a number are those of a book."""
            def count(*given, **how):
                """Counts, and calls."""
                heights.append([words[0] for words in given if not isinstance(words, int)])
                return call(*given, **how)
            return count

        with mock.patch('cli.books.PART', rows), mock.patch('cli.records.FIRST_BYTES', size), mock.patch('cli.records.FEWEST_BYTES', 1), \
                mock.patch('cli.records.MOST_BYTES', size), mock.patch.object(rowkeeper, 'merge', counted(rowkeeper.merge)), \
                mock.patch.object(rowkeeper, 'standing', counted(rowkeeper.standing)):
            yield

    def test_against_the_whole(self):
        """Parts of 1, 2 and 3 rows, and blocks of a row each, give what one call gives, byte for byte: random books with nulls, equal rows
        and withdrawn ones, in every order."""
        whole, cut = [], []
        for seed in range(TABLES // 15):
            r = random.Random(seed)
            books = Books(r)
            paths = [self.file(name, books.book_text(book, books.names, r)) for name, book in zip(('h.csv', 'f.csv'), books.books)]
            for words in (['merge', *paths], ['standing', paths[0], '--withdrawn', 'w', '--all'], ['standing', paths[1]]):
                with self.parts_of(10**6, whole):
                    wanted = within([*words, *books.options()])
                self.assertEqual(wanted.status, 0, wanted.err)
                for rows, size in ((1, 1), (1, 1 << 15), (2, 1 << 15), (3, 1 << 15)):
                    with self.subTest(seed=seed, words=words[0], rows=rows), self.parts_of(rows, cut, size):
                        run = within([*words, *books.options()])
                    self.assertEqual((run.status, run.out, run.err), (0, wanted.out, wanted.err))
        self.assertEqual(4 * sum(map(sum, whole)), sum(map(sum, cut)))
        self.assertGreater(len(cut), 12 * len(whole))

    def test_equal_rows(self):
        """Where all rows are equal, those of a merge are cut all the same, the house's first; of standing notices they are one part, but those
        without a minute are cut."""
        same = self.file('same.csv', 'm,n\n' + ''.join(f'7,{number}\n' for number in range(20)))
        none = self.file('none.csv', 'm,n\n' + ''.join(f',{number}\n' for number in range(20)))
        heights = []
        with self.parts_of(3, heights):
            run = within(['merge', same, same, '--on', 'm'])
        self.assertEqual(run.out, 'm,n\n' + ''.join(f'7,{number}\n' for number in range(20)) * 2)
        self.assertEqual((sum(map(sum, heights)), max(map(max, heights))), (40, 3))
        for path, height in ((same, [20]), (none, [3] * 6 + [2])):
            del heights[:]
            with self.parts_of(3, heights):
                run = within(['standing', path, '--on', 'm', '--all'])
            self.assertEqual([height for height, in heights], height)
            self.assertEqual(run.err, f'rowkeeper: {int(path == same)} of 20 notices stand{"s" * (path == same)}; '
                             f'{20 - int(path == same)} do not, the first in line 2\n')

    def test_order_over_parts(self):
        """A row that is out of order at the first place of a part, or of a block, is told, and nothing is written."""
        good = self.file('good.csv', 'm\n' + ''.join(f'{number}\n' for number in range(12)))
        for place in range(1, 12):
            rows = [*range(place), place - 2, *range(place, 12)]
            path = self.file('falls.csv', 'm\n' + ''.join(f'{number}\n' for number in rows))
            for words in (['merge', good, path], ['merge', path, good], ['standing', path]):
                with self.parts_of(3, [], 6):
                    self.refused(within([*words, '--on', 'm']), f'{path}, line {place + 2}, column m: out of order: {place - 2} comes after')

    def test_flags_before_rows(self):
        """A cell of --withdrawn in the last row that is no flag is told before the first row is written."""
        path = self.file('n.csv', 'm,w\n' + ''.join(f'{number},\n' for number in range(9999)) + '9999,x\n')
        for more in ([], ['--sort'], ['--all']):
            self.refused(apart(['standing', path, '--on', 'm', '--withdrawn', 'w', *more]), f"{path}, line 10001, column w: 'x' is neither")

    def test_memory(self):
        """It does not go by the rows: ten times as many take no more than what is sorted at once."""
        r, paths = random.Random(1), []
        for rows in (15000, 150000):
            lines = sorted((r.randrange(50), r.randrange(rows // 50), number) for number in range(rows))
            for sort in (False, True):
                r.shuffle(lines) if sort else None
                paths.append(self.file(f'{rows}{sort}.csv', 'p,m,n\n' + ''.join(f'{p:03},{m},"notice {n}"\n' for p, m, n in lines)))
        for few, many, more, limit in ((paths[0], paths[2], [], 6000), (paths[1], paths[3], ['--sort'], 18000)):
            for words in (['merge', None, None], ['standing', None, '--all'], ['standing', None]):
                peaks = []
                for path in (few, many):
                    run = [path if word is None else word for word in words] + ['--on', 'm', '--by', 'p', '-o', os.devnull, *more]
                    ran = subprocess.run([sys.executable, '-c', MEASURED, ROOT, *run], stdout=subprocess.PIPE, stderr=subprocess.PIPE)
                    peaks.append(int(ran.stdout))
                self.assertLess(peaks[1] - peaks[0], limit, words + more)


class Season(Case):
    """The books of examples/season."""

    def test_merge(self):
        """The output is the file beside them."""
        run = apart(['merge', NOTICES, FESTIVAL, *ON])
        self.assertEqual((run.status, run.out), (0, self.read(BOOK)))

    def test_standing(self):
        """The output is the file beside it, and its lines are among those of the book."""
        run = apart(['standing', CORRECTIONS, *ON, '--withdrawn', 'withdrawn'])
        self.assertEqual((run.status, run.out), (0, self.read(STANDING)))
        self.assertEqual(run.err, 'rowkeeper: 5 of 11 notices stand; 6 do not, the first in line 3\n')

    def test_nothing_withdraws(self):
        """Without --withdrawn the last of each minute stands whatever its cells are."""
        run = within(['standing', CORRECTIONS, *ON])
        self.assertEqual(run.out.splitlines()[5], '2,4320,1900,1,announced by mistake')
        self.assertEqual(run.err, 'rowkeeper: 6 of 11 notices stand; 5 do not, the first in line 3\n')

    def test_merged_book_prices_sales(self):
        """A merged book is one that `join` takes."""
        book = os.path.join(self.folder, 'book.csv')
        self.assertEqual(within(['merge', NOTICES, FESTIVAL, *ON, '-o', book]).out, '')
        run = within(['join', os.path.join(SEASON, 'sales.csv'), book, *ON])
        self.assertEqual(self.went_well(run)[:2], [28, 30])


class Forms(Case):
    """Files as box offices have them."""

    def test_times_texts_separators(self):
        """Times, text groups and a list of them; the festival's semicolons and order of columns become the house's."""
        house = self.file('h.csv', 'play,from,price\nLear,2026-01-05,"18,00"\nHamlet,2026-01-01 19:30,20\n')
        festival = self.file('f.csv', 'from;price;play\n2026-01-05 00:00;"a;b";Lear\n2026-01-02;5,50;Hamlet\n')
        run = within(['merge', house, festival, '--on', 'from', '--by', 'play', '--rank', 'play=Lear,Hamlet'])
        self.assertEqual((run.status, run.out), (0, 'play,from,price\nLear,2026-01-05,"18,00"\nLear,2026-01-05 00:00,a;b\n'
                                                 'Hamlet,2026-01-01 19:30,20\nHamlet,2026-01-02,"5,50"\n'))
        self.assertIn('columns are separated by semicolons\n', run.err)

    def test_text_as_it_came(self):
        """Quotes, blanks, line ends in cells and blank lines: rows come out as they came, and lines are those of an editor."""
        path = self.file('n.csv', 'm,text\r\n1,"a\nb"\r\n\r\n 1 ,"c"\r\n2,d "e\r\n')
        run = within(['standing', path, '--on', 'm', '--all'])
        self.assertEqual(run.out, 'm,text,stands,last_line\n1,"a\nb",no,5\n 1 ,"c",yes,\n2,d "e,yes,\n')
        run = within(['merge', path, self.file('f.csv', 'm,text\n1,"x"\n'), '--on', 'm'])
        self.assertEqual(run.out, 'm,text\n1,"a\nb"\n 1 ,"c"\n1,"x"\n2,d "e\n')

    def test_encodings(self):
        """UTF-16 by its mark and another encoding by its name come out as UTF-8 with a mark."""
        for data, more in (('m,t\n1,é\n'.encode('utf-16'), []), ('m,t\n1,é\n'.encode('cp1252'), ['--encoding', 'cp1252'])):
            run = within(['standing', self.file('n.csv', data), '--on', 'm', *more])
            self.assertEqual((run.status, run.out), (0, '\ufeffm,t\n1,é\n'))

    def test_names_that_are_taken(self):
        """A column of the book that has the name of one of the new ones."""
        path = self.file('n.csv', 'm,stands\n1,x\n')
        self.assertEqual(within(['standing', path, '--on', 'm', '--all']).out, 'm,stands,notice_stands,last_line\n1,x,yes,\n')

    def test_no_rows(self):
        """Books without a row, one or both."""
        none, one = self.file('none.csv', 'm,t\n'), self.file('one.csv', 'm,t\n1,a\n')
        for paths, out in (((none, none), ''), ((one, none), '1,a\n'), ((none, one), '1,a\n')):
            for more in ([], ['--sort']):
                run = within(['merge', *paths, '--on', 'm', *more])
                self.assertEqual((run.status, run.out), (0, 'm,t\n' + out))
        for more in ([], ['--sort'], ['--all']):
            run = within(['standing', none, '--on', 'm', *more])
            self.assertEqual((run.status, run.err), (0, 'rowkeeper: 0 of 0 notices stand\n'))

    def test_standard_input(self):
        """A book from a pipe."""
        with open(CORRECTIONS, 'rb') as book:
            ran = subprocess.run([sys.executable, PROGRAM, 'standing', '-', *ON, '--withdrawn', 'withdrawn'], input=book.read(),
                                 stdout=subprocess.PIPE, stderr=subprocess.PIPE)
        self.assertEqual((ran.returncode, ran.stdout.decode('utf-8')), (0, self.read(STANDING)))


class Faults(Case):
    """What is wrong is told in one line, and nothing is written."""

    def test_files(self):
        """Rows out of order, other columns, a missing one, cells that are none, in either file."""
        good, falls = self.file('good.csv', 'm,w\n1,0\n2,1\n'), self.file('falls.csv', 'm,w\n2,0\n1,0\n')
        other, short = self.file('other.csv', 'm,v\n1,0\n'), self.file('short.csv', 'm,w\n1\n')
        yes, late = self.file('yes.csv', 'm,w\n1,0\n2,yes\n'), self.file('late.csv', 'm,w\n1,0\n2026-01-01,0\n')
        for words, said in ((['merge', good, falls], f'{falls}, line 3, column m: out of order: 1 comes after 2 of line 2; '),
                            (['merge', falls, good], f'{falls}, line 3, column m: out of order'),
                            (['merge', good, other], f'{other}, line 1: the columns are not those of {good}: m, v in place of m, w'),
                            (['merge', good, short], f'{short}, line 2: columns: 1, but the header names 2'),
                            (['merge', good, late], f'{late}, line 3, column m'),
                            (['merge', good, 'none.csv'], 'none.csv: cannot be read'),
                            (['standing', falls], f'{falls}, line 3, column m: out of order'),
                            (['standing', yes, '--withdrawn', 'w'], f"{yes}, line 3, column w: 'yes' is neither 1, which withdraws, nor 0, nor"),
                            (['standing', good, '--withdrawn', 'v'], f'{good}, line 1, column v: there is no such column'),
                            (['standing', good, '--by', 'p'], f'{good}, line 1, column p: there is no such column')):
            with self.subTest(said):
                out = os.path.join(self.folder, 'out.csv')
                self.refused(within([*words, '--on', 'm', '-o', out]), said)
                self.assertFalse(os.path.exists(out))
        self.refused(within(['merge', good, falls, '--on', 'm', '-o', good]), 'is one of the files to be read')

    def test_unknown_code(self):
        """A text that is not on the list."""
        path = self.file('n.csv', 'band,m\nstalls,1\ngods,1\n')
        words = [path, '--on', 'm', '--by', 'band', '--rank', 'band=stalls,circle']
        for run in (within(['standing', *words]), within(['merge', path, *words])):
            self.refused(run, f"{path}, line 3, column band: 'gods' is not among the codes of --rank")

    def test_words(self):
        """Options that the commands do not have or that are missing."""
        for words, said in ((['merge', 'a', 'b'], '--on: say which column is compared'),
                            (['merge', '-', '-', '--on', 'm'], 'standard input can be one of the two files'),
                            (['merge', 'a', 'b', '--on', 'm', '--no-check'], '--no-check'),
                            (['merge', 'a', 'b', '--on', 'm', '--withdrawn', 'w'], '--withdrawn'),
                            (['standing', 'a', '--on', 'm', '--left-on', 'm'], '--left-on'),
                            (['standing', 'a', '--on', 'm', '--withdrawn', 'v', '--withdrawn', 'w'], 'is said twice'),
                            (['standing', 'a', '--on', 'm', '--rank', 'm=1'], '--rank: m is not a --by column')):
            with self.subTest(said):
                self.refused(within(words), said, 2)


if __name__ == '__main__':
    unittest.main()
