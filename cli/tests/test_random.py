"""Random small tables: the command against a plain-Python join over whole tables, cut in all ways."""
import csv
import io
import os
import random
import unittest

from rowkeeper.interface import STRATEGIES

from ..feed import Feed, Held, streamed
from ..input import Input
from ..joined import Join
from ..kinds import Kinds
from ..order import Order
from ..pricing import Heights, Layout, Matching, Priced
from ..source import Source
from .command import Case, within
from .judge import in_order, matches

TABLES = int(os.environ.get('ROWKEEPER_TABLES', '1500'))

# The names of the by-columns, and the keys at the ends of the 64-bit range.
BY = ('a', 'b', 'c', 'd')
ENDS = (-2**63, -2**63 + 1, -1, 0, 2**63 - 2, 2**63 - 1)


class Tables:
    """Two sorted tables and the options of a join, at random."""

    def __init__(self, r):
        self.by = BY[:r.choice((0, 0, 1, 1, 1, 2, 3, 4))]
        self.descending = [name for name in self.by if r.random() < 0.3]
        self.nulls_last = [name for name in self.by if r.random() < 0.3]
        self.strategy = r.choice(STRATEGIES)
        self.exact = self.strategy == 'nearest' or r.random() < 0.6
        self.tolerance = r.choice((None, None, 0, 1, 3, 2**63 - 1))
        self.check = r.random() < 0.7
        self.rank = (r.choice(self.by), r.sample(range(4), 4)) if self.by and r.random() < 0.4 else None
        keys = r.choice((range(4), range(12), ENDS))
        self.sales, self.notices = (self.rows(r, keys) for _ in range(2))
        self.matches = matches(self.sales, self.notices, self.strategy, self.exact, self.tolerance)

    def rows(self, r, keys):
        """A sorted table of rows."""
        groups = r.choice((1, 2, 4))
        cell = lambda values: None if r.random() < 0.1 else r.choice(values)
        rows = [(*(cell(range(groups)) for _ in self.by), cell(keys)) for _ in range(r.randrange(r.choice((2, 8, 40))))]
        flags = ([name in names for name in self.by] for names in (self.descending, self.nulls_last))
        return in_order(rows, *flags, [self.rank[1] if self.rank and name == self.rank[0] else None for name in self.by])

    def text(self, rows, r):
        """A table as CSV: the columns in any order, and one with the row's number."""
        names = [*self.by, 'm', 'n']
        r.shuffle(names)
        out = io.StringIO(newline='')
        write = csv.writer(out, lineterminator=r.choice(('\n', '\r\n')), quoting=r.choice((csv.QUOTE_MINIMAL, csv.QUOTE_ALL)))
        write.writerow(names)
        for place, row in enumerate(rows):
            cells = dict(zip([*self.by, 'm'], row), n=f'"{place}",')
            write.writerow(['' if cells[name] is None else cells[name] for name in names])
        return out.getvalue()

    def words(self):
        """The options as the command's words."""
        words = ['--on', 'm', '--strategy', self.strategy, '--check' if self.check else '--no-check']
        words += [] if self.exact else ['--no-exact']
        words += [] if self.tolerance is None else ['--tolerance', self.tolerance]
        for option, names in (('--by', self.by), ('--descending', self.descending), ('--nulls-last', self.nulls_last)):
            for name in names:
                words += [option, name]
        if self.rank:
            words += ['--rank', f'{self.rank[0]}={",".join(map(str, self.rank[1]))}']
        return words

    def judge(self, test, text):
        """Holds the command's output to the judge's matches: each sale in its place, and its own notice beside it."""
        rows = list(csv.DictReader(io.StringIO(text, newline='')))
        show = lambda value: '' if value is None else str(value)
        test.assertEqual([row['notice_row'] for row in rows], [show(number) for number in self.matches])
        for place, (row, number) in enumerate(zip(rows, self.matches)):
            test.assertEqual([row[name] for name in self.by] + [row['m']], [show(cell) for cell in self.sales[place]])
            test.assertEqual(row['n'], f'"{place}",')
            test.assertEqual(row['notice_n'], '' if number is None else f'"{number}",')
            test.assertEqual(row['notice_m'], '' if number is None else show(self.notices[number][-1]))


class RandomTables(Case):
    """The command and its inner parts."""

    def files(self, tables, r):
        """Both tables as files."""
        return self.file('s.csv', tables.text(tables.sales, r)), self.file('n.csv', tables.text(tables.notices, r))

    def test_cut_in_small_frames(self):
        """Frames of a few rows, an area that must grow: no cutting changes a match."""
        grown = 0
        for seed in range(TABLES):
            r = random.Random(seed)
            tables = Tables(r)
            kinds = Kinds(Order(tables.by, 'm', tables.descending, tables.nulls_last, tables.rank))
            sales, notices = (Source(Input(path), [*tables.by, 'm'], kinds, tables.check) for path in self.files(tables, r))
            join = Join(kinds.order, tables.strategy, tables.exact, tables.tolerance, tables.check, right_rows=r.choice((0, 1, 5)))
            out, layout = io.BytesIO(), Layout(sales, notices)
            held, priced = Held(layout.texts), Priced(out, layout)
            heights = Heights(r.randrange(1, 6), r.choice((1, 100)), r.randrange(1, 6))
            feeds = [Feed(streamed(each, each.next(), lambda: None)) for each in (sales, notices)]
            with self.subTest(seed=seed):
                Matching(join, *feeds, held, priced.part(held), heights, r.randrange(1, 6)).run(lambda: None)
                tables.judge(self, out.getvalue().decode('utf-8'))
                self.assertEqual((priced.sales, priced.matched), (len(tables.sales), len(tables.matches) - tables.matches.count(None)))
                self.assertLessEqual(join.held, sum(block.height for block in held.blocks))
            grown += join.grown
            sales.input.close(), notices.input.close()
        self.assertGreater(grown, TABLES // 4)

    def test_command(self):
        """The whole command, with its words."""
        for seed in range(TABLES // 5):
            r = random.Random(seed)
            tables = Tables(r)
            with self.subTest(seed=seed):
                run = within(['join', *self.files(tables, r), *tables.words(), *r.choice(([], ['--stream'], ['--sort']))])
                counted = self.went_well(run)
                tables.judge(self, run.out)
                missing = tables.matches.count(None)
                self.assertEqual(counted[:3], [len(tables.matches) - missing, len(tables.matches), missing or None])

    def test_out_of_order(self):
        """Two neighbouring rows changed over: the line and the column are told, whichever file it is."""
        told = 0
        for seed in range(TABLES // 5):
            r = random.Random(seed)
            tables = Tables(r)
            side = r.choice((tables.sales, tables.notices))
            unequal = [i for i in range(len(side) - 1) if side[i] != side[i + 1]]
            if not unequal:
                continue
            i = r.choice(unequal)
            column = next(name for name, a, b in zip([*tables.by, 'm'], side[i], side[i + 1]) if a != b)
            side[i], side[i + 1] = side[i + 1], side[i]
            paths = self.files(tables, r)
            words = [word for word in tables.words() if word != '--no-check']
            with self.subTest(seed=seed):
                run = within(['join', *paths, *words])
                self.refused(run, f'{paths[side is tables.notices]}, line {i + 3}, column {column}: out of order')
            told += 1
        self.assertGreater(told, TABLES // 20)

    def test_long_tables(self):
        """Tables of many frames, with notices that most sales do not need, and sales that share few."""
        for rows in ((5000, 300), (300, 20000), (3000, 3000)):
            sales, notices = (sorted((each * 7919 % 13, each * 104729 % 100003) for each in range(count)) for count in rows)
            paths = [self.file(name, 'p,m\n' + ''.join(f'{p},{m}\n' for p, m in table))
                     for name, table in (('s.csv', sales), ('n.csv', notices))]
            run = within(['join', *paths, '--on', 'm', '--by', 'p'])
            self.went_well(run)
            found = [line.split(',')[2] for line in run.out.splitlines()[1:]]
            self.assertEqual(found, ['' if number is None else str(number) for number in walk(sales, notices)])


def walk(sales, notices):
    """Backward matches by one walk over both sorted tables, since the judge would take too long."""
    found, at = [], 0
    for sale in sales:
        while at < len(notices) and notices[at] <= sale:
            at += 1
        found.append(at - 1 if at and notices[at - 1][0] == sale[0] else None)
    return found


if __name__ == '__main__':
    unittest.main()
