"""plan: the words and bytes to lend, against a join over areas of just these words; bad input."""
import os
import random
import re
import unittest

from .command import SEASON, Case, apart, within
from .test_random import TABLES, Tables

SALES, NOTICES = (os.path.join(SEASON, f'{name}.csv') for name in ('sales', 'notices'))
ON = ('--on', 'minute', '--by', 'performance')


def told(text):
    """The numbers of each line."""
    return {line[:13].strip(): [int(each.replace(',', '')) for each in re.findall('[0-9][0-9,]*', line[13:])]
            for line in text.splitlines()}


class Plans(Case):
    """What is printed."""

    def test_season(self):
        """The season's files: one frame each."""
        run = apart(['plan', SALES, NOTICES, *ON, '--carried', '1'])
        self.assertEqual((run.status, run.err), (0, ''))
        found = told(run.out)
        rows = [len(self.read(path).splitlines()) - 1 for path in (SALES, NOTICES)]
        self.assertEqual(found, {'notices held': [rows[1]], 'turns': [2, 1], 'frames': [1, 1, 1],
                                 'left area': [2 + 4 * rows[0], 8 * (2 + 4 * rows[0])], 'right area': [6 * rows[1], 48 * rows[1]],
                                 'output': [2 + 4 * rows[0], 8 * (2 + 4 * rows[0])],
                                 'in all': [4 + 8 * rows[0] + 6 * rows[1], 8 * (4 + 8 * rows[0] + 6 * rows[1])]})

    def test_distance(self):
        """The distance is a column more of the output, and nothing else."""
        plain, distant = (told(apart(['plan', SALES, NOTICES, *ON, *more]).out) for more in ([], ['--distance']))
        rows = len(self.read(SALES).splitlines()) - 1
        self.assertEqual((plain.pop('output')[0], distant.pop('output')[0]), (2 + 2 * rows, 2 + 4 * rows))
        self.assertEqual({**plain, 'in all': 0}, {**distant, 'in all': 0})

    def test_smaller_frames(self):
        """Frames that are cut smaller hold fewer notices, and what is held never exceeds what there is."""
        held = []
        for rows in (4096, 5, 1):
            run = within(['plan', SALES, NOTICES, *ON, '--sales-frame', rows, '--notices-frame', rows])
            self.assertEqual(run.status, 0, run.err)
            held.append(told(run.out)['notices held'][0])
        self.assertEqual(held, sorted(held, reverse=True))
        self.assertLess(held[-1], held[0])

    def test_random(self):
        """Random files, sorted and in any order: the same with --sort, and the figures of a plain count."""
        for seed in range(TABLES // 20):
            r = random.Random(seed)
            tables = Tables(r)
            with self.subTest(seed=seed):
                sorted_run, any_order = self.runs(tables, r)
                self.assertEqual((sorted_run.status, any_order.status), (0, 0), sorted_run.err + any_order.err)
                self.assertEqual(sorted_run.out, any_order.out)
                found = told(sorted_run.out)
                self.assertLessEqual(found['notices held'][0], len(tables.notices))
                self.assertEqual(found['turns'][0], found['frames'][0] + found['frames'][1])

    def runs(self, tables, r):
        """The command over the tables as they are, and over the same in any order with --sort."""
        words = ['--on', 'm', '--sales-frame', r.choice((1, 3, 50)), '--notices-frame', r.choice((1, 3, 50))]
        for option, names in (('--by', tables.by), ('--descending', tables.descending), ('--nulls-last', tables.nulls_last)):
            for name in names:
                words += [option, name]
        words += ['--rank', f'{tables.rank[0]}={",".join(map(str, tables.rank[1]))}'] if tables.rank else []
        found = []
        for shuffle in (False, True):
            paths = []
            for name, rows in (('s.csv', tables.sales), ('n.csv', tables.notices)):
                rows = [row[:len(tables.by) + 1] for row in rows]
                if shuffle:
                    r.shuffle(rows)
                lines = [','.join('' if cell is None else str(cell) for cell in row) + ',x' for row in rows]
                paths.append(self.file(name, '\n'.join([','.join([*tables.by, 'm', 'x']), *lines]) + '\n'))
            found.append(within(['plan', *paths, *words, *['--sort'] * shuffle]))
        return found

    def test_output(self):
        """To a file."""
        path = os.path.join(self.folder, 'plan.txt')
        run = within(['plan', SALES, NOTICES, *ON, '-o', path])
        self.assertEqual((run.status, run.out), (0, ''))
        self.assertIn('right area', self.read(path))


class BadInput(Case):
    """One line each."""

    def test_options(self):
        """Numbers that are none or out of range, and options that are not plan's."""
        for words, said in ((['--carried', '9'], 'from 0 to 8'), (['--carried', 'x'], 'from 0 to 8'), (['--sales-frame', '0'], 'from 1 to 4,096'),
                            (['--notices-frame', '4097'], 'from 1 to 4,096'), (['--no-check'], '--no-check'), (['--stream'], '--stream'),
                            (['--strategy', 'nearest', '--no-exact'], 'does not go with')):
            with self.subTest(words):
                self.refused(within(['plan', SALES, NOTICES, *ON, *words]), said, status=2)

    def test_disorder(self):
        """A file that is not sorted, with its line."""
        path = self.file('n.csv', 'performance,minute\n2,5\n1,5\n')
        self.refused(within(['plan', SALES, path, *ON]), 'line 3')


if __name__ == '__main__':
    unittest.main()
