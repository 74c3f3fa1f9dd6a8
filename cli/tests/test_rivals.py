"""A rival's notices do not move a company's matches: two seasons that differ in other performances' notices alone."""
import csv
import io
import os
import random

from .command import SEASON, Case, within

ON = ('--on', 'minute', '--by', 'performance')
SALES, NOTICES = (os.path.join(SEASON, name) for name in ('sales.csv', 'notices.csv'))


def rows(text):
    """A CSV text's rows, without its header."""
    return list(csv.reader(io.StringIO(text)))[1:]


def text(table):
    """Notices as a CSV text."""
    out = io.StringIO()
    csv.writer(out, lineterminator='\n').writerows([['performance', 'minute', 'price', 'reason'], *table])
    return out.getvalue()


def rivals(rng, others):
    """Random notices of other performances."""
    found = []
    for performance in others:
        minutes = sorted(rng.randrange(12000) for _ in range(rng.randrange(6)))
        found += [[str(performance), str(minute), str(rng.randrange(5000)), 'rival'] for minute in minutes]
    return found


class Rivals(Case):
    """Each performance of the season, with its own notices kept and all others made anew."""

    def priced(self, name, table):
        """The sales priced by these notices: for each performance its rows, each notice by its place among its own."""
        run = within(['join', SALES, self.file(name, text(table)), *ON, *self.strategy])
        self.went_well(run)
        found = {}
        for row in rows(run.out):
            own = [number for number, notice in enumerate(table) if notice[0] == row[0]]
            place = own.index(int(row[4])) if row[4] else None
            found.setdefault(row[0], []).append(row[:4] + [place] + row[5:])
        return found

    def test_rivals(self):
        """What a performance's sales get stays, to the cell; right numbers alone move with the rivals' rows."""
        season = rows(self.read(NOTICES))
        moved = 0
        for self.strategy in ((), ('--strategy', 'forward'), ('--strategy', 'nearest')):
            before = self.priced('before.csv', season)
            for seed, own in enumerate(('1', '2', '3')):
                table = [row for row in season if row[0] == own] + rivals(random.Random(seed), {'0', '1', '2', '3', '4'} - {own})
                table.sort(key=lambda row: int(row[0]))
                after = self.priced('after.csv', table)
                self.assertEqual(after[own], before[own])
                moved += sum(after[other] != before[other] for other in before if other != own)
        self.assertGreater(moved, 0)
