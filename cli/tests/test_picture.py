"""The picture, by what stands in it."""
import os
import re
import xml.etree.ElementTree as tree

from ..build import ROOT
from .command import SEASON, Case, within

SALES, NOTICES = (os.path.join(SEASON, name) for name in ('sales.csv', 'notices.csv'))
ON = ('--on', 'minute', '--by', 'performance', '--price', 'price')
SVG = '{http://www.w3.org/2000/svg}'


class Pictures(Case):
    """Pictures of the season and of other files."""

    def drawn(self, run):
        """The circles of a picture, each where it stands and whether it is filled, and all its texts."""
        self.went_well(run)
        top = tree.fromstring(run.out)
        circles = [(float(each.get('cx')), float(each.get('cy')), each.get('fill') != '#fff') for each in top.iter(f'{SVG}circle')]
        return circles, [each.text for each in top.iter(f'{SVG}text')]

    def test_season(self):
        """The picture of the first page is that of its season: a point for each sale, hollow where it has no notice."""
        run = within(['picture', SALES, NOTICES, *ON])
        self.assertEqual(run.out, self.read(os.path.join(ROOT, 'docs', 'season.svg')))
        circles, texts = self.drawn(run)
        self.assertEqual((len(circles), sum(filled for _, _, filled in circles)), (30, 27))
        for said in ('performance 1', 'performance 4', '1800', '×', '1700', 'no notices', '10,000'):
            self.assertIn(said, texts)

    def test_times(self):
        """Times, text and prices with a comma, in any order: points stand from left to right by time and upwards by price."""
        sales = ['Lear & <Co>;2026-01-09;A', 'Lear & <Co>;2026-01-05 19:30;B', 'Lear & <Co>;2026-01-07;C', 'Hamlet;;D']
        notices = ['Lear & <Co>;2026-01-06;22,50', 'Lear & <Co>;2026-01-05;18', 'Lear & <Co>;2026-01-08;9.00']
        paths = [self.file(name, ''.join(f'{row}\n' for row in rows)) for name, rows in
                 (('s.csv', ['play;sold_at;seat', *sales]), ('n.csv', ['play;sold_at;price', *notices]))]
        words = ['picture', *paths, '--on', 'sold_at', '--by', 'play', '--price', 'price', '--separator', ';']
        run = within([*words, '--sort'])
        circles, texts = self.drawn(run)
        steps = [each.get('d') for each in tree.fromstring(run.out).iter(f'{SVG}path') if each.get('stroke-width') == '2']
        places = [float(place) for place in re.findall('[MLH]([0-9.]+)', steps[0])]
        self.assertEqual((len(steps), len(places), places), (1, 6, sorted(places)))
        last, first, middle, unknown = circles
        self.assertTrue(first[0] < middle[0] < last[0] and unknown[0] < first[0])
        self.assertTrue(middle[1] < first[1] < last[1])
        self.assertEqual([filled for _, _, filled in circles], [True, True, True, False])
        for said in ('play Lear & <Co>', 'play Hamlet', '22,50', '9.00', '2026-01-06'):
            self.assertIn(said, texts)
        self.refused(within(words), 'out of order')

    def test_faults(self):
        """No price, no such column, too many groups: one line."""
        bad = self.file('n.csv', 'performance,minute,price\n1,5,7\n1,6,dear\n')
        self.refused(within(['picture', SALES, bad, *ON]), f"{bad}, line 3, column price: 'dear' is not a price, as 1800 or 12.50")
        self.refused(within(['picture', SALES, NOTICES, *ON[:-1], 'cost']), 'notices.csv, line 1, column cost: there is no such column')
        self.refused(within(['picture', SALES, NOTICES, *ON[:-2]]), '--price', 2)
        many = self.file('s.csv', 'performance,minute\n' + ''.join(f'{number},5\n' for number in range(41)))
        self.refused(within(['picture', many, NOTICES, *ON]), 'there are 41 groups, and a picture has room for 40')
        long = self.file('l.csv', 'performance,minute\n' + '1,5\n' * 50001)
        self.refused(within(['picture', long, NOTICES, *ON]), 'there are 50,001 sales, and a picture has room for 50,000')

    def test_any_cell(self):
        """A price that is too long is refused, a long one is drawn, and the picture is well-formed whatever a group is called."""
        sales = self.file('s.csv', 'p,m\na\x1bb,5\n')
        words = ['--on', 'm', '--by', 'p', '--price', 'x']
        for price in ('99999999999999999999', '9' * 400):
            self.refused(within(['picture', sales, self.file('n.csv', f'p,m,x\na\x1bb,4,{price}\n'), *words]), 'is too long a price to be drawn')
        run = within(['picture', sales, self.file('n.csv', 'p,m,x\na\x1bb,4,999999999999999\n'), *words])
        self.assertIn('p a\ufffdb', self.drawn(run)[1])
