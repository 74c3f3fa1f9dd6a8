"""What is said of groups and of columns that both files have, so that nobody takes wrong prices for right ones."""
import os
import unicodedata

from .command import SEASON, Case, within

SALES, NOTICES = (os.path.join(SEASON, name) for name in ('sales.csv', 'notices.csv'))


class Shared(Case):
    """Columns that both files have and that are not compared."""

    def test_order_fault(self):
        """Who forgot --by is told of it before --sort."""
        self.refused(within(['join', SALES, NOTICES, '--on', 'minute']), 'rows must be sorted by minute; or name the columns that make a group with '
                     '--by, as --by performance: both files have performance; or add --sort')

    def test_note(self):
        """A run that goes well without --by names the columns that were not compared; one with --by does not."""
        for command, more in (('join', []), ('takings', ['--amount', 'price']), ('plan', []), ('picture', ['--price', 'price'])):
            run = within([command, SALES, NOTICES, '--on', 'minute', '--sort', *more])
            self.assertEqual(run.status, 0)
            self.assertIn('rowkeeper: performance is in both files and was not compared: add --by performance if a sale and its notice must be '
                          'equal there\n', run.err)
            self.assertNotIn('not compared', within([command, SALES, NOTICES, '--on', 'minute', '--by', 'performance', '--sort', *more]).err)
        two = self.file('two.csv', 'a,b,m\n1,1,1\n')
        self.assertIn('a and b are in both files and were not compared', within(['join', two, two, '--on', 'm']).err)


class Groups(Case):
    """Groups of the sales that no notice has."""

    def said(self, sales, notices, *words):
        """What a run over these groups says."""
        paths = [self.file(name, 'p,m\n' + ''.join(f'{group},{minute}\n' for group in groups))
                 for name, groups, minute in (('s.csv', sales, 5), ('n.csv', notices, 4))]
        run = within(['join', *paths, '--on', 'm', '--by', 'p', '--sort', *words])
        self.assertEqual(run.status, 0, run.err)
        return run.err

    def test_counted(self):
        """How many they are, and the first five by name; a sale whose group is not known is none."""
        self.assertTrue(self.said([1, 2, ''], [1]).endswith('; 1 group has no notice at all: p 2\n'))
        self.assertTrue(self.said([3, 1, 2], [1]).endswith('; 2 groups have no notice at all: p 2, 3\n'))
        self.assertTrue(self.said(range(9), [1]).endswith('; 8 groups have no notice at all, as p 0, 2, 3, 4, 5\n'))
        self.assertTrue(self.said(['Lear', 'Hamlet'], ['', 'x']).endswith('; 2 groups have no notice at all: p Hamlet, Lear\n'))
        self.assertNotIn('group', self.said([1, ''], [1]))

    def test_without_a_match(self):
        """A group that has a notice, though none for this sale, is not among them."""
        paths = self.file('s.csv', 'p,q,m\n1,1,0\n1,2,9\n2,1,9\n'), self.file('n.csv', 'p,q,m\n1,1,5\n2,1,4\n')
        run = within(['join', *paths, '--on', 'm', '--by', 'p', '--by', 'q'])
        self.assertIn('2 have none, the first in line 2; 1 group has no notice at all: p q 1 2\n', run.err)

    def test_near(self):
        """Groups that a notice has in other letters are named with these."""
        composed, apart = (unicodedata.normalize(form, 'Così') for form in ('NFC', 'NFD'))
        for sale, notice in (('hamlet', 'Hamlet'), ('7.0', '7'), ('"=""1"""', '1'), (apart, composed), ('007', '7'), ('King  Lear', 'King Lear')):
            said = self.said([sale, 'x'], [notice, 'x'])
            self.assertIn(f"(the notices have '{notice}')", said)
        self.assertNotIn('the notices have', self.said(['Lear', 'x'], ['Hamlet', 'x']))

    def test_text_beside_numbers(self):
        """It is told whichever came first; text alone is not."""
        for sales, notices in ((['Gala', 7], ['007']), ([7, 'Gala'], ['007']), ([7], ['Gala']), (['Gala'], [7])):
            self.assertIn("p is compared as text, because of 'Gala' in ", self.said(sales, notices))
        self.assertNotIn('is compared as text', self.said(['Gala'], ['Lear']))
