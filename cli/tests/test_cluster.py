"""What --cluster says where nothing can be joined on one. bindings/python/tests/on_cluster.py joins on a real one."""
import sys
import unittest
from array import array
from unittest import mock

from rowkeeper.interface import IDLE, WANTS_RIGHT, WROTE

from ..clustered import Answered
from .command import Case, within
from .test_command import NOTICES, ON, SALES


class Cluster(Case):
    """One line, and nothing is written."""

    def test_no_dask(self):
        """Where dask is missing, one line says so before anything is read."""
        with mock.patch.dict(sys.modules, {'distributed': None, 'rowkeeper.cluster': None}):
            del sys.modules['rowkeeper.cluster']
            run = within(['join', 'none.csv', 'none.csv', *ON, '--cluster', 'tcp://127.0.0.1:8786'])
        self.assertEqual((run.status, run.out, run.err.count('\n')), (3, '', 1))
        self.assertRegex(run.err, r'^rowkeeper: --cluster: rowkeeper\.cluster needs dask and distributed \(Debian: python3-dask, ')

    def test_options_that_do_not_go_with_it(self):
        """Each by its name."""
        for option in ('--stream', '--sort', '--no-check', '--explain', '--distance'):
            run = within(['join', SALES, NOTICES, *ON, '--cluster', 'till:8786', option])
            self.assertEqual((run.status, run.out, run.err), (2, '', f'rowkeeper: --cluster: does not go with {option}\n'))

    def test_answered(self):
        """What stands in the place of a join wants notices until it has those that its sales take."""
        join, frame = Answered(array('q', [-1, 4, 5, -1])), lambda rows: array('q', [rows, 1])
        self.assertEqual(join.answer(), IDLE)
        join.left(frame(2))
        self.assertEqual(join.answer(), WANTS_RIGHT)
        join.right(frame(5))
        self.assertEqual((join.answer(), *map(list, join.matched()[:2])), (WROTE, [0, 4], [0, 1]))
        self.assertEqual((join.answer(), join.pruned), (IDLE, 4))
        join.left(frame(1))
        self.assertEqual(join.answer(), WANTS_RIGHT)
        join.right(frame(2))
        self.assertEqual((join.answer(), *map(list, join.matched()[:2])), (WROTE, [5], [1]))
        join.left(frame(1))
        self.assertEqual((join.answer(), *map(list, join.matched()[:2]), join.pruned), (WROTE, [0], [0], 5))


if __name__ == '__main__':
    unittest.main()
