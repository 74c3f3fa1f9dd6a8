"""`rowkeeper join --cluster`: the numbers of the notices come from the workers of a cluster, and everything else is as ever."""
import contextlib
import logging
from array import array

import rowkeeper
from rowkeeper.interface import IDLE, WANTS_RIGHT, WROTE

from .problem import NO_LIBRARY, Problem


def module():
    """The module of the cluster; a Problem where dask is missing. What dask has to tell goes to its log alone."""
    try:
        from rowkeeper import cluster
    except ImportError as error:
        raise Problem(f'--cluster: {error}', NO_LIBRARY) from None
    logging.getLogger('distributed').setLevel(logging.CRITICAL + 1)
    return cluster


@contextlib.contextmanager
def told(cluster):
    """What a cluster cannot do, as a line."""
    try:
        yield
    except (cluster.Lost, rowkeeper.Refused, ValueError) as error:
        raise Problem(f'--cluster: {error}') from None


@contextlib.contextmanager
def connected(address):
    """A client of the scheduler at an address, and the module."""
    cluster = module()
    with contextlib.ExitStack() as stack:
        with told(cluster):
            client = stack.enter_context(cluster.connected(address))
        yield cluster, client


def table_of(pairs, width):
    """The compared columns of blocks, as a table in words."""
    values, marks = [array('q') for _ in range(width)], [array('b') for _ in range(width)]
    for block, columns in pairs:
        for place, (cells, valid) in enumerate(columns):
            values[place].extend(cells)
            marks[place].extend(array('b', [1]) * block.height if valid is None else array('b', valid))
    return rowkeeper.Table([rowkeeper.Column(*each) for each in zip(values, marks)])


def numbers(connection, tables, order, args, tolerance):
    """For each sale the number of its notice, or -1, from the workers."""
    cluster, client = connection
    sales, notices = (table_of(each.pairs(later=True), len(order.columns)) for each in tables)
    with told(cluster):
        return cluster.join_tables(sales, notices, by=len(order.columns) - 1, strategy=args.strategy, allow_exact_matches=args.exact,
                                   tolerance=tolerance, descending=order.descending, nulls_last=order.nulls_last, ranks=order.ranks,
                                   client=client)


class Answered:
    """What stands in the place of a join whose answers are known: it wants notices until it has all that its sales take. The numbers
    that sales take never fall, so notices before the least of a frame are not taken any more."""

    def __init__(self, numbers):
        self.numbers, self.at, self.waiting, self.handed, self.ended, self.pruned = numbers, 0, 0, 0, False, 0

    def left(self, frame):
        """Sales that wait."""
        self.waiting = frame[0]

    def right(self, frame):
        """Notices that are there."""
        self.handed += frame[0]

    def end_right(self):
        """No more notices come."""
        self.ended = True

    def answer(self):
        """What a turn would answer."""
        if not self.waiting:
            return IDLE
        self.part = self.numbers[self.at:self.at + self.waiting]
        return WANTS_RIGHT if max(self.part) >= self.handed and not self.ended else WROTE

    def matched(self):
        """For each sale that waited the number of its notice and 1, or 0 and 0; and no distances."""
        marks = array('q', [number >= 0 for number in self.part])
        self.at, self.waiting = self.at + self.waiting, 0
        self.pruned = min((number for number in self.part if number >= 0), default=self.pruned)
        return array('q', map(int.__mul__, self.part, marks)), marks, None
