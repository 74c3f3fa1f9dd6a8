"""Books of notices, without sales: `rowkeeper merge` makes two of them one, `rowkeeper standing` tells which notices of one stand. Each hands
its rows to the proved library in parts, cut where the answers of the parts, one behind the other, are those of the whole."""
import contextlib
from array import array
from itertools import chain, islice

import rowkeeper
from rowkeeper import library

from .build import told
from .cells import frame_words
from .input import put as keep
from .input import temporary
from .joined import expected
from .pricing import ROWS, free
from .problem import Problem, at, named, quoted, say
from .records import written
from .run import Run
from .sink import sink
from .sorting import Placed, Side, decoded, encoded
from .sorting import written as all_written

# The rows of a book that are read for a part, at most.
PART = ROWS

# The columns that `standing --all` writes behind each notice, and what it writes where another column has their name.
STANDS, LAST_LINE, PREFIX = 'stands', 'last_line', 'notice_'

# What may stand in the column of --withdrawn, and whether it withdraws.
FLAGS = {'': 0, '0': 0, '1': 1}

# What is kept of a notice that stands, and of one that does not and has no last one; of the others it is the line of the last one.
STOOD, UNKNOWN = b'', b'0'


def texts(block, places, width, separator):
    """The text of each row of a block: as it came in, unless its columns stand elsewhere or are separated by another sign."""
    if separator == block.separator and places == list(range(width)):
        return block.lines
    return block.chosen(places, width, separator)


def pieces(pairs):
    """Rows, their columns and what else is known of them, in pieces of at most a part; every column gets its marks."""
    for columns, known in pairs:
        ones = array('q', [1]) * len(known[0])
        every = [*chain.from_iterable((values, ones if marks is None else marks) for values, marks in columns), *known]
        for first in range(0, len(known[0]), PART):
            yield [column[first:first + PART] for column in every]


class Waiting:
    """A book in order, of which some rows wait to be handed in: their compared columns, values and marks in turn, and behind these what
    else is known of each."""

    def __init__(self, order, pairs):
        self.order, self.pieces, self.width = order, pieces(pairs), 2 * len(order.columns)
        self.columns = [*[array('q')] * self.width, []]

    def __len__(self):
        """How many rows wait."""
        return len(self.columns[0])

    def more(self):
        """Reads on; whether there was anything."""
        piece = next(self.pieces, None)
        if piece is None:
            return False
        if not len(self):
            self.columns = piece
            return True
        for column, new in zip(self.columns, piece):
            column += new
        return True

    def rank(self, row):
        """What a row is compared by."""
        cells = [column[row] for column in self.columns[:self.width]]
        return self.order.rank([value if mark else None for value, mark in zip(cells[::2], cells[1::2])])

    def is_known(self, row):
        """Whether a row has no null."""
        return all(marks[row] for marks in self.columns[1:self.width:2])

    def place(self, rank, behind):
        """How many rows come before those of this rank, or are not behind them."""
        low, high = 0, len(self)
        while low < high:
            middle = (low + high) // 2
            here = self.rank(middle)
            low, high = (middle + 1, high) if here < rank or behind and here == rank else (low, middle)
        return low

    def take(self, count):
        """The first rows, so many, which wait no longer: their compared columns, and what else is known of them."""
        found = self.columns if count == len(self) else [column[:count] for column in self.columns]
        self.columns = [column[count:] for column in self.columns]
        return list(zip(found[:self.width:2], found[1:self.width:2])), found[self.width:]


def called(call, order, *given):
    """What a call over books of this order answers; all that it could refuse was judged before."""
    with expected('a book'):
        return told(lambda: call(*given, by=len(order.columns) - 1, descending=order.descending, nulls_last=order.nulls_last,
                                 ranks=order.ranks))


def book_of(run, table, places, separator):
    """One of the books to be merged: its rows in order, with their texts. With --sort it is read to its end here."""
    how, order = (places, len(places), separator), run.kinds.coded_order()
    if not run.args.sort:
        return Waiting(order, ((columns, [texts(block, *how)]) for block, columns in table.pairs()))
    side = Side(order, table, 1, tails=True)
    run.stack.enter_context(contextlib.closing(side.sorter))
    for block, columns in table.pairs():
        side.take(columns, block.height, tails=encoded(texts(block, *how)))
        run.show('sorting')()
    side.sorter.rest()
    return Waiting(order, ((columns, [decoded(rows.tails)]) for rows, columns in side.pairs(ROWS)))


def cut(house, festival):
    """How many of the rows that wait in each book come before all others of both, those that are not read yet too: all of one book, and of
    the other those that come before what follows in it. Of equal rows the house's come first: where both books wait with equal
    rows at their ends, the festival's wait on. No part needs to grow for them."""
    if not len(house) or not len(festival):
        return len(house), len(festival)
    last, other = house.rank(-1), festival.rank(-1)
    if last <= other:
        return len(house), festival.place(last, behind=False)
    return house.place(other, behind=True), len(festival)


def merged(order, house, festival):
    """The texts of both books' rows in the order of one, a part at a time."""
    while any([len(book) or book.more() for book in (house, festival)]):
        parts, first, found = [], 0, []
        for book, count in zip((house, festival), cut(house, festival)):
            columns, (lines,) = book.take(count)
            parts.append(frame_words([*columns, (array('q', range(first, first + count)), None)], 0, count))
            first, found = first + count, found + lines
        table = called(rowkeeper.merge, order, *parts)
        numbers = table.words[1 + table.columns:2 + first * table.columns:table.columns]
        yield list(map(found.__getitem__, numbers))


def places_in(house, festival):
    """Where the festival has the house's columns; a Problem unless both have the same."""
    if house.header == festival.header:
        return list(range(house.width))
    if sorted(house.header) != sorted(festival.header) or len(set(house.header)) < house.width:
        raise Problem(f'{at(festival.path, festival.header_line)}: the columns are not those of {named(house.path)}: '
                      f'{", ".join(festival.header)} in place of {", ".join(house.header)}')
    return [festival.place(name) for name in house.header]


def put(file, lines):
    """Writes lines, so many at once that they need little memory."""
    rest = iter(lines)
    for part in iter(lambda: list(islice(rest, ROWS)), []):
        file.write(''.join(f'{line}\n' for line in part).encode('utf-8'))


def rows_of(table):
    """How many rows a table has."""
    return sum(height for _, height, _ in table.blocks)


def merge(args):
    """Merges two books; how many rows came from each is told on standard error."""
    with contextlib.ExitStack() as stack:
        run = Run(args, stack, ("of the house's notices", "of the festival's"))
        house, festival = (run.source(path, args.left) for path in (args.house, args.festival))
        places = [list(range(house.width)), places_in(house, festival)]
        target, tables = sink(args.output, [args.house, args.festival]), run.judged()
        told(library.library)
        books = [book_of(run, table, where, house.separator) for table, where in zip(tables, places)]
        file = run.begun(target)
        put(file, [written(house.header, house.separator)])
        for lines in merged(run.kinds.coded_order(), *books):
            put(file, lines)
            run.show('writing')()
    first, rows = rows_of(tables[0]), sum(map(rows_of, tables))
    say(f'{rows:,} notice{"" if rows == 1 else "s"}: {first:,} of {named(house.path)}, {rows - first:,} of {named(festival.path)}')


class InOrder:
    """Texts that come in their order, on their way through a temporary file; none has a line end."""

    def __init__(self):
        self.file = temporary()

    def add(self, _, found):
        """Takes texts; their places are the next ones."""
        keep(self.file, b''.join(text + b'\n' for text in found))

    def sorted(self):
        """All texts, in lists."""
        all_written(self.file)
        self.file.seek(0)
        yield from iter(lambda: [line[:-1] for line in islice(self.file, ROWS)], [])

    def close(self):
        """Gives the temporary file back."""
        self.file.close()


def keep_told(kept, numbers, lines, found):
    """Keeps what the library told of rows of these numbers and lines, some at a time, since a part may be long."""
    for first in range(0, len(numbers), ROWS):
        rows = slice(first, first + ROWS)
        kept.add(numbers[rows], [STOOD if stands else UNKNOWN if last < 0 else b'%d' % lines[last]
                                 for stands, last in zip(bytes(found.stands[rows]), found.last[rows].tolist())])


class Notices:
    """The notices of one book: which of them stand, by their places in the file."""

    def __init__(self, run, source, withdrawn):
        self.run, self.source = run, source
        self.place = None if withdrawn is None else source.place(withdrawn)
        self.rows = self.stand = 0
        self.first = None

    def read(self, table):
        """The rows of the file: their columns; and of each its number, its line where that will be written, and whether it withdraws.
        Their text is read only if it is looked at."""
        number, lines = 0, self.run.args.all
        for block, columns in table.pairs(later=self.place is None and not lines):
            nothing = array('q', bytes(8 * block.height))
            yield columns, [array('q', range(number, number + block.height)),
                            array('q', map(block.line, range(block.height))) if lines else nothing,
                            nothing if self.place is None else self.flags(block)]
            number += block.height

    def flags(self, block):
        """1 for each row of a block that withdraws, else 0."""
        cells, = block.columns([self.place], self.source.width)
        other = next((row for row, cell in enumerate(cells) if cell.strip() not in FLAGS), None)
        if other is not None:
            raise Problem(f'{at(self.source.path, block.line(other), self.run.args.withdrawn)}: {quoted(cells[other])} is neither 1, '
                          'which withdraws, nor 0, nor an empty cell')
        return array('q', [FLAGS[cell.strip()] for cell in cells])

    def by_sorting(self, order, table):
        """The rows in the library's order."""
        side = Side(order, table, 3)
        self.run.stack.enter_context(contextlib.closing(side.sorter))
        for columns, (numbers, lines, flags) in self.read(table):
            side.take(columns, len(numbers), array('Q', lines), array('Q', flags))
        side.sorter.rest()
        return ((columns, [array('q', column) for column in rows.known]) for rows, columns in side.pairs(ROWS))

    def parts(self, order, pairs):
        """The rows in parts: each ends behind the last row of a group and key, and is longer where these have more rows. A row whose
        group or key is not known has nothing to do with any other."""
        waiting = Waiting(order, pairs)
        while waiting.more():
            count = waiting.place(waiting.rank(-1), behind=False) if waiting.is_known(-1) else len(waiting)
            if count:
                yield waiting.take(count)
        if len(waiting):
            yield waiting.take(len(waiting))

    def judge(self, table):
        """Asks the library; what it tells of each row is kept by the rows of the file."""
        order, sort = self.run.kinds.coded_order(), self.run.args.sort
        kept = self.run.stack.enter_context(contextlib.closing(Placed(rows_of(table)) if sort else InOrder()))
        for columns, (numbers, lines, flags) in self.parts(order, self.by_sorting(order, table) if sort else self.read(table)):
            found = called(rowkeeper.standing, order, frame_words([*columns, (flags, None)], 0, len(numbers)), 0)
            keep_told(kept, numbers, lines, found)
        return chain.from_iterable(kept.sorted())

    def written(self, block, found):
        """What is written of a block, with what is known of its rows: the notices that stand, or all."""
        missing = len(found) - found.count(STOOD)
        self.rows, self.stand = self.rows + len(found), self.stand + len(found) - missing
        if missing and self.first is None:
            self.first = block.line(next(row for row, each in enumerate(found) if each != STOOD))
        if not self.run.args.all:
            return [line for line, each in zip(block.lines, found) if each == STOOD]
        sign = self.source.separator
        said = {STOOD: f'{sign}yes{sign}', UNKNOWN: f'{sign}no{sign}'}
        return [line + (said.get(each) or f'{sign}no{sign}{each.decode("ascii")}') for line, each in zip(block.lines, found)]

    def header(self):
        """The names of the columns that are written."""
        names = list(self.source.header)
        for name in (STANDS, LAST_LINE) if self.run.args.all else ():
            names.append(free(name, names, PREFIX))
        return written(names, self.source.separator)

    def said(self):
        """How many notices stand, in words."""
        rows, stand = self.rows, self.stand
        have = f'{stand:,} of {rows:,} notice{"" if rows == 1 else "s"} stand{"s" if stand == 1 else ""}'
        if stand == rows:
            return have
        many = f'{rows - stand:,} do{"es" if rows - stand == 1 else ""} not'
        return f'{have}; {many}, {"it is" if rows - stand == 1 else "the first"} in line {self.first}'


def standing(args):
    """Writes the notices that stand; how many they are is told on standard error."""
    with contextlib.ExitStack() as stack:
        run = Run(args, stack, ('notices',))
        source = run.source(args.notices, args.left)
        notices, target = Notices(run, source, args.withdrawn), sink(args.output, [args.notices])
        table, = run.judged()
        told(library.library)
        found, file = notices.judge(table), run.begun(target)
        put(file, [notices.header()])
        for block in table.again():
            put(file, notices.written(block, list(islice(found, block.height))))
            run.show('writing')()
    say(notices.said())
