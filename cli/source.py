"""A table: its header, and its rows in blocks, judged. Whatever is wrong is told by file, line and column."""
import contextlib
import copy
import csv
import re

from .cells import Text, Whole
from .dates import DAY_FIRST, Dates, DayOrMonth, Repeated, Time, Times, Unsettled
from .kinds import Turned
from .problem import Disorder, Problem, at, named, quoted
from .records import Records, plainly
from .times import UNITS

# A fall of local times that the end of summer time explains.
HOUR = UNITS['h']

# How many lines may stand above the header, and how many names a message shows.
TITLES, MOST_SHOWN = 20, 40

# A first line with which Excel names the separator.
EXCEL_SIGN = re.compile('"?sep=(.)"?')

# The separators that are tried where none is named, and what messages call them.
SEPARATORS, SAID = (',', ';', '\t'), {',': 'commas', ';': 'semicolons', '\t': 'tabs'}


class Source:
    """A table that is read from a file. `names` are the by-columns and the key as this file names them. With `check` each row is
    compared with the one before it. `also` are columns that the header names besides, whatever they hold."""

    def __init__(self, source, names, kinds, check=True, separator=None, also=(), dates=None):
        self.input, self.path, self.names, self.kinds, self.check = source, source.path, names, kinds, check
        self.records, self.also, self.dates = Records(source), also, dates or Dates()
        # What reads each key column, which its first cell shows; of a column that needs it, whether day or month comes first; and by
        # how much a date alone is later than its midnight.
        keys = len(names) - len(kinds.by)
        self.readers, self.first_parts, self.bare = [None] * keys, [None] * keys, [0] * keys
        self.find_header([separator] if separator else SEPARATORS)
        self.width, self.counted = len(self.header), 0
        # One more column of which the numbers are kept: where it stands, and what reads it from a block and its cells.
        self.beside, self.read_beside = [], None
        self.restart()

    def restart(self):
        """Forgets the rows."""
        self.rows, self.last, self.last_cells, self.last_line = 0, None, None, None
        self.repeated = self.dates.zone and [Repeated(self.path, name, self.dates.zone, self.check) for name in self.names[len(self.kinds.by):]]

    def again(self):
        """Goes back to the first row."""
        self.records.again(self.header_size, self.header_end)
        self.restart()

    def read_header(self, separator):
        """The first record by this separator that names all columns that are wanted, among the first lines, else the first: the names, its
        line, where it ends and the line behind it; and the record behind it, or None."""
        taken, line, found = [], 1, None
        try:
            for cells in csv.reader(self.records.lines(taken), strict=True, delimiter=separator):
                names = [name.strip() for name in cells]
                if cells and (found is None or self.has_all(names)):
                    found = names, line, taken[-1][1], len(taken) + 1
                if found and (self.has_all(found[0]) or len(taken) > TITLES):
                    return found
                line = len(taken) + 1
        except (csv.Error, Problem) as error:
            if found is None:
                raise error if isinstance(error, Problem) else \
                    Problem(f'{at(self.path, line)}: the line cannot be read as CSV: {plainly(error)}') from None
        if found is None:
            raise Problem(f'{at(self.path, 1)}: the file is empty: the first line must name the columns')
        return found

    def has_all(self, header):
        """Whether a header has all columns that are wanted."""
        return self.wanted(header) <= set(header)

    def first_line(self):
        """The first line, without its end."""
        with contextlib.suppress(Problem):
            return next(self.records.lines([]), '').rstrip('\r\n')
        return ''

    def fit(self, separator):
        """Makes the header as long as the first row where one of them has separators more at its end."""
        with contextlib.suppress(csv.Error, Problem):
            reader = csv.reader(self.records.lines([]), strict=True, delimiter=separator)
            first = next((cells for cells in reader if cells and reader.line_num >= self.header_end), None)
            more = len(first) - len(self.header) if first else 0
            if more > 0 and not ''.join(first[-more:]).strip():
                self.header += [''] * more
            elif more < 0 and not ''.join(self.header[more:]):
                self.header = self.header[:more]
    @staticmethod
    def parts(name, header):
        """The two columns of a key that is named as two with a plus sign between them, if the header has these and not the whole; else
        the name, and None."""
        pairs = ((name[:place], name[place + 1:]) for place, sign in enumerate(name) if sign == '+')
        return next((pair for pair in pairs if name not in header and set(pair) <= set(header)), (name, None))

    def wanted(self, header):
        """The columns that a header must have."""
        keys = [part for name in self.names[len(self.kinds.by):] for part in self.parts(name, header)]
        return {*self.names[:len(self.kinds.by)], *keys, *self.also} - {None}

    def compared(self):
        """The names of the compared columns, each of a key that is in two."""
        return [self.header[place] for place in [*self.places, *self.clocks.values()]]

    def find_header(self, separators):
        """Reads the header by the first separator with which it has all columns that are wanted, or by the first of all. A first line as
        sep=; names the separator, as Excel writes it."""
        named_sign = EXCEL_SIGN.fullmatch(self.first_line())
        separators = [named_sign.group(1)] if named_sign and len(separators) > 1 else separators
        for separator in separators:
            with contextlib.suppress(Problem):
                found = self.read_header(separator)
                if self.has_all(found[0]):
                    break
        else:
            found, separator = self.read_header(separators[0]), separators[0]
        if separator != separators[0]:
            self.kinds.notes.append(f'{named(self.path)}: columns are separated by {SAID[separator]}')
        self.header, self.header_line, self.header_size, self.header_end = found
        if self.header_line > (2 if named_sign else 1) and self.first_line():
            self.kinds.notes.append(f'{named(self.path)}: the columns are named in line {self.header_line}, and the lines above it are passed')
        if not self.input.streamed:
            self.fit(separator)
        self.records.separator = self.separator = separator
        self.records.hollow = separator * (len(self.header) - 1) or None
        self.find_places()
        self.records.pass_over(self.header_size, self.header_end)

    def find_places(self):
        """Finds where the compared columns stand."""
        self.places, self.clocks = [], {}
        for column, name in enumerate(self.names):
            date, clock = self.parts(name, self.header) if column >= len(self.kinds.by) else (name, None)
            self.places.append(self.place(date))
            if clock is not None:
                self.clocks[column] = self.place(clock)

    def place(self, name):
        """Where a column stands."""
        if self.header.count(name) == 1:
            return self.header.index(name)
        if name in self.header:
            raise Problem(f'{at(self.path, self.header_line, name)}: {self.header.count(name)} columns have this name')
        there = ', '.join(each if each.isprintable() else quoted(each) for each in self.header[:MOST_SHOWN])
        there += f' and {len(self.header) - MOST_SHOWN:,} more' if len(self.header) > MOST_SHOWN else ''
        if ',' in name and {each.strip() for each in name.split(',')} <= set(self.header):
            there += f'; several columns are said one by one, as {" ".join("--by " + each.strip() for each in name.split(","))}'
        raise Problem(f'{at(self.path, self.header_line, name)}: there is no such column; the columns are {there}')

    def next(self):
        """The next rows and their compared columns, judged; None at the end of the file. Columns are judged as a whole, which is
        quick; where one has a fault, the rows are gone through for the first."""
        block = self.records.block()
        if block is None:
            for each in self.repeated or ():
                each.end()
            return None
        before = self.repeated and list(map(copy.copy, self.repeated))
        try:
            columns = self.columns(block)
            if self.kinds.order.lacks(columns) or self.check and not self.sorted(columns):
                raise ValueError('out of order')
        except ValueError:
            self.repeated = before
            self.find_fault(block)
            raise AssertionError('a block with a fault has a row with one') from None
        self.last, self.last_cells = [column[-1] for column in columns], block.cells(-1)
        self.last_line = block.line(block.height - 1)
        self.rows += block.height
        return block, columns

    def cells(self, block):
        """The cells of the compared columns of a block, and of those beside them. A key in two columns is the text of both."""
        clocks = list(self.clocks.values())
        cells = block.columns([*self.places, *clocks, *self.beside], self.width)
        compared, times, beside = cells[:len(self.places)], cells[len(self.places):len(self.places) + len(clocks)], cells[len(self.places) + len(clocks):]
        for column, clock in zip(self.clocks, times):
            compared[column] = list(map(together, compared[column], clock))
        return compared, beside

    def cell(self, cells, column):
        """The cell of a compared column among those of a row."""
        cell = cells[self.places[column]]
        return together(cell, cells[self.clocks[column]]) if column in self.clocks else cell

    def kinds_here(self):
        """What reads each compared column."""
        default = self.kinds.key if isinstance(self.kinds.key, Whole) else Whole()
        return [*self.kinds.by, *(reader or default for reader in self.readers)]

    def columns(self, block):
        """The compared columns of a block, by their kinds."""
        cells, block.beside = self.cells(block)
        if None in self.readers:
            self.begin_all(block, cells[len(self.kinds.by):])
        found = [kind.column(each) for kind, each in zip(self.kinds_here(), cells)]
        for key, repeated in enumerate(self.repeated or ()):
            self.settle_hours(repeated, self.readers[key], len(self.kinds.by) + key, block, cells, found)
        return found

    def begin_all(self, block, keys):
        """Settles how key columns are read, by the first cell of each that is not empty."""
        found = []
        for key, cells in enumerate(keys):
            row = next((row for row, cell in enumerate(cells) if cell.strip()), None) if self.readers[key] is None else None
            found += [] if row is None else [(row, key)]
        for row, key in sorted(found):
            try:
                self.begin(key, keys[key][row], block.line(row))
            except Unsettled:
                if not self.input.streamed:
                    raise
                look = DayOrMonth()
                look.look(keys[key], block.line)
                self.settle(look, key, keys[key][row], block.line(row))
                self.begin(key, keys[key][row], block.line(row))

    def begin(self, key, cell, line):
        """Settles how a key column is read. ValueError if the cell is of no kind, or of another than the other columns."""
        reader = self.dates.reader(cell, self.first_parts[key], self.bare[key])
        if reader is None:
            raise Unsettled(self, key)
        self.kinds.begin(reader, cell, self.path, line)
        self.readers[key] = reader

    def look_through(self, key):
        """Looks through the whole file for whether a key column has the day first or the month."""
        self.again()
        look, first = DayOrMonth(), None
        for block in iter(self.records.block, None):
            try:
                cells = self.cells(block)[0][len(self.kinds.by) + key]
            except ValueError:
                for row in range(block.height):
                    self.judge_width(block.line(row), block.cells(row))
            look.look(cells, block.line)
            first = first or next(((cell, block.line(row)) for row, cell in enumerate(cells) if cell.strip()), None)
        self.settle(look, key, *first)

    def settle(self, look, key, cell, line):
        """Takes what was found of day and month, and notes it."""
        name = self.names[len(self.kinds.by) + key]
        order, date, found = look.order(self.path, name, cell, line)
        self.first_parts[key] = order
        self.kinds.notes.append(f'{at(self.path, None, name)}: dates have the {"day" if order == DAY_FIRST else "month"} first, as {quoted(date)} '
                                f'in line {found} shows')

    def settle_hours(self, repeated, reader, column, block, cells, found):
        """Gives the times of an hour that comes twice the one that is meant."""
        for row, local in getattr(reader, 'doubtful', ()):
            group = [each[row] for each in found[:len(self.kinds.by)]]
            if repeated.take(local, group, cells[column][row], block.line(row)):
                first, second = reader.zone.both(local)
                found[column][row] += first - second
        repeated.seen(found[column])

    def sorted(self, columns):
        """Whether these rows are sorted, and come after the last one before them."""
        order = self.kinds.order
        if self.last is not None and order.fault(self.last, [column[0] for column in columns]) is not None:
            return False
        return order.in_order(columns)

    def find_fault(self, block):
        """Stops at the first fault in a block."""
        before, cells_before, line_before = self.last, self.last_cells, self.last_line
        for row in range(block.height):
            cells, line = block.cells(row), block.line(row)
            values = self.judge(line, cells)
            if self.check and before is not None:
                self.compare((before, cells_before, line_before), (values, cells, line))
            before, cells_before, line_before = values, cells, line

    def judge_width(self, line, cells):
        """Stops at a row with more or fewer cells than the header."""
        if len(cells) != len(self.header):
            raise Problem(f'{at(self.path, line)}: columns: {len(cells)}, but the header names {len(self.header)}')

    def judge(self, line, cells):
        """The values of a row; stops where a cell has none."""
        self.judge_width(line, cells)
        found = []
        for column, name in enumerate(self.names):
            cell = self.cell(cells, column)
            try:
                found.append(self.value(column, cell, line, found))
            except ValueError as why:
                if self.kinds.turns(column):
                    raise Turned(column, self.path, line, cell) from None
                reader = self.readers[column - len(self.kinds.by)] if column >= len(self.kinds.by) else None
                said = self.kinds.not_of(column, why, cell, reader and reader.sample)
                raise Problem(f'{at(self.path, line, name)}: {said}') from None
            if not self.kinds.order.may_stand(column, found[-1]):
                shown = quoted(found[-1]) if isinstance(found[-1], str) else found[-1]
                raise Problem(f'{at(self.path, line, name)}: {shown} is not among the codes of --rank')
        return found

    def value(self, column, cell, line, before):
        """The value of a cell, of which the columns before it have these."""
        key = column - len(self.kinds.by)
        if key < 0:
            return self.kinds.by[column].value(cell)
        if self.readers[key] is None and cell.strip():
            self.begin(key, cell, line)
        reader = self.kinds_here()[column]
        if self.repeated and cell.strip() and isinstance(reader, Times):
            values = [[value] for value in before] + [reader.column([cell])]
            self.settle_hours(self.repeated[key], reader, column, OneRow(line), [[cell]] * (column + 1), values)
            return values[-1][0]
        return reader.value(cell)

    def compare(self, before, row):
        """Stops where a row should have come before the one before it; each is its values, its cells and its line."""
        column = self.kinds.order.fault(before[0], row[0])
        if column is None:
            return
        kind = self.kinds_here()[column]
        here, there = (self.cell(each[1], column).strip() or 'an empty cell' for each in (row, before))
        note = ''
        if isinstance(kind, Text):
            here, there = (quoted(self.cell(each[1], column).strip()) if each[0][column] else 'an empty cell' for each in (row, before))
            note = f' (as text, because of {self.kinds.why[column]})' if column in self.kinds.why and is_number(here, there) else ''
        elif isinstance(self.kinds.key, Time) and not self.kinds.key.zoned and column == len(self.kinds.by) and row[0][column] is not None and \
                before[0][column] - row[0][column] < HOUR:
            note = ' (if the clocks were put back here, name the zone, as --zone Europe/Berlin)'
        shared = self.kinds.shared
        group = f'; or name the columns that make a group with --by, as --by {shared[0]}: both files have {", ".join(shared[:5])}' if shared else ''
        raise Disorder(f'{at(self.path, row[2], self.names[column])}: out of order: {here} comes after {there} of line {before[2]}{note}; '
                      f'rows must be sorted by {self.kinds.order.said(self.names)}{group}{"; " if group else ", "}or add --sort')

    def turned(self):
        """The first cell in a by-column of whole numbers that makes it text, as Turned; None if there is none. Nothing else is judged."""
        self.again()
        turning = [column for column in range(len(self.names)) if self.kinds.turns(column)]
        try:
            for block in iter(self.records.block, None):
                for column, cells in zip(turning, block.columns([self.places[column] for column in turning], self.width)):
                    row = not_whole(cells)
                    if row is not None:
                        return Turned(column, self.path, block.line(row), cells[row])
        except (Problem, ValueError):
            pass
        return None

    def share(self):
        """How much of the file has been read, from 0 to 1, by its rows once they have been counted; None where its length is not known."""
        return self.rows / self.counted if self.counted else self.input.share()


def together(date, clock):
    """The cells of a date and a time of day as one; empty where one of them is."""
    return f'{date.strip()} {clock.strip()}' if date.strip() and clock.strip() else ''


class OneRow:
    """A row in the place of a block."""

    def __init__(self, line):
        self.line = lambda row: line


def not_whole(cells):
    """The first of some cells that is no whole number; None if all are."""
    try:
        Whole.column(cells)
        return None
    except ValueError:
        return next(row for row, cell in enumerate(cells) if not is_whole(cell))


def is_whole(cell):
    """Whether a cell is a whole number or empty."""
    try:
        Whole.value(cell)
        return True
    except ValueError:
        return False


def is_number(*shown):
    """Whether two texts that are shown in quotes are whole numbers: who sorted them by number is told why this is not the order."""
    return all(is_whole(each.strip("'")) for each in shown)


