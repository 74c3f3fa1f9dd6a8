"""A CSV file's records in blocks. Where a piece of the file has one record a line, it is cut at the line ends and the separators
alone; else it goes through Python's reader of CSV, record by record."""
import csv
import re
import zlib
from itertools import compress

from .problem import Problem, at, reason

# The bytes that a line can have at most: a file that is no text may have no line end at all.
LONGEST_LINE = 1 << 24

# The lines that one record can have at most; its bytes are limited as those of a line. A quote that is never closed makes the rest of a
# file one record.
MOST_LINES = 10000

# The bytes of the first block, and the rows that later ones should have: as many as a frame takes.
FIRST_BYTES, ROWS, FEWEST_BYTES, MOST_BYTES = 1 << 15, 4000, 1 << 12, 1 << 19

QUOTE = '"'
csv.field_size_limit(LONGEST_LINE)


def plainly(error):
    """What the reader of CSV says, in words for a user."""
    said = str(error)
    for part, words in (('unexpected end of data', 'a quote is opened and never closed'),
                        ('new-line character', 'there is a carriage return inside the line'),
                        ('field larger', 'a cell is too long, or a quote is opened and never closed'),
                        ('expected after', 'a quote is closed inside a cell')):
        if part in said:
            return words
    return said


def written(cells, separator):
    """Cells as a record of CSV; those that need quotes get them."""
    text = separator.join(cells)
    if text.count(separator) == len(cells) - 1 and QUOTE not in text and '\n' not in text and '\r' not in text:
        return text
    return separator.join([f'"{cell.replace(QUOTE, QUOTE * 2)}"' if QUOTE in cell or separator in cell or '\n' in cell or '\r' in cell else cell
                           for cell in cells])


def as_written(separator):
    """What finds the cells of a record as they stand in its text, with their quotes."""
    sign = re.escape(separator)
    return re.compile(f'(?:^|{sign})("(?:[^"]|"")*"|[^{sign}]*)')


def plain(data):
    """Bytes as text, with line feeds alone at the ends of lines, and none behind the last."""
    text = data.decode('utf-8')
    text = text.replace('\r\n', '\n') if '\r' in text else text
    return text[:-1] if text.endswith('\n') else text


class Block:
    """Some records: their text as it stands in the file, without line ends, and their cells. Either `text` has one record a line, and
    what else is known of it is made of it when it is asked for; or `lines`, `rows` and `starts` have the text, the cells and the first
    line of each."""

    def __init__(self, separator, text, first=0, lines=None, rows=None, starts=None):
        self.separator, self.text, self.first, self.starts = separator, text, first, starts
        self.found_lines, self.found_rows = lines, rows
        self.quoted = text is None or QUOTE in text
        self.height = len(lines) if text is None else text.count('\n') + 1
        self.passed, self.size, self.sum, self.number, self.texts, self.beside = 0, 0, 0, 0, None, []

    @property
    def lines(self):
        """The text of each record."""
        if self.found_lines is None:
            self.found_lines = self.text.split('\n')
        return self.found_lines

    @property
    def rows(self):
        """The cells of each record."""
        if self.found_rows is None:
            self.found_rows = list(csv.reader(self.lines, strict=True, delimiter=self.separator))
        return self.found_rows

    def line(self, row):
        """The line of the file where a record begins."""
        return self.first + row if self.starts is None else self.starts[row]

    def cells(self, row):
        """The cells of a record."""
        return self.rows[row] if self.quoted else self.lines[row].split(self.separator)

    def columns(self, places, width):
        """The cells of these columns; ValueError unless every record has so many columns."""
        if self.quoted:
            if set(map(len, self.rows)) - {width}:
                raise ValueError('another number of columns')
            return [[cells[place] for cells in self.rows] for place in places]
        sign = self.separator
        flat = self.text.replace('\n', f'{sign}\n{sign}').split(sign)
        if len(flat) != self.height * (width + 1) - 1 or flat[width::width + 1] != ['\n'] * (self.height - 1):
            raise ValueError('another number of columns')
        return [flat[place::width + 1] for place in places]

    def chosen(self, places, width, separator):
        """The cells of these columns as text for the output, for each record: with the quotes that they have here, if the output has
        the same separator; cut from the record's text where they are its last ones."""
        dropped = width - len(places)
        if self.text is not None and separator == self.separator and places == list(range(dropped, width)):
            cut = [line.partition(separator) if dropped == 1 else line.split(separator, dropped) for line in self.lines] if dropped else \
                [[line] for line in self.lines]
            if not self.quoted or not any(QUOTE in cell for place in range(dropped) for cell in {cells[place] for cells in cut}):
                return [cells[-1] for cells in cut]
        columns = self.columns(places, width)
        if not self.quoted and (separator == self.separator or separator not in self.text):
            return columns[0] if len(columns) == 1 else list(map(separator.join, zip(*columns)))
        if separator != self.separator:
            return [written(cells, separator) for cells in zip(*columns)]
        cut = map(as_written(separator).findall, self.lines)
        return [separator.join([cells[place] for place in places]) for cells in cut]


class Records:
    """A file's records from its start on. What makes a line unreadable is told only when the records before it have been handed
    out."""

    def __init__(self, source, separator=','):
        # A line of separators alone, which spreadsheets append, is passed as a blank one is; `header` is the sum of the header's bytes.
        self.input, self.separator, self.hollow, self.header = source, separator, None, None
        self.start()

    def start(self):
        """Stands at the first byte."""
        self.rest, self.ended, self.late, self.at_line, self.bytes = b'', False, None, 1, FIRST_BYTES
        self.passed = self.passed_sum = 0

    def again(self, size, line):
        """Goes back to the byte of this number, with which this line begins."""
        self.input.rewind()
        self.start()
        self.more(size)
        self.pass_over(size, line)

    def changed(self):
        """The file is another one than before."""
        return Problem(f'{at(self.input.path)}: the file was changed while it was read')

    def pass_over(self, size, line):
        """Goes on behind the header, the first bytes of what was read, to this line. They are the same each time."""
        found = zlib.crc32(self.rest[:size])
        if self.header is not None and found != self.header:
            raise self.changed()
        self.header = found
        self.rest, self.at_line = self.rest[size:], line

    def go_to(self, place):
        """Goes to the byte of this number; which line it is in is not known then."""
        self.input.rewind(place)

    def exactly(self, passed, size, total, by_line):
        """The records behind so many bytes of blank lines: those of as many bytes as a block had, with its sum; else the file was changed
        in the meantime. `by_line`: they are known to be one a line."""
        self.rest = b''
        self.more(passed)
        before = zlib.crc32(self.rest)
        self.at_line, self.rest = self.at_line + self.rest.count(b'\n'), b''
        self.more(size)
        data, self.ended = self.rest, True
        if len(data) != size or zlib.crc32(data, before) != total:
            raise self.changed()
        if not by_line:
            return self.record_by_record(size)
        first, self.at_line = self.at_line, self.at_line + data.count(b'\n')
        return Block(self.separator, plain(data), first)

    def more(self, count):
        """Reads on."""
        try:
            data = self.input.read(count)
        except OSError as error:
            raise Problem(f'{at(self.input.path, self.at_line)}: cannot be read: {reason(error)}') from None
        self.rest, self.ended = self.rest + data, not data

    def to_line_end(self, start, line):
        """Where the line that begins here ends in what has been read; reads on until it does."""
        looked = start
        while True:
            end = self.rest.find(b'\n', looked) + 1
            if end or self.ended:
                return end or len(self.rest)
            looked = len(self.rest)
            if looked - start >= LONGEST_LINE:
                raise Problem(f'{at(self.input.path, line)}: the line is too long to be a row')
            self.more(max(FIRST_BYTES, looked - start))

    def lines(self, taken):
        """The lines from here on as text; each is put into `taken` with where it ends. Nothing is given away of what was read."""
        start, line, begun = 0, self.at_line, 0
        while True:
            begun = begun if taken else start
            end = self.to_line_end(start, line)
            if start == end:
                return
            if len(taken) >= MOST_LINES or end - begun > LONGEST_LINE and taken:
                raise Problem(f'{at(self.input.path, line - len(taken))}: a row has more than {MOST_LINES:,} lines or {LONGEST_LINE >> 20} MB: '
                              'a quote is opened and never closed')
            try:
                text = self.rest[start:end].decode('utf-8')
            except UnicodeDecodeError as error:
                raise Problem(self.input.said_of(line, error.start, self.rest[start:end])) from None
            if '\0' in text:
                raise Problem(self.input.said_of_nul(line, self.rest[start:end]))
            start, line = end, line + 1
            taken.append((text, end))
            yield text

    def record_by_record(self, most):
        """The next records by the reader of CSV, until so many bytes are used up; None where there is none."""
        taken, lines, rows, starts, end, line = [], [], [], [], 0, self.at_line
        try:
            for cells in csv.reader(self.lines(taken), strict=True, delimiter=self.separator):
                text = ''.join(text for text, _ in taken).rstrip('\r\n')
                if cells and text != self.hollow:
                    lines.append(text)
                    rows.append(cells)
                    starts.append(line)
                line, end = line + len(taken), taken[-1][1]
                taken.clear()
                if rows and end >= most:
                    break
        except csv.Error as error:
            self.late = Problem(f'{at(self.input.path, line)}: the line cannot be read as CSV: {plainly(error)}')
        except Problem as problem:
            self.late = problem
        used, self.rest, self.at_line = self.rest[:end], self.rest[end:], line
        if not rows:
            return self.or_late()
        return self.summed(Block(self.separator, None, starts[0], lines, rows, starts), used)

    def or_late(self):
        """Nothing more, or what was found wrong."""
        if self.late:
            raise self.late
        return None

    def summed(self, block, data):
        """A block with the number and the sum of its bytes, and how many of blank lines were passed before them."""
        block.passed, block.size, block.sum = self.passed, len(data), zlib.crc32(data, self.passed_sum)
        self.passed = self.passed_sum = 0
        return block

    def line_by_line(self, data):
        """A piece of the file that has one record a line, as a block; None where it may be otherwise. Blank lines are passed."""
        try:
            text = plain(data)
        except UnicodeDecodeError:
            return None
        if '\r' in text or '\0' in text:
            return None
        block = Block(self.separator, text, self.at_line)
        blank = '\n\n' in text or text.startswith('\n') or text.endswith('\n') or not text or self.has_hollow(text)
        if not blank and not block.quoted:
            return block
        try:
            rows = block.rows
        except csv.Error:
            return None
        if len(rows) != block.height:
            return None
        if not blank:
            return block
        kept = [bool(cells) and line != self.hollow for cells, line in zip(rows, block.lines)]
        starts = list(compress(range(self.at_line, self.at_line + len(rows)), kept))
        return Block(self.separator, None, self.at_line, list(compress(block.lines, kept)), list(compress(rows, kept)), starts)

    def has_hollow(self, text):
        """Whether a line of a text has separators alone."""
        sign = self.hollow
        return sign is not None and (f'\n{sign}\n' in text or text.startswith(f'{sign}\n') or text.endswith(f'\n{sign}') or text == sign)

    def block(self):
        """The next records, at least one; None at the end of the file."""
        while True:
            self.or_late()
            if not self.ended and len(self.rest) < self.bytes:
                self.more(self.bytes - len(self.rest))
            end = self.rest.rfind(b'\n') + 1
            if not end:
                end = self.to_line_end(0, self.at_line)
            if not end:
                return None
            data = self.rest[:end]
            block = self.line_by_line(data)
            if block is None:
                return self.record_by_record(self.bytes)
            self.rest, self.at_line = self.rest[end:], self.at_line + data.count(b'\n')
            if block.height:
                self.bytes = min(MOST_BYTES, max(FEWEST_BYTES, len(data) * ROWS // block.height))
                return self.summed(block, data)
            self.passed, self.passed_sum = self.passed + len(data), zlib.crc32(data, self.passed_sum)
