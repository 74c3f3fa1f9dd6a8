"""Both tables read to their ends and judged, before anything is written. The numbers of their compared columns are kept in
temporary files, so that the second reading need not look at these cells again."""
import os
from array import array
from itertools import compress

from .cells import WHOLE, Text, parted
from .dates import Unsettled
from .input import put, temporary
from .kinds import Turned
from .problem import Disorder

WORD = 8


class Later:
    """A block of which nothing but the height is known, until its text is wanted: notices that no sale takes are not read again."""

    def __init__(self, records, place, how, height):
        self.records, self.place, self.how = records, place, how
        self.height, self.number, self.texts = height, 0, None

    def chosen(self, *how):
        """The cells of columns as text for the output."""
        self.records.go_to(self.place)
        return self.records.exactly(*self.how).chosen(*how)


class Judged:
    """A table that was judged: of each of its blocks where it is and its sum, how many rows it has and which of its columns have nulls;
    and the numbers of its compared columns."""

    def __init__(self, source):
        self.source, self.kept, self.blocks = source, temporary(), []

    def restart(self):
        """Forgets what was read."""
        self.kept.seek(0)
        self.kept.truncate()
        self.blocks = []
        self.source.again()

    def read(self, show):
        """Reads the table to its end."""
        self.restart()
        while True:
            pair = self.source.next()
            if pair is None:
                return
            self.keep(*pair)
            show()

    def keep(self, block, columns):
        """Keeps the numbers of a block: texts by the order in which they are met."""
        nulls = []
        pairs = [parted(kind.numbers(column) if isinstance(kind, Text) else column) for kind, column in zip(self.source.kinds_here(), columns)]
        for values, marks in pairs + [self.source.read_beside(block, cells) for cells in block.beside]:
            nulls.append(marks is not None)
            put(self.kept, values.tobytes() + (marks.tobytes() if marks is not None else b''))
        self.blocks.append(((block.passed, block.size, block.sum, block.text is not None), block.height, nulls))

    def words(self, height):
        """The next words of what was kept."""
        words = array('q')
        words.frombytes(self.kept.read(WORD * height))
        return words

    def start(self):
        """Goes back to the first row: how many there are is known now."""
        self.source.again()
        self.source.counted = sum(height for _, height, _ in self.blocks)

    def again(self):
        """The blocks again, from the first on, without their columns."""
        self.start()
        for how, height, _ in self.blocks:
            self.source.rows += height
            yield self.source.records.exactly(*how)

    def pairs(self, later=False):
        """The blocks again, from the first on, each with its columns in numbers: values and marks; text by codes in text order. A column
        that is kept beside the compared ones is the last.
        `later`: the text of a block is read when it is wanted."""
        self.start()
        self.kept.seek(0)
        codes, place = [code and code.tolist() for code in self.source.kinds.codes()][:len(self.source.places)], self.source.header_size
        codes += [None] * len(self.source.beside)
        for how, height, nulls in self.blocks:
            columns = []
            for code, null in zip(codes, nulls):
                values = self.words(height)
                values = values if code is None else array('q', map(code.__getitem__, values))
                marks = self.words(height) if null else None
                columns.append((values if marks is None or code is None else array('q', map(int.__mul__, values, marks)), marks))
            self.source.rows += height
            yield Later(self.source.records, place, how, height) if later else self.source.records.exactly(*how), columns
            place += how[0] + how[1]

    def groups(self, by):
        """For each block the set of its by-values, as the library has them; rows with a null are left out."""
        codes = [code and code.tolist() for code in self.source.kinds.codes()[:by]]
        self.kept.seek(0)
        for _, height, nulls in self.blocks:
            values, marks = [], []
            for null in nulls[:by]:
                values.append(self.words(height))
                marks += [self.words(height)] if null else []
            self.kept.seek(WORD * height * sum(1 + null for null in nulls[by:]), os.SEEK_CUR)
            found = zip(set(values[0])) if by == 1 and not marks else set(compress(zip(*values), map(all, zip(*marks))) if marks else zip(*values))
            yield {tuple(value if code is None else code[value] for value, code in zip(group, codes)) for group in found}

    def close(self):
        """Gives the temporary file back."""
        self.kept.close()


def note_texts(kinds):
    """Notes each by-column that is text because of one cell, though it has whole numbers too."""
    for column, why in kinds.why.items():
        if any(WHOLE.fullmatch(text) for text in kinds.by[column].known):
            kinds.notes.append(f'{kinds.order.columns[column]} is compared as text, because of {why}')


def read_all(tables, progress):
    """Reads both tables to their ends. That a by-column is text may be known only by its last cell: where rows are out of order as
    whole numbers, all cells are looked at before that is told."""
    try:
        for table in tables:
            table.read(lambda: progress.show('reading', *(each.source for each in tables)))
    except Disorder:
        turned = next(filter(None, (table.source.turned() for table in tables)), None)
        if turned is None:
            raise
        raise turned from None


def judge(tables, kinds, progress):
    """Reads both tables to their ends and judges them. If a by-column turns out to be text, or a date column
    to need a look at all its cells, both are read again."""
    while True:
        try:
            read_all(tables, progress)
            note_texts(kinds)
            return
        except Unsettled as unsettled:
            unsettled.source.look_through(unsettled.column)
        except Turned as turned:
            kinds.turn(turned)
