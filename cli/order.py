"""The order that both tables must have: by the by-columns in turn, then by the key."""
import operator
from itertools import compress, count, islice

# Nulls are compared as numbers beyond all of 64 bits, below them or above.
BELOW, ABOVE = -2**64, 2**64

# How many codes of a list a message shows.
SHOWN = 8


def falls(cells):
    """The rows of a column, from 0, that are greater than the row behind them."""
    return compress(count(), map(operator.gt, cells, cells[1:]))


class Order:
    """The columns that rows are compared by, each with its direction and the place of its nulls. `listed` is none, or a by-column
    and the codes that it has, in their order: it is compared by the places of these."""

    def __init__(self, by, key, descending=(), nulls_last=(), listed=None):
        self.columns = [*by, key]
        self.descending = [name in descending for name in by]
        self.nulls_last = [name in nulls_last for name in by]
        signs = [-1 if down else 1 for down in self.descending] + [1]
        nulls = [ABOVE if last else BELOW for last in self.nulls_last] + [BELOW]
        self.rules = list(zip(signs, nulls))
        self.ranks = None if listed is None else (self.columns.index(listed[0]), list(listed[1]))
        self.places = {} if listed is None else {code: place for place, code in enumerate(listed[1])}
        self.plain = not any(self.descending) and listed is None

    def coded(self, codes):
        """The same order over other codes of the list, one for each."""
        other = Order.__new__(Order)
        other.__dict__.update(self.__dict__)
        if self.ranks is not None:
            other.ranks = (self.ranks[0], list(codes))
            other.places = {code: place for place, code in enumerate(codes)}
        return other

    def has_list(self, column):
        """Whether a column is compared by a list."""
        return self.ranks is not None and column == self.ranks[0]

    def may_stand(self, column, cell):
        """Whether a cell may stand in a column: in the one that has a list, a null or one of its codes."""
        return not self.has_list(column) or cell is None or cell in self.places

    def lacks(self, columns):
        """Whether, of these columns, the one that has a list has another code."""
        return self.ranks is not None and not set(columns[self.ranks[0]]) - {None} <= self.places.keys()

    def comparable(self, column, cells):
        """A column as numbers that compare as its cells do: texts by their places among those of this column."""
        sign, null = self.rules[column]
        if self.has_list(column):
            places = self.places
        elif any(isinstance(cell, str) for cell in islice(filter(None, cells), 1)):
            places = {text: place for place, text in enumerate(sorted(set(cells) - {None}))}
        else:
            return [null if cell is None else sign * cell for cell in cells]
        return [null if cell is None else sign * places[cell] for cell in cells]

    def ranks_of(self, columns):
        """For each row of these columns what it is compared by: of two rows the one with the smaller rank comes first."""
        return list(zip(*(self.comparable(place, cells) for place, cells in enumerate(columns))))

    def rank(self, cells):
        """What one row of these cells is compared by."""
        return tuple(self.comparable(place, (cell,))[0] for place, cell in enumerate(cells))

    def in_order(self, columns):
        """Whether the rows of these columns are sorted. Where nothing but numbers or texts that rise is there, the first column must not
        fall, which Python's sort sees at once, and a row can be out of order only where some other column falls: those rows alone are
        looked at."""
        if not self.plain or any(isinstance(cells, list) and None in cells for cells in columns):
            ranks = self.ranks_of(columns)
            return all(map(operator.le, ranks, islice(ranks, 1, None)))
        columns = [list(cells) for cells in columns]
        if columns[0] != sorted(columns[0]):
            return False
        rows = (row for cells in columns[1:] for row in falls(cells))
        return all([cells[row] for cells in columns] <= [cells[row + 1] for cells in columns] for row in rows)

    def fault(self, before, after):
        """The column by which the later of two rows should have come first, from 0; None where they are in order."""
        for column, pair in enumerate(zip(before, after)):
            if pair[0] != pair[1]:
                first, second = self.comparable(column, pair)
                return column if second < first else None
        return None

    def said_of_list(self, column):
        """The order of a column's codes in words, if it has a list; of a long one its first codes."""
        if not self.has_list(column):
            return []
        codes = [str(code) for code in self.ranks[1]]
        return ['in the order ' + ' '.join(codes[:SHOWN] + ['…'] * (len(codes) > SHOWN))]

    def said(self, names):
        """The order in words, by the names that a file's columns have."""
        said = []
        for column, (name, down, last) in enumerate(zip(names, self.descending + [False], self.nulls_last + [False])):
            notes = ['descending'] * down + ['empty cells last'] * last + self.said_of_list(column)
            said.append(f'{name} ({", ".join(notes)})' if notes else name)
        return ', then '.join(said)

    def __str__(self):
        """The order in words, by the names of the sales' columns."""
        return self.said(self.columns)
