"""Amounts in cells: whole numbers, or with so many places behind the point or the comma. The library adds them as whole numbers of the
smallest piece, as cents."""
import contextlib
import re
from array import array

from .cells import REMEMBERED, number, parted
from .problem import Problem, quoted

# The largest size of an amount, in pieces, and the most sales that takings count: the library's limits.
MOST_AMOUNT, MOST_SALES = 10**9, 2**31

# The digits that are read at most: a longer number is beyond any limit.
DIGITS = 40


class Amounts:
    """How amounts are read and written, with so many places."""

    def __init__(self, places):
        self.places = places
        self.form = re.compile(f'([+-]?)([0-9]{{1,{DIGITS}}})(?:[.,]([0-9]{{1,{places}}}))?' if places else
                               f'([+-]?)([0-9]{{1,{DIGITS}}})()')
        self.known = {}

    def said(self):
        """What a cell should have held."""
        if not self.places:
            return 'a whole number; for amounts as 18.50 say --decimals 2'
        return f'an amount with at most {self.places} place{"" if self.places == 1 else "s"} behind the point, as --decimals {self.places} has it'

    def pieces(self, cell):
        """The amount in a cell, in pieces; None where it is empty. ValueError says what else stands there."""
        text = cell.strip()
        if not text:
            return None
        found = self.form.fullmatch(text)
        if not found:
            raise ValueError(f'{quoted(cell)} is not {self.said()}')
        sign, whole, part = found.groups()
        return int(sign + whole + (part or '').ljust(self.places, '0'))

    def amount(self, cell):
        """The same, within the limits of an amount."""
        value = self.pieces(cell)
        if value is not None and abs(value) > MOST_AMOUNT:
            raise ValueError(f'{quoted(cell)} is beyond {self.text(MOST_AMOUNT)}, the largest amount')
        return value

    def column(self, cells, place):
        """The amounts in cells: values and marks. At once if all were met before and none is empty. `place` tells where a row stands."""
        with contextlib.suppress(KeyError, TypeError):
            return array('q', map(self.known.__getitem__, cells)), None
        if len(self.known) > REMEMBERED:
            self.known.clear()
        for cell in dict.fromkeys(cells):
            try:
                self.known[cell] = self.known[cell] if cell in self.known else self.amount(cell)
            except ValueError as why:
                raise Problem(f'{place(cells.index(cell))}: {why}') from None
        found = list(map(self.known.__getitem__, cells))
        return parted(found if None in found else array('q', found))

    def total(self, cell):
        """The total in a cell of takings, in pieces; it has just the places that it was written with."""
        value = self.pieces(cell)
        if value is None or self.text(value) != cell.strip():
            places = f'{self.places} place{"" if self.places == 1 else "s"} behind the point' if self.places else 'no places behind a point'
            raise ValueError(f'{quoted(cell)} is not a total with {places}, as takings are written')
        return value

    def text(self, pieces):
        """Pieces as they are written."""
        if not self.places:
            return str(pieces)
        digits = str(abs(pieces)).rjust(self.places + 1, '0')
        return f'{"-" * (pieces < 0)}{digits[:-self.places]}.{digits[-self.places:]}'


def count(cell, least):
    """The count in a cell of takings, from `least` on. ValueError says what else stands there."""
    value = number(cell)
    if value is None or not least <= value <= MOST_SALES:
        raise ValueError(f'{quoted(cell)} is not a number of sales from {least} to {MOST_SALES:,}')
    return value
