"""What the cells of a compared column may be: whole numbers or text; dates.py has times. Each kind reads a cell, and a column of cells."""
import contextlib
import re
from array import array

from .problem import quoted

# The ends of 64-bit numbers with a sign.
LEAST, MOST = -2**63, 2**63 - 1

# The most digits that such a number has.
DIGITS = 19

# How often each cell of a column stands there where it is read once for all, the cells that are looked at first for that, and how many
# different amounts are remembered.
OFTEN, SAMPLE, REMEMBERED = 4, 64, 20000

WHOLE = re.compile(r'([+-]?)0*([0-9]+)')


def number(cell):
    """The whole number in a cell, or None where the cell is empty (a null). ValueError says what else stands there."""
    text = cell.strip()
    if not text:
        return None
    whole = WHOLE.fullmatch(text)
    if not whole:
        raise ValueError(f'{quoted(cell)} is not a whole number')
    sign, digits = whole.groups()
    value = int(sign + digits) if len(digits) <= DIGITS else MOST + 1
    if not LEAST <= value <= MOST:
        raise ValueError(f'{quoted(cell)} is beyond 64 bits')
    return value


class Whole:
    """Whole numbers of 64 bits with a sign."""

    said, sample = 'a whole number', '120'
    value = staticmethod(number)
    # A distance of two keys as it is written.
    apart = staticmethod(str)

    @staticmethod
    def column(cells):
        """The numbers of a column, None for each null; ValueError where a cell is none. Python's own reader of numbers is taken
        where all cells are plain: it would take other things for numbers too."""
        often = len(set(cells[:SAMPLE])) * OFTEN < SAMPLE
        different = set(cells) if often else cells
        text = ''.join(different)
        if text.isascii() and '_' not in text:
            try:
                if often and '' not in different and len(different) * OFTEN < len(cells):
                    return array('q', map({cell: int(cell) for cell in different}.__getitem__, cells))
                with contextlib.suppress(ValueError):
                    return array('q', map(int, cells))
                column = [int(cell) if cell else None for cell in cells]
                array('q', filter(None, column))
                return column
            except (ValueError, OverflowError):
                pass
        return [number(cell) for cell in cells]


class Text:
    """Any text, without the blanks around it. What is met gets a number each, in the order in which it is met."""

    said = 'text'

    def __init__(self, known=()):
        self.known = {}
        self.meet(known)

    @staticmethod
    def value(cell):
        """The text of a cell, or None where it is empty."""
        return cell.strip() or None

    @staticmethod
    def column(cells):
        """The texts of a column, None for each null."""
        texts = list(map(str.strip, cells))
        return [text or None for text in texts] if '' in texts else texts

    def meet(self, texts):
        """Numbers texts that are new."""
        for text in texts:
            self.known.setdefault(text, len(self.known))

    def numbers(self, column):
        """The numbers of a column of texts: at once if all were met before and none is null."""
        with contextlib.suppress(KeyError):
            return array('q', map(self.known.__getitem__, column))
        different = set(column)
        self.meet(different - self.known.keys() - {None})
        return [None if text is None else self.known[text] for text in column] if None in different else \
            array('q', map(self.known.__getitem__, column))

    def codes(self):
        """For each number, in turn, the place of its text among all that were met, in text order."""
        places = {text: place for place, text in enumerate(sorted(self.known))}
        return array('q', map(places.__getitem__, self.known)) or array('q', [0])

    def coded(self, column):
        """The codes of a column of texts, where no other text will be met."""
        codes = self.codes()
        return [None if text is None else codes[self.known[text]] for text in column]


def parted(column):
    """The values of a column of numbers, 0 for each null, and its marks, 0 for each null, or None where it has none."""
    if isinstance(column, array):
        return column, None
    values = array('q', [cell or 0 for cell in column])
    return values, array('q', [0 if cell is None else 1 for cell in column]) if None in column else None


def frame_words(columns, first, end):
    """Rows of these columns, each its values and its marks or None, as the library's frame: rows n, columns c, n × c values,
    n × c marks."""
    height, width = end - first, len(columns)
    size = height * width
    words = array('q', [height, width]) + array('q', [1]) * (2 * size)
    for place, (values, marks) in enumerate(columns, 2):
        words[place:2 + size:width] = values[first:end]
        if marks is not None:
            words[place + size:2 + 2 * size:width] = marks[first:end]
    return words
