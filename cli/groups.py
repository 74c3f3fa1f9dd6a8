"""The groups of the sales that no notice has: how many, the first by name, and which of them a notice has in other letters."""
import operator
import re
import unicodedata
from itertools import compress

from .cells import Text
from .problem import SHOWN, quoted

# How many groups a message names.
NAMED = 5

# The sales of a frame that are looked at one by one.
FEW = 256

# A number as other programs write it, and a cell as Excel guards it from becoming a number.
NUMBER, GUARDED = re.compile('([+-]?)0*([0-9]+)(?:[.,]0+)?'), re.compile('="(.*)"')


def likened(text):
    """A text without what is easily overlooked: case, blanks, the form of accents, Excel's guard, zeros around a number."""
    text = ' '.join(unicodedata.normalize('NFC', text).casefold().split())
    guarded = GUARDED.fullmatch(text)
    text = guarded.group(1) if guarded else text
    number = NUMBER.fullmatch(text)
    return number.group(1).replace('+', '') + number.group(2) if number else text


def shown(text):
    """A name as a message shows it."""
    return text if text.isprintable() and len(text) <= SHOWN and text.strip() == text else quoted(text)


class Missing:
    """The groups that have a sale without a notice. By-values are as the library has them."""

    def __init__(self, order):
        self.names, self.groups = order.columns[:-1], set()

    def take(self, words, marks):
        """Takes the groups of those sales of a frame that have no notice."""
        width, size, by = words[1], words[0] * words[1], len(self.names)
        rows = list(compress(range(len(marks)), map(operator.not_, marks))) if by else []
        if len(rows) < FEW:
            starts = [2 + row * width for row in rows]
            self.groups.update((*words[start:start + by], *words[start + size:start + size + by]) for start in starts)
        else:
            columns = [words[start + place:start + size:width] for start in (2, 2 + size) for place in range(by)]
            self.groups.update(compress(zip(*columns), map(operator.not_, marks)))

    def without_notices(self, table):
        """The groups, all of whose cells are known, that no row of the notices has."""
        by = len(self.names)
        left = {each[:by] for each in self.groups if all(each[by:])}
        for found in table.groups(by) if left else ():
            left -= found
            if not left:
                break
        return sorted(left)

    def near(self, left, table, kinds):
        """For groups that no notice has, by their names, the names of a notice's group that looks alike."""
        if not any(isinstance(kind, Text) for kind in kinds.by):
            return {}
        wanted = {tuple(map(likened, each)): each for each in left}
        names, near = Names(kinds), {}
        for found in table.groups(len(self.names)):
            for group in map(names.of, found):
                alike = wanted.get(tuple(map(likened, group)))
                if alike is not None:
                    near[alike] = group
        return near

    def said(self, table, kinds):
        """What is said of groups that no notice has; nothing where there is none."""
        left = list(map(Names(kinds).of, self.without_notices(table)))
        if not left:
            return ''
        near = self.near(left, table, kinds)
        first = sorted(left, key=lambda each: each not in near)[:NAMED] if len(left) > NAMED else left
        told = [f'{" ".join(map(shown, each))}' + (f' (the notices have {" ".join(map(quoted, near[each]))})' if each in near else '')
                for each in first]
        many = f'{len(left):,} group{" has" if len(left) == 1 else "s have"} no notice at all'
        return f'; {many}{", as" if len(left) > NAMED else ":"} {" ".join(self.names)} {", ".join(told)}'


class Names:
    """The names of groups by the library's values."""

    def __init__(self, kinds):
        self.texts = [sorted(kind.known) if isinstance(kind, Text) else None for kind in kinds.by]

    def of(self, group):
        """The names of a group."""
        return tuple(str(value) if texts is None else texts[value] for value, texts in zip(group, self.texts))
