"""What the compared columns hold, in both files alike: a by-column whole numbers or text, the key whole numbers or times."""
import collections

from .cells import MOST, Text, Whole, number
from .dates import YEAR_ENDS, YEAR_LEADS, Time
from .problem import BAD_USAGE, Problem, at, quoted

# The greatest distance of two keys: a number, or the microseconds of a time; and as it was said.
Tolerance = collections.namedtuple('Tolerance', 'count timed said')


class Turned(Exception):
    """A by-column of whole numbers has a cell that is none: the column is text."""

    def __init__(self, column, path, line, cell):
        super().__init__(column)
        self.column = column
        self.why = f'{quoted(cell)} in {at(path, line)}'


def listed_codes(texts):
    """The codes of a list: whole numbers if all are, else texts."""
    try:
        return [number(text) for text in texts]
    except ValueError:
        return [text.strip() for text in texts]


def looks_like_time(cell):
    """Whether a cell begins as a date or time does."""
    return bool(YEAR_LEADS.match(cell.strip()) or YEAR_ENDS.match(cell.strip()))


class Kinds:
    """The kinds of an order's columns. The key's is that of the first cell that is met, in either file; a file may have several columns
    of it, behind the by-columns. `notes` are for the user, if all goes well."""

    def __init__(self, order, tolerance=None, may_be_text=True, keys=1):
        self.order, self.tolerance, self.may_be_text, self.keys = order, tolerance, may_be_text, keys
        self.key, self.begun, self.sample, self.why, self.notes = None, None, None, {}, []
        # The columns that both files have and that are not compared, where no groups are named.
        self.shared = []
        self.by = [Whole() for _ in order.descending]
        if order.ranks is not None and any(isinstance(code, str) for code in order.ranks[1]):
            self.by[order.ranks[0]] = Text(order.ranks[1])

    def all(self):
        """The kind of each column."""
        return [*self.by, *[self.key or Whole()] * self.keys]

    def turn(self, turned):
        """Takes a by-column for text from now on. What was read of it as numbers must be read again."""
        self.by = [Text() if isinstance(kind, Text) else kind for kind in self.by]
        self.by[turned.column] = Text()
        self.why[turned.column] = turned.why
        if self.order.ranks is not None and isinstance(self.by[self.order.ranks[0]], Text):
            self.by[self.order.ranks[0]].meet(self.order.ranks[1])

    def share(self, headers):
        """Notes the columns that both files have and that are not compared, unless groups are named."""
        compared = {part for names in headers for part in names.compared()}
        self.shared = [] if self.by else [name for name in headers[0].header if name and name in headers[1].header and name not in compared]
        if self.shared:
            many = len(self.shared) > 1
            self.notes.append(f'{" and ".join(self.shared[:5])} {"are" if many else "is"} in both files and {"were" if many else "was"} not '
                              f'compared: add --by {self.shared[0]} if a sale and its notice must be equal there')

    def turns(self, column):
        """Whether a by-column of whole numbers may become one of text: one with a list of numbers may not."""
        return self.may_be_text and column < len(self.by) and isinstance(self.by[column], Whole) and not self.order.has_list(column)

    def begin(self, reader, cell, path, line):
        """Settles the kind of the key by what reads its first cell. ValueError if another column has it of another kind."""
        kind = getattr(reader, 'kind', reader)
        if self.key is None:
            self.key, self.begun, self.sample = kind, at(path, line), reader.sample
            self.distance()
        elif isinstance(kind, Time) != isinstance(self.key, Time) or isinstance(kind, Time) and kind.zoned != self.key.zoned:
            raise ValueError(f'{quoted(cell)} is not {self.key.said}')

    def distance(self):
        """The tolerance in the key's own numbers, or None. A Problem if it is of another kind; where no key is known any will do."""
        if self.tolerance is None:
            return None
        count, timed, said = self.tolerance
        if self.key is not None and isinstance(self.key, Time) != timed:
            here = 'times: --tolerance 2h, with d, h, m or s' if isinstance(self.key, Time) else 'whole numbers: --tolerance 120'
            raise Problem(f'--tolerance {said}: does not go with {self.order.columns[-1]}, which holds {here}', BAD_USAGE)
        if count > MOST:
            raise Problem(f'--tolerance {said}: is beyond 64 bits of microseconds', BAD_USAGE)
        return count

    def not_of(self, column, why, cell, sample):
        """What is said of a cell that is not of its column's kind; `sample` is how that column writes a key, or None."""
        if self.order.has_list(column):
            return f'{quoted(cell)} is not among the codes of --rank'
        if column < len(self.by):
            return f'{why}, as --stream wants it of --by columns'
        if self.key is None or not isinstance(self.key, Time) and not looks_like_time(cell):
            return str(why)
        why = f'{quoted(cell)} is not {self.key.said}' if 'dates are written' in str(why) else why
        said = f'{why}, as the column has them from {self.begun} on: {sample or self.sample}'
        if isinstance(self.key, Time) and looks_like_time(cell) and 'zone' in str(why):
            said += '; times without a zone are taken for those of a place if --zone names it, as --zone Europe/Berlin'
        return said

    def codes(self):
        """For each column of text the codes of its numbers, in text order; None for the others."""
        return [kind.codes() if isinstance(kind, Text) else None for kind in self.all()]

    def coded_order(self):
        """The order over the numbers that are handed in: those of a list of texts are their codes."""
        if self.order.ranks is None or not isinstance(self.by[self.order.ranks[0]], Text):
            return self.order
        kind = self.by[self.order.ranks[0]]
        codes = kind.codes()
        return self.order.coded([codes[kind.known[text]] for text in self.order.ranks[1]])
