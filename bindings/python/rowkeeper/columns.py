"""What a column may be, and the errors about columns, with numpy or without it."""

# What a key or a by-column may hold.
WANTED = 'whole numbers of at most 64 bits, datetime64 or timedelta64 are wanted'


class Column:
    """Numbers with their marks: `valid` says of each whether it is there (true) or null (false). Both have the buffer protocol;
    a valid of None means that none is null."""

    def __init__(self, values, valid=None):
        self.values, self.valid = values, valid


def parted(column):
    """The values of what a caller hands in as a column, and which of them are there, or None."""
    if isinstance(column, Column):
        return column.values, column.valid
    return column, None


def listed(columns):
    """By-columns as a list: none, one, or a list or tuple of them."""
    if columns is None:
        return []
    return list(columns) if isinstance(columns, (list, tuple)) else [columns]


def same_length(count, rows, name):
    """ValueError unless a column has as many rows as the key of its side."""
    if count != rows:
        raise ValueError(f'{name} has {count} rows, and the key of its side has {rows}')


def unsorted(name, row, before):
    """The error about a key that is smaller than that of a row before it."""
    return ValueError(f'{name} is not sorted: row {row} has a smaller key than row {before}')
