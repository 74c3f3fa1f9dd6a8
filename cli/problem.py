"""What stops a run, told in one line."""
import sys

# The statuses that the command ends with.
DONE, BAD_INPUT, BAD_USAGE, NO_LIBRARY, UNMATCHED = 0, 1, 2, 3, 4

# How much of a cell a message shows.
SHOWN = 40


class Problem(Exception):
    """One line for the user, and the status that the command ends with."""

    def __init__(self, line, status=BAD_INPUT):
        super().__init__(line)
        self.status = status


class Disorder(Problem):
    """Rows that are out of order."""


class Quiet:
    """Whether a run that goes well says nothing: `wanted` is set once the command line is read."""

    wanted = False


def say(line, always=False):
    """A line on standard error; nothing where that is closed or cannot be written, or where --quiet keeps all but faults from it."""
    if sys.stderr is not None and (always or not Quiet.wanted):
        try:
            print(f'rowkeeper: {line}', file=sys.stderr, flush=True)
        except OSError:
            pass


def quoted(text):
    """A cell or a column's name as a message shows it: in quotes, without line ends, and not too long."""
    return repr(text if len(text) <= SHOWN else text[:SHOWN] + '…')


def named(path):
    """A file's name as a message shows it: as it was given, unless that would spoil the line."""
    return path if path.isprintable() else repr(path)


def at(path, line=None, column=None):
    """The place that a message speaks of."""
    places = [named(path)]
    if line is not None:
        places.append(f'line {line}')
    if column is not None:
        places.append(f'column {column if column.isprintable() and len(column) <= SHOWN else quoted(column)}')
    return ', '.join(places)


def reason(error):
    """Why the system refused something, in its own words."""
    return error.strerror or str(error)
