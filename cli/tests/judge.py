"""An as-of join in plain Python, over whole tables, by docs/SCOPE.md, 4, 10 and 14, alone: the tests' judge. Cells
are read here by Python's own readers, never by the command's."""
import datetime


def distance(left, right):
    """The distance of two keys."""
    return max(left, right) - min(left, right)


def qualifies(left, right, strategy, exact, tolerance):
    """Whether a right row may be the match of a left row: both without nulls, groups equal, the key on the strategy's side,
    the distance within the tolerance."""
    if None in left or None in right or left[:-1] != right[:-1]:
        return False
    a, b = left[-1], right[-1]
    side = {'backward': b <= a, 'forward': b >= a, 'nearest': True}[strategy]
    return side and (exact or a != b) and (tolerance is None or distance(a, b) <= tolerance)


def choice(left, numbered, strategy):
    """The number of the match among the right rows that qualify."""
    if strategy == 'backward':
        return max(numbered, key=lambda each: (each[1][-1], each[0]))[0]
    if strategy == 'forward':
        return min(numbered, key=lambda each: (each[1][-1], each[0]))[0]
    near = min(distance(left[-1], each[1][-1]) for each in numbered)
    return max((each for each in numbered if distance(left[-1], each[1][-1]) == near), key=lambda each: (each[1][-1], each[0]))[0]


def matches(lefts, rights, strategy='backward', exact=True, tolerance=None):
    """For each left row the number of its right row, or None."""
    found = []
    for left in lefts:
        numbered = [each for each in enumerate(rights) if qualifies(left, each[1], strategy, exact, tolerance)]
        found.append(choice(left, numbered, strategy) if numbered else None)
    return found


def cell_before(a, b, descending, nulls_last, codes=None):
    """Whether a cell comes strictly before another: by number, or as the codes of a list come."""
    if a is None or b is None:
        return a != b and (b is None) == nulls_last
    if codes is not None:
        a, b = codes.index(a), codes.index(b)
    return a > b if descending else a < b


def row_before(a, b, descending, nulls_last, lists=()):
    """Whether a row comes strictly before another: by-columns in turn, then the key, ascending with nulls first. Lists are the codes
    of each by-column, or None."""
    lists = [*lists, *[None] * (len(a) - len(lists))]
    for x, y, down, last, codes in zip(a, b, [*descending, False], [*nulls_last, False], lists):
        if x != y:
            return cell_before(x, y, down, last, codes)
    return False


def in_order(rows, descending, nulls_last, lists=()):
    """Rows sorted, by putting each in its place."""
    done = []
    for row in rows:
        place = len(done)
        while place and row_before(row, done[place - 1], descending, nulls_last, lists):
            place -= 1
        done.insert(place, row)
    return done


# The forms of a time, as Python's own reader of them knows them.
FORMS = [f'{date}{clock}{zone}' for date in ('%Y-%m-%d', '%d.%m.%Y') for clock in ('', ' %H:%M', 'T%H:%M', ' %H:%M:%S', 'T%H:%M:%S', ' %H:%M:%S.%f', 'T%H:%M:%S.%f')
         for zone in ('', '%z') if clock or not zone]


def moment(cell):
    """The time in a cell, by strptime; None where it is empty."""
    text = cell.strip()
    if not text:
        return None
    for form in FORMS:
        try:
            return datetime.datetime.strptime(text, form)
        except ValueError:
            continue
    raise ValueError(f'{cell} is no time')


def by_values(*columns):
    """Cells of by-columns of both files: as numbers if all are, else as texts; None where they are empty. A list for each file."""
    cells = [[cell.strip() for cell in column] for column in columns]
    there = [cell for column in cells for cell in column if cell]
    whole = all(cell.lstrip('+-').isdigit() and cell.isascii() and len(cell) - len(cell.lstrip('+-')) < 2 for cell in there)
    return [[None if not cell else int(cell) if whole else cell for cell in column] for column in cells]
