"""Lengths of time, in whole microseconds."""
import re

SECOND = 10**6
UNITS = {'s': SECOND, 'm': 60 * SECOND, 'h': 3600 * SECOND, 'd': 86400 * SECOND}

# A length of time: days, hours, minutes, seconds, each with its letter, and parts of a second.
LENGTH = re.compile(r'(?:([0-9]+)\s*d\s*)?(?:([0-9]+)\s*h\s*)?(?:([0-9]+)\s*m\s*)?(?:([0-9]+)(?:[.]([0-9]{1,6}))?\s*s)?')


def length(count):
    """So many microseconds as a length of time: 11d18h5m. Parts without a count are left out, and parts of a second stand behind a
    point."""
    found = ''
    for unit in 'dhm':
        whole, count = divmod(count, UNITS[unit])
        found += f'{whole}{unit}' if whole else ''
    seconds, part = divmod(count, SECOND)
    if part:
        return found + f'{seconds}.{part:06}'.rstrip('0') + 's'
    return found + f'{seconds}s' if seconds or not found else found


def microseconds(text):
    """The microseconds of a length of time, as `length` writes it or in other counts: 2h, 36h, 1d12h, 1.5s. None if it is none."""
    shape = LENGTH.fullmatch(text.strip())
    if not shape or not any(shape.groups()):
        return None
    *counts, part = shape.groups()
    return sum(int(count or 0) * UNITS[unit] for count, unit in zip(counts, 'dhms')) + int((part or '0').ljust(6, '0'))
