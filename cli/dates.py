"""Dates and times as tills write them, in whole microseconds. A column has one form, which its first cell shows; day or month
first is never guessed. cli/tests/cases/dates.txt has the cases."""
import contextlib
import datetime
import re
from array import array

from .cells import WHOLE, Whole, number
from .problem import BAD_USAGE, Problem, at, quoted
from .times import SECOND, UNITS, length

DAY = UNITS['d']

# What --dates may say: which part of a date comes first, or that numbers are Excel's.
DAY_FIRST, MONTH_FIRST, YEAR_FIRST, EXCEL = 'dmy', 'mdy', 'ymd', 'excel'
ORDERS = (DAY_FIRST, MONTH_FIRST, YEAR_FIRST, EXCEL)

# The places of year, month and day among the numbers of a date.
PLACES = {YEAR_FIRST: (0, 1, 2), DAY_FIRST: (2, 1, 0), MONTH_FIRST: (2, 0, 1)}

# The forms that a message shows where a column has none yet.
WRITTEN = '2026-01-05 19:30, 05.01.2026 19:30 or 1/5/2026 7:30 PM'

# What a cell with a date begins with: the year first or last, between one and the same sign.
YEAR_LEADS = re.compile('[0-9]{4}([-/.])[0-9]{1,2}\\1[0-9]{1,2}(?![0-9])')
YEAR_ENDS = re.compile('([0-9]{1,2})([-/.])([0-9]{1,2})\\2[0-9]{4}(?![0-9])')
SHORT_YEAR = re.compile('[0-9]{1,2}([-/.])[0-9]{1,2}\\1[0-9]{2}(?![0-9])')

CLOCK = re.compile('([0-9]{1,2}):([0-5][0-9])(?::([0-5][0-9])(?:[.,]([0-9]{1,9}))?)?'
                   '(?:[ \u00a0\u202f]?([AaPp])[.]?[Mm][.]?)?( ?(?:[Zz]|[+-].*))?')
ZONE = re.compile(' ?(?:[Zz]|([+-])([01][0-9]|2[0-3])(?::?([0-5][0-9]))?)')

# Excel's number of a day, and the part of the day; and the number of 1 January 1970. Days below the first are one off, since
# Excel has a 29 February 1900. Parts are rounded to milliseconds, which is what Excel keeps.
SERIAL = re.compile('([0-9]{1,7})(?:[.,]([0-9]{1,17}))?')
SERIAL_1970, FIRST_SERIAL, LAST_SERIAL = 25569, 61, 2958465

# The characters of a date such as 2026-01-05: what stands behind them is the time of day.
DATE_LENGTH = 10

# How many different cells, and how many times of day, are remembered.
REMEMBERED, CLOCKS_REMEMBERED = 20000, 100000

# The length of time within which a zone has at most one change.
SLOT = 15 * UNITS['m']

EPOCH = datetime.datetime(1970, 1, 1)


class Unsettled(Exception):
    """A column whose dates may have the day first or the month: its other cells have to be looked at."""

    def __init__(self, source, column):
        super().__init__(column)
        self.source, self.column = source, column


class Time:
    """The kind of a column of times: all with a zone or all without one."""

    # A distance of two times as it is written.
    apart = staticmethod(length)

    def __init__(self, zoned):
        self.zoned = zoned
        self.said = 'a time with a zone' if zoned else 'a date or time without a zone'


class Days(dict):
    """The microseconds from the first day of 1970 to the midnight of dates that are written in one order with one sign."""

    def __init__(self, order, sign):
        super().__init__()
        self.order, self.sign = order, sign
        between = re.escape(sign)
        first, last = ('[0-9]{4}', '[0-9]{1,2}') if order == YEAR_FIRST else ('[0-9]{1,2}', '[0-9]{4}')
        self.shape = re.compile(f'({first}){between}([0-9]{{1,2}}){between}({last})')
        self.sample = sign.join({YEAR_FIRST: ('2026', '01', '05'), DAY_FIRST: ('05', '01', '2026')}.get(order, ('01', '05', '2026')))

    def __missing__(self, text):
        """A date that is met for the first time; ValueError if it is none."""
        shape = self.shape.fullmatch(text)
        if not shape:
            raise ValueError('')
        year, month, day = (int(shape.group(1 + place)) for place in PLACES[self.order])
        try:
            date = datetime.date(year, month, day)
        except ValueError:
            raise ValueError('there is no such day') from None
        self[text] = (date.toordinal() - EPOCH.toordinal()) * DAY
        return self[text]


class Serials(dict):
    """The same for Excel's numbers of days."""

    order, sign, sample = EXCEL, None, '46027.8125'

    def __missing__(self, text):
        """A number that is met for the first time; ValueError if it is none."""
        shape = SERIAL.fullmatch(text)
        if not shape:
            raise ValueError('')
        if not FIRST_SERIAL <= int(shape.group(1)) <= LAST_SERIAL:
            raise ValueError("Excel's days from 1 March 1900 on are 61 and more")
        self[text] = (int(shape.group(1)) - SERIAL_1970) * DAY + part_of_day(shape.group(2))
        return self[text]


def part_of_day(digits):
    """The microseconds of a part of a day in decimal digits, rounded to milliseconds."""
    if not digits:
        return 0
    milliseconds, size = DAY // 1000, 10**len(digits)
    return (2 * int(digits) * milliseconds + size) // (2 * size) * 1000


class Clocks(dict):
    """The microseconds of times of day, less what their zone is ahead by. All have a zone or none, and all have AM or PM or none.
    `bare` is what a date without one has."""

    def __init__(self, zoned, bare=0):
        super().__init__()
        self.zoned, self.bare, self.halves = zoned, bare, None

    def __missing__(self, text):
        """A time of day that is met for the first time, with what stands between it and the date; ValueError if it is none."""
        if len(self) >= CLOCKS_REMEMBERED:
            self.clear()
        if not text and not self.zoned:
            return self.bare
        found, halves, ahead = since_midnight(text[1:] if text[:1] in ('T', ' ') else '')
        if halves != self.halves:
            if self.halves is not None:
                raise ValueError('the column has AM and PM' if self.halves else 'the column has a clock of 24 hours')
            self.halves = halves
        if (ahead is not None) != self.zoned:
            raise ValueError('')
        self[text] = found - (ahead or 0)
        return self[text]


def since_midnight(text):
    """The microseconds of a time of day, whether it has AM or PM, and by how much its zone is ahead, or None."""
    shape = CLOCK.fullmatch(text)
    if not shape:
        raise ValueError('')
    hours, minutes, seconds, part, half, zone = shape.groups()
    found = hour_of(int(hours), half) * UNITS['h'] + int(minutes) * UNITS['m'] + int(seconds or 0) * SECOND
    found += microseconds_of(part or '0')
    if found > DAY:
        raise ValueError('a day ends at 24:00')
    return found, half is not None, None if zone is None else ahead_of(zone)


def hour_of(hours, half):
    """The hour of a day from the number that is written and the letter of AM or PM, or None."""
    if half is None:
        if hours > 24:
            raise ValueError('a day ends at 24:00')
        return hours
    if not 1 <= hours <= 12:
        raise ValueError('with AM and PM hours are 1 to 12')
    return hours % 12 + 12 * (half in 'Pp')


def microseconds_of(digits):
    """The microseconds of a part of a second in decimal digits."""
    if digits[6:].strip('0'):
        raise ValueError('it is finer than microseconds')
    return int(digits[:6].ljust(6, '0'))


def ahead_of(text):
    """The microseconds by which a zone is ahead of universal time."""
    zone = ZONE.fullmatch(text)
    if not zone:
        raise ValueError('a zone is written Z, +01:00, +0100 or +01')
    sign, hours, minutes = zone.groups()
    size = int(hours or 0) * UNITS['h'] + int(minutes or 0) * UNITS['m']
    return -size if sign == '-' else size


class Times:
    """What reads one column of times: its dates, its times of day, and the zone of times that name none."""

    def __init__(self, days, zoned, zone=None, bare=0):
        self.days, self.clocks, self.known = days, Clocks(zoned, bare), {}
        self.zone = None if zoned else zone
        self.kind = Time(zoned or zone is not None)
        self.fixed = days.order == YEAR_FIRST
        self.doubtful = []

    @property
    def sample(self):
        """A time as this column has them."""
        if self.days.order == EXCEL:
            return self.days.sample
        clock = '7:30 PM' if self.clocks.halves or self.clocks.halves is None and self.days.order == MONTH_FIRST else '19:30'
        return f'{self.days.sample} {clock}{"+01:00" * self.clocks.zoned}'

    def cut(self, text):
        """A cell as the date and what stands behind it."""
        if self.fixed:
            return text[:DATE_LENGTH], text[DATE_LENGTH:]
        end = text.find(' ') if self.days.order != YEAR_FIRST or ' ' in text else text.find('T')
        return (text, '') if end < 0 else (text[:end], text[end:])

    def read(self, text):
        """The microseconds of a text, in its own zone; ValueError says why there are none."""
        date, clock = self.cut(text)
        if self.fixed and date not in self.days and not self.days.shape.fullmatch(date):
            self.fixed = False
            date, clock = self.cut(text)
        return self.days[date] + self.clocks[clock]

    def value(self, cell):
        """The microseconds of a cell, or None where it is empty. An hour that comes twice is taken for the first."""
        text = cell.strip()
        if not text:
            return None
        try:
            found = self.read(text)
            return found if self.zone is None else found - self.zone.first(found, self.is_bare(text))
        except ValueError as why:
            reason = f' ({why})' if str(why) else ''
            raise ValueError(f'{quoted(cell)} is not {self.kind.said}{reason}') from None

    def is_bare(self, text):
        """Whether a text is a date without a time of day."""
        return not self.cut(text)[1] and (self.days.order != EXCEL or SERIAL.fullmatch(text).group(2) is None)

    def column(self, cells):
        """The microseconds of a column, None for each null. The rows of an hour that comes twice are put into `doubtful`, and have
        the first of the two."""
        halves = self.clocks.halves
        try:
            found = self.quickly(cells)
        except ValueError:
            self.known.clear()
            self.clocks.clear()
            self.clocks.halves = halves
            found = [self.read(cell.strip()) if cell.strip() else None for cell in cells] if self.zone else list(map(self.value, cells))
        return found if self.zone is None else self.universal(cells, found)

    def quickly(self, cells):
        """The same where no cell is empty or has blanks around it. A cell that was met before is not read again, until too many
        have been met: then times hardly ever come again."""
        known, days, clocks = self.known, self.days, self.clocks
        if not self.fixed:
            read = self.read
        elif len(known) < REMEMBERED:
            with contextlib.suppress(KeyError):
                return array('q', map(known.__getitem__, cells))
            known.update({cell: days[cell[:DATE_LENGTH]] + clocks[cell[DATE_LENGTH:]] for cell in set(cells) - known.keys()})
            return array('q', map(known.__getitem__, cells))
        else:
            return array('q', [days[cell[:DATE_LENGTH]] + clocks[cell[DATE_LENGTH:]] for cell in cells])
        if len(known) >= REMEMBERED:
            known.clear()
        for cell in set(cells) - known.keys():
            known[cell] = read(cell)
        return array('q', map(known.__getitem__, cells))

    def universal(self, cells, found):
        """Local times of the zone as universal ones."""
        zone, self.doubtful = self.zone, []
        ahead = [0 if local is None else zone.slots.get(local // SLOT) for local in found]
        if None in ahead:
            ahead = [zone.in_slot(local) if known is None else known for local, known in zip(found, ahead)]
        for row, size in enumerate(ahead):
            if size is None:
                text, local = cells[row].strip(), found[row]
                ahead[row] = zone.first(local, self.is_bare(text), text)
                if zone.comes_twice(local) and not self.is_bare(text):
                    self.doubtful.append((row, local))
        pairs = [None if local is None else local - size for local, size in zip(found, ahead)]
        return pairs if isinstance(found, list) else array('q', pairs)


class Zone:
    """A zone by its name: by how much its local times are ahead of universal ones."""

    def __init__(self, name):
        try:
            import zoneinfo
        except ImportError:
            raise Problem('--zone: needs Python 3.9 or later, which knows zones; or write the zone behind each time, as +01:00', BAD_USAGE) from None
        try:
            self.zone = zoneinfo.ZoneInfo(name)
        except (zoneinfo.ZoneInfoNotFoundError, ValueError, OSError):
            raise Problem(f'--zone: {quoted(name)} is not known; zones are named as Europe/Berlin', BAD_USAGE) from None
        self.name, self.slots = name, {}

    def both(self, local):
        """By how much a local time is ahead, as the first of two and as the second; the same number where it comes once."""
        moment = EPOCH + datetime.timedelta(microseconds=local)
        return [moment.replace(tzinfo=self.zone, fold=fold).utcoffset() // datetime.timedelta(microseconds=1) for fold in (0, 1)]

    def in_slot(self, local):
        """By how much the local times around this one are ahead; None where they differ."""
        slot = local // SLOT
        if slot not in self.slots:
            found = {*self.both(slot * SLOT), *self.both(slot * SLOT + SLOT - 1)}
            if len(found) > 1:
                return None
            self.slots[slot] = found.pop()
        return self.slots[slot]

    def comes_twice(self, local):
        """Whether the clocks are put back over a local time."""
        first, second = self.both(local)
        return first > second

    def first(self, local, bare, text=None):
        """By how much a local time is ahead, the first of two; a date alone begins with its day, or ends with it. ValueError where
        the clocks are put forward over it."""
        first, second = self.both(local)
        if first < second and not bare:
            raise ValueError(f'{text and quoted(text) or "it"} does not exist in {self.name}: the clocks are put forward')
        return second if bare and local % DAY else first


class Repeated:
    """Which of the two is meant by times of an hour that comes twice: the first until they fall, then the second. With `by_group` the
    rows are sorted by group and time, else by time alone. An hour in which they do not fall is refused."""

    def __init__(self, path, name, zone, by_group):
        self.path, self.name, self.zone, self.by_group = path, name, zone, by_group
        # The hour that was met last: its group, the last time, the first cell; the first cell of all hours; the latest time of all.
        self.group = self.last = self.first = self.any = self.latest = None
        self.fell = self.fallen = False

    def refuse(self, place, why):
        """Stops at a time that nothing tells."""
        cell, line = place
        raise Problem(f'{at(self.path, line, self.name)}: {quoted(cell)} comes twice in {self.zone.name}, and {why} which is meant; '
                      'write the zone behind the time, as 2026-10-25 02:30+01:00')

    def take(self, local, group, cell, line):
        """Whether the second of the two is meant by a time."""
        group = group if self.by_group else None
        if self.last is None or group != self.group or abs(local - self.last) >= DAY:
            self.end_hour()
            self.first, self.fell = (cell, line), False
        elif local < self.last:
            self.fell = True
        self.any = self.any or (cell, line)
        self.group, self.last = group, local
        return self.fell

    def seen(self, times):
        """Looks whether universal times rise, where rows need not be sorted by group."""
        if self.by_group:
            return
        there = [time for time in times if time is not None]
        rising = there == sorted(there) and (not there or self.latest is None or self.latest <= there[0])
        self.fallen = self.fallen or not rising
        self.latest = there[-1] if there else self.latest

    def end_hour(self):
        """An hour is over: it is refused unless its times fell."""
        if self.first is not None and not self.fell:
            self.refuse(self.first, 'the order of the rows does not tell')

    def end(self):
        """All rows are over."""
        self.end_hour()
        if self.any is not None and self.fallen:
            self.refuse(self.any, 'the rows are not in order of time, so nothing tells')


class Dates:
    """How a run reads the cells of the key: what --dates says, and the zone of times that name none, or None."""

    def __init__(self, asked=None, zone=None):
        self.asked, self.zone = asked, zone

    def reader(self, cell, order=None, bare=0):
        """What reads a column whose first cell is this one: whole numbers or times. `order` is which of day and month comes first, if
        that was found. ValueError if the cell is none; None if it may have the day first or the month."""
        text = cell.strip()
        if self.asked != EXCEL and WHOLE.fullmatch(text):
            number(text)
            return Whole()
        if self.asked == EXCEL and SERIAL.match(text) and not YEAR_LEADS.match(text) and not YEAR_ENDS.match(text):
            return self.times(Serials(), text, bare, cell)
        leads, ends = YEAR_LEADS.match(text), YEAR_ENDS.match(text)
        if leads:
            return self.times(Days(YEAR_FIRST, leads.group(1)), text, bare, cell)
        if ends and self.asked == YEAR_FIRST:
            raise ValueError(f'{quoted(cell)} has the year last, and --dates ymd has it first, as 2026-01-05 19:30')
        if ends:
            order = DAY_FIRST if ends.group(2) == '.' else order or (self.asked if self.asked != EXCEL else None)
            return order and self.times(Days(order, ends.group(2)), text, bare, cell)
        if SHORT_YEAR.match(text):
            raise ValueError(f'{quoted(cell)} has a year of two digits; dates are written {WRITTEN}')
        raise ValueError(f'{quoted(cell)} is not a whole number, nor a date or time; dates are written {WRITTEN}')

    def times(self, days, text, bare, cell):
        """What reads times with these dates, of which this is the first."""
        zoned = bool(re.search('(?:[Zz]|:[^ +-]*(?: ?[AaPp][.]?[Mm][.]?)? ?[+-][0-9:]*)$', text))
        found = Times(days, zoned, self.zone, bare)
        found.value(cell)
        return found


class DayOrMonth:
    """Looks through a column for what tells whether the day comes first or the month."""

    def __init__(self):
        self.first, self.known = {}, set()

    def look(self, cells, line):
        """Looks at cells; `line` tells the line of each."""
        for row, cell in enumerate(cells):
            date = cell.strip().partition(' ')[0]
            if date in self.known:
                continue
            self.known.add(date)
            shape = YEAR_ENDS.match(date)
            for order, place in ((DAY_FIRST, 1), (MONTH_FIRST, 3)):
                if shape and int(shape.group(place)) > 12:
                    self.first.setdefault(order, (date, line(row)))

    def order(self, path, name, cell, line):
        """Which comes first, and the date and the line that tell it; a Problem where nothing does, or where two dates differ."""
        if len(self.first) == 1:
            (order, (date, found)), = self.first.items()
            return order, date, found
        if self.first:
            (one, here), (other, there) = (self.first[order] for order in (DAY_FIRST, MONTH_FIRST))
            raise Problem(f'{at(path, max(here, there), name)}: {quoted(one)} in line {here} has the day first and {quoted(other)} in line '
                          f'{there} the month; a column has one form')
        raise Problem(f'{at(path, line, name)}: {quoted(cell)} may have the day first or the month, and so has every date of the column: add '
                      '--dates dmy if it is the day, --dates mdy if it is the month')
