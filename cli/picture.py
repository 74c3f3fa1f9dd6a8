"""`rowkeeper picture`: the notices of each performance as steps and its sales as points on them, as SVG."""
import contextlib
import csv
import datetime
import io
import re
from html import escape

from .dates import Time
from .join import Pricing
from .problem import Problem, at, quoted, say
from .sink import sink
from .times import UNITS

# The picture's measures, in points: panels stand one below the other.
WIDTH, PANEL, TOP, LEFT, RIGHT, GAP, FOOT = 800, 112, 56, 118, 44, 22, 30
COLOURS = ('#1b6ca8', '#b3541e', '#5b8c2a', '#7a4fa3')

# The most panels and the most rows of a file: with more nothing can be made out.
MOST_PANELS, MOST_DRAWN = 40, 50000

# About how many marks the lower axis has, and the distances that those of times may have.
MARKS = 7
SPANS = [UNITS['m'] * count for count in (1, 5, 15, 60, 180, 360, 720)] + [UNITS['d'] * count for count in (1, 2, 7, 14, 28, 91, 182, 365, 3650)]

# The characters of a price: longer ones are beyond what can be told apart in a picture.
LONGEST_PRICE = 15

# What XML has no place for, and what is drawn for it.
REPLACED = '\ufffd'
NOT_XML = re.compile('[^\t\n\r\x20-\ud7ff\ue000-\ufffd\U00010000-\U0010ffff]')

PRICE = re.compile(r'[+-]?[0-9]+(?:[.,][0-9]+)?')


class Scale:
    """Where numbers stand between two places."""

    def __init__(self, numbers, first, last, room=0.0):
        """From the least number to the greatest, with some room around them."""
        least, most = min(numbers, default=0), max(numbers, default=1)
        more = (most - least) * room or (0 if most > least else 1)
        self.least, self.most, self.first, self.last = least - more, most + more, first, last

    def __call__(self, number):
        """The place of a number."""
        return round(self.first + (number - self.least) * (self.last - self.first) / (self.most - self.least), 1)


def price_of(cell, path, line, name):
    """The price in a cell, with a point or a comma; None where it is empty."""
    text = cell.strip()
    if text and not PRICE.fullmatch(text):
        raise Problem(f'{at(path, line, name)}: {quoted(cell)} is not a price, as 1800 or 12.50')
    if len(text) > LONGEST_PRICE:
        raise Problem(f'{at(path, line, name)}: {quoted(cell)} is too long a price to be drawn: it can have {LONGEST_PRICE} characters')
    return float(text.replace(',', '.')) if text else None


class Season:
    """Both tables as they are drawn: for each group what it is called, its notices and its sales, both keys and prices."""

    def __init__(self, pricing, priced):
        self.kinds, self.groups = pricing.kinds, {}
        notices = sorted(self.notices_of(pricing.notices, pricing.args.price), key=lambda each: each[1][0])
        self.take_sales(pricing.sales, priced)
        for by, notice in notices:
            self.group(pricing.notices.names, by)[1].append(notice)
        if len(self.groups) > MOST_PANELS:
            raise Problem(f'there are {len(self.groups)} groups, and a picture has room for {MOST_PANELS}')

    def group(self, names, cells):
        """The group of a row's by-cells: its name, notices and sales."""
        values = tuple(kind.value(cell) for kind, cell in zip(self.kinds.by, cells))
        name = ', '.join(f'{name} {cell.strip() or "not known"}' for name, cell in zip(names, cells)) or 'all sales'
        return self.groups.setdefault(values, (name, [], []))

    def take_sales(self, source, priced):
        """The sales with the prices that they were given."""
        for cells in list(csv.reader(io.StringIO(priced, newline=''), delimiter=source.separator))[1:]:
            *by, key = (source.cell(cells, column) for column in range(len(source.names)))
            price = price_of(cells[-1], source.path, None, 'price')
            self.group(source.names, by)[2].append((source.kinds_here()[-1].value(key), price, cells[-1].strip()))

    def notices_of(self, source, name):
        """The notices that have a key and a price, each with its by-cells."""
        source.again()
        for block in iter(source.records.block, None):
            prices, = block.columns([source.place(name)], source.width)
            for row, (*by, key, cell) in enumerate(zip(*source.cells(block)[0], prices)):
                price, key = price_of(cell, source.path, block.line(row), name), source.kinds_here()[-1].value(key)
                if price is not None and key is not None:
                    yield by, (key, price, cell.strip())

    def numbers(self, place):
        """All keys, or all prices, that are there."""
        return [row[place] for _, notices, sales in self.groups.values() for row in notices + sales if row[place] is not None]


def text(left, top, words, more=''):
    """A line of text."""
    words = escape(NOT_XML.sub(REPLACED, words))
    return f'<text x="{left}" y="{top}" {more}>{words}</text>'


def steps(notices, x, y, colour):
    """Notices as steps: a price holds until the next notice. One that another of its key replaces is crossed out."""
    drawn, path = [], ''
    for (key, price, cell), after in zip(notices, notices[1:] + [None]):
        here, until, height = x(key), x(after[0]) if after else x.last, y(price)
        if after and after[0] == key:
            drawn.append(text(here, round(height + 4, 1), '×', f'fill="{colour}" text-anchor="middle" font-size="14"'))
            continue
        path += f'{"L" if path else "M"}{here} {height}H{until}'
        drawn.append(text(round(here + 5, 1), round(height - 7, 1), cell, f'fill="{colour}"'))
    return drawn + [f'<path d="{path}" fill="none" stroke="{colour}" stroke-width="2"/>'] * bool(path)


def points(sales, x, y, foot, colour):
    """Sales as points on the steps; hollow ones at the foot have no notice, those left of the axis no key."""
    drawn = []
    for key, price, _ in sales:
        left = LEFT - 12 if key is None else x(key)
        if price is not None:
            drawn.append(f'<circle cx="{left}" cy="{y(price)}" r="4" fill="{colour}"/>')
        else:
            drawn.append(f'<circle cx="{left}" cy="{foot - 6}" r="4" fill="#fff" stroke="{colour}" stroke-width="1.5"/>')
    return drawn


def panel(group, number, x, prices, marks):
    """One group."""
    name, notices, sales = group
    top, colour = TOP + number * (PANEL + GAP), COLOURS[number % len(COLOURS)]
    y = Scale(prices, top + PANEL, top, room=0.1)
    lines = [f'<path d="M{x(mark)} {top}v{PANEL}" stroke="#e4e4e4"/>' for mark in marks]
    lines.append(f'<path d="M{LEFT} {top}v{PANEL}H{WIDTH - RIGHT}" fill="none" stroke="#888"/>')
    lines.append(text(10, top + 14, name if len(name) <= 20 else name[:19] + '…', f'fill="{colour}" font-weight="bold" font-size="11"'))
    if not notices:
        lines.append(text(LEFT + 60, top + PANEL - 2, 'no notices', 'fill="#888" font-size="11"'))
    return lines + steps(notices, x, y, colour) + points(sales, x, y, top + PANEL, colour)


def distance_of(least, most, times):
    """The distance between two marks of the lower axis."""
    wanted = (most - least) / MARKS
    if times:
        return next((span for span in SPANS if span >= wanted), SPANS[-1])
    size = 1
    while size * 5 < wanted:
        size *= 10
    return next(size * count for count in (1, 2, 5, 10) if size * count >= wanted)


def said(mark, step, zoned):
    """A mark of the lower axis in words: a number, a date or a time."""
    if step is None:
        return f'{mark:,}'
    moment = datetime.datetime(1970, 1, 1) + datetime.timedelta(microseconds=mark)
    return f'{moment:%Y-%m-%d}' if step >= UNITS['d'] else f'{moment:%m-%d %H:%M}{"Z" * zoned}'


def drawn(season, key):
    """The whole picture."""
    kind, keys, prices = season.kinds.key, season.numbers(0), season.numbers(1)
    x, times = Scale(keys, LEFT, WIDTH - RIGHT, room=0.02), isinstance(kind, Time)
    step = distance_of(x.least, x.most, times)
    marks = list(range(int(-(-x.least // step)) * step, int(x.most) + 1, step))
    height = TOP + len(season.groups) * (PANEL + GAP) + FOOT
    lines = [f'<svg xmlns="http://www.w3.org/2000/svg" width="{WIDTH}" height="{height}" viewBox="0 0 {WIDTH} {height}" '
             'font-family="sans-serif" font-size="12" fill="#333">', '<title>A season: notices as steps, sales as points</title>',
             f'<rect width="{WIDTH}" height="{height}" fill="#fff"/>',
             text(10, 22, 'A price notice holds until the next one of its performance. A sale takes the price then in force.',
                  'font-size="14"'),
             text(10, 40, f'Steps: notices (× replaced at the same {key}). Points: sales. Hollow: a sale without a notice; left of the axis: '
                  f'without a {key}.', 'fill="#666" font-size="11"')]
    for number, group in enumerate(season.groups.values()):
        lines += panel(group, number, x, prices, marks)
    lines += [text(x(mark), height - FOOT + 4, said(mark, step if times else None, times and kind.zoned), 'text-anchor="middle" fill="#666"')
              for mark in marks]
    return '\n'.join(lines + ['</svg>', ''])


def picture(args):
    """Draws the season of two files. The sales are priced as `rowkeeper join` does it."""
    with contextlib.ExitStack() as stack:
        kept = io.BytesIO()
        pricing = Pricing(args, stack, contextlib.nullcontext(kept))
        target = sink(args.output, [args.sales, args.notices])
        pricing.run()
        for what, rows in (('sales', pricing.priced.sales), ('notices', pricing.notices.rows)):
            if rows > MOST_DRAWN:
                raise Problem(f'there are {rows:,} {what}, and a picture has room for {MOST_DRAWN:,}')
        found = drawn(Season(pricing, kept.getvalue().decode('utf-8-sig')), pricing.sales.names[-1])
        stack.enter_context(target).write(found.encode('utf-8'))
    say(pricing.said)
