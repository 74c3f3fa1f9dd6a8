"""The main job: sales and notices go through the join in frames, and each sale is written with its notice."""
import operator
from itertools import compress

from rowkeeper.interface import IDLE, MOST_ROWS, WANTS_RIGHT

from .records import written

# The rows of a frame: as many as the library takes. A turn costs the frame's sales and the notices held, so a full frame
# has the fewest notices to pass for each of its sales.
ROWS = MOST_ROWS


class Heights:
    """How many sales a frame has: few at first, then twice as many from frame to frame. Notices that a frame calls for are
    held all at once and cost memory, so the next frame gets fewer sales where one called for many. Those that are held from
    before do not count: where many notices have one key, they stay held however few sales the next frame has."""

    def __init__(self, most=ROWS, comfort=4 * ROWS, first=16):
        self.most, self.comfort, self.rows = most, comfort, min(most, first)

    def learn(self, called):
        """Goes by the notices that a frame called for."""
        self.rows = max(1, self.rows // 2) if called > self.comfort else min(self.most, 2 * self.rows)


class Matching:
    """Sales and notices on their way through a join. `held` keeps what is to be known of the notices, `found` takes each part of
    the sales with the numbers of their notices, their marks, and their distances or None; `missing`, if it is there, the groups of those
    that have none."""

    def __init__(self, join, sales, notices, held, found, heights=None, right_height=ROWS, missing=None):
        self.missing = missing
        self.join, self.sales, self.notices, self.held, self.found = join, sales, notices, held, found
        self.heights, self.right_height = heights or Heights(), right_height
        self.waiting, self.called, self.left_frames, self.right_frames = None, 0, 0, 0

    def next_sales(self):
        """Hands in the next sales; whether there were any."""
        self.waiting, self.called = self.sales.take(self.heights.rows), 0
        if self.waiting is not None:
            self.join.left(self.waiting.words)
            self.left_frames += 1
        return self.waiting is not None

    def next_notices(self):
        """Hands in the next notices, or says that there are no more."""
        part = self.notices.take(self.right_height)
        if part is None:
            self.join.end_right()
            return
        self.join.right(part.words)
        self.held.add(part)
        self.called += part.height
        self.right_frames += 1

    def run(self, show):
        """Matches all sales."""
        while True:
            answer = self.join.answer()
            if answer == IDLE:
                if not self.next_sales():
                    return
            elif answer == WANTS_RIGHT:
                self.next_notices()
            else:
                matched = self.join.matched()
                if self.missing is not None:
                    self.missing.take(self.waiting.words, matched[1])
                self.found(self.waiting, *matched)
                self.heights.learn(self.called)
                self.held.drop(self.join.pruned)
                show()


def free(name, taken, prefix):
    """A column's name, with the prefix in front as often as it takes to be none of those that are taken."""
    while name in taken:
        name = prefix + name
    return name


class Layout:
    """The columns of the output: those of the sales; the notice's number; the notice's own, all but the by-columns, which are those
    of the sale, or those that are chosen; and the distance, if it has a name. A name that is taken gets the prefix in front."""

    def __init__(self, sales, notices, chosen=None, prefix='notice_', distance=None):
        self.separator, self.prefix, self.width = sales.separator, prefix, notices.width
        by = notices.places[:-1]
        self.places = [place for place in range(notices.width) if place not in by] if chosen is None else \
            [notices.place(name) for name in chosen]
        self.names = list(sales.header)
        more = [] if distance is None else [distance]
        for name in [f'{prefix}row'] + [notices.header[place] for place in self.places] + more:
            self.names.append(free(name, self.names, prefix))
        self.nothing = self.separator * (1 + len(self.places) + len(more))
        self.kinds = sales.kinds

    def header(self):
        """The first line."""
        return written(self.names, self.separator)

    def cells(self, block):
        """The cells of each notice of a block, as text for the output."""
        return block.chosen(self.places, self.width, self.separator)

    def texts(self, block):
        """What is written behind a sale, for each notice of a block: its number and its cells."""
        sign = self.separator
        return [f'{sign}{number}{sign}{cells}' for number, cells in enumerate(self.cells(block), block.number)]

    def apart(self, distances):
        """What is written behind that for each sale: its distance, values and marks, empty for a null."""
        sign, said = self.separator, self.kinds.all()[-1].apart
        return [sign + said(value) if mark else sign for value, mark in zip(*distances)]


def counted(sales, matched, first):
    """How many sales have a notice, in words; `first` is the line of the first that has none."""
    missing = sales - matched
    have = f'{matched:,} of {sales:,} sale{"" if sales == 1 else "s"} ha{"s" if 1 in (matched, sales) else "ve"} a notice'
    if not missing:
        return have
    return f'{have}; {missing:,} ha{"s" if missing == 1 else "ve"} none, {"it is" if missing == 1 else "the first"} in line {first}'


class Priced:
    """The sales with their notices, written, and counted."""

    def __init__(self, file, layout, matched_only=False):
        self.file, self.layout, self.matched_only = file, layout, matched_only
        self.sales = self.matched = 0
        self.first = None
        self.put(layout.header())

    def put(self, text):
        """Writes lines."""
        self.file.write(f'{text}\n'.encode('utf-8'))

    def write(self, lines, texts, marks, line):
        """Writes sales: their text, what comes behind it, and whether they have a notice; `line` tells the line of a sale."""
        missing = marks.count(0)
        self.sales += len(marks)
        self.matched += len(marks) - missing
        if missing and self.first is None:
            self.first = line(marks.index(0))
        if missing and self.matched_only:
            lines, texts = compress(lines, marks), compress(texts, marks)
        if not self.matched_only or missing < len(marks):
            self.put('\n'.join(map(operator.add, lines, texts)))

    def part(self, held, at_once=False):
        """What takes parts of the sales as they are matched, with the notices that are held; `at_once`: none of them waits to be
        written with others."""
        nothing = self.layout.nothing

        def found(part, values, marks, distances):
            """Writes a part."""
            matched = values if 0 not in marks else list(compress(values, marks))
            first, texts = held.between(min(matched), max(matched)) if matched else (0, [])
            if distances is None:
                beside = [texts[number - first] if mark else nothing for number, mark in zip(values, marks)]
            else:
                apart = self.layout.apart(distances)
                beside = [texts[number - first] + far if mark else nothing for number, mark, far in zip(values, marks, apart)]
            self.write(part.lines(), beside, marks, lambda row: part.block.line(part.first + row))
            if at_once:
                self.file.flush()
        return found

    def said(self):
        """How many sales have a notice, in words."""
        return counted(self.sales, self.matched, self.first)
