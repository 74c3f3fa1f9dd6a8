"""Passes that cover a span: `rowkeeper passes` tells which performances lie between the two times of each pass. The proved library lists
them, for some passes at a time beside all performances."""
import contextlib
from array import array

import rowkeeper

from .books import put, texts
from .build import told
from .dates import DAY
from .joined import expected
from .pricing import Heights, free
from .problem import Problem, at, say
from .records import written
from .run import Run
from .sink import sink

# What a column of the performances is called where the passes have its name.
PREFIX = 'performance_'

# How much later than its midnight a date alone in --to is: it is the whole day, to its last microsecond.
WHOLE_DAY = DAY - 1

# The pairs that the passes of one call should have together: what is written of them is in memory.
COMFORT = 1 << 16


class Performances:
    """All performances: their times in order, what is written of each behind a pass, and the number of each in its file."""

    def __init__(self, run, table, separator):
        source, self.texts, times = table.source, [], array('q')
        places = list(range(source.width))
        for block, ((values, marks),) in table.pairs():
            if marks is not None:
                raise Problem(f'{at(source.path, block.line(marks.index(0)), source.names[0])}: there is an empty cell: '
                              'every performance needs its time')
            times.extend(values)
            self.texts += [separator + text for text in texts(block, places, source.width, separator)]
            run.show('reading again')()
        self.numbers = sorted(range(len(times)), key=times.__getitem__) if run.args.sort else range(len(times))
        self.times = array('q', map(times.__getitem__, self.numbers))


class Covered:
    """The passes with what they cover, written, and counted."""

    def __init__(self, run, performances):
        self.performances, self.inclusive = performances, (run.args.lower_inclusive, run.args.upper_inclusive)
        self.heights = Heights(comfort=COMFORT)
        self.rows = self.passes = self.covering = 0
        self.first = None

    def pairs(self, bounds, first, end):
        """The passes of a block from one to before another, each with a performance that it covers, by their numbers."""
        lower, upper = (rowkeeper.Column(values[first:end], None if marks is None else marks[first:end]) for values, marks in bounds)
        with expected('passes and performances'):
            found = told(lambda: rowkeeper.spans(self.performances.times, lower, upper, *self.inclusive))
        numbers = map(self.performances.numbers.__getitem__, found.points.tolist())
        return sorted(zip(map(first.__add__, found.intervals.tolist()), numbers))

    def write(self, file, block, bounds):
        """Writes the passes of a block, as many at once as were found to have few performances together."""
        first, lines, behind = 0, block.lines, self.performances.texts
        while first < block.height:
            end = min(block.height, first + self.heights.rows)
            found = self.pairs(bounds, first, end)
            self.heights.learn(len(found))
            put(file, (lines[row] + behind[number] for row, number in found))
            self.count(block, range(first, end), found)
            first = end

    def count(self, block, passes, found):
        """Counts some passes of a block, and what they cover."""
        covering = {row for row, _ in found}
        self.rows, self.passes, self.covering = self.rows + len(found), self.passes + len(passes), self.covering + len(covering)
        if self.first is None and len(covering) < len(passes):
            self.first = block.line(next(row for row in passes if row not in covering))

    def said(self):
        """How many passes cover a performance, in words."""
        none = self.passes - self.covering
        have = (f'{self.rows:,} row{"" if self.rows == 1 else "s"}: {self.covering:,} of {self.passes:,} '
                f'pass{"" if self.passes == 1 else "es"} cover{"s" if 1 in (self.covering, self.passes) else ""} a performance')
        if not none:
            return have
        return f'{have}; {none:,} cover{"s" if none == 1 else ""} none, {"it is" if none == 1 else "the first"} in line {self.first}'


def header(passes, performances):
    """The first line: the columns of both."""
    names = list(passes.header)
    for name in performances.header:
        names.append(free(name, names, PREFIX))
    return written(names, passes.separator)


def cover(args):
    """Writes which performances each pass covers; how many is told on standard error."""
    with contextlib.ExitStack() as stack:
        run = Run(args, stack, ('passes', 'performances'), keys=2)
        passes = run.source(args.passes, [args.lower, args.upper], ordered=False)
        passes.bare[1] = WHOLE_DAY if args.upper_inclusive else 0
        performances = run.source(args.performances, [args.on])
        target, tables = sink(args.output, [args.passes, args.performances]), run.judged()
        covered = Covered(run, Performances(run, tables[1], passes.separator))
        file = run.begun(target)
        put(file, [header(passes, performances)])
        for block, bounds in tables[0].pairs():
            covered.write(file, block, bounds)
            run.show('writing')()
    say(covered.said())
