"""What every run over files has: its sources, what their columns hold, and where it writes."""
import codecs
import contextlib
import sys

from .dates import Dates
from .input import Input
from .judged import Judged, judge
from .kinds import Kinds
from .order import Order
from .problem import say
from .progress import Progress
from .source import Source


class Run:
    """A run over one or two files, with what it opens on a stack that closes it all. `said` is what progress calls the rows of each,
    `keys` how many columns of the key's kind a file has at most."""

    def __init__(self, args, stack, said, tolerance=None, streamed=False, keys=1):
        self.args, self.stack, self.streamed, self.sources = args, stack, streamed, []
        quiet = args.output is None and sys.stdout is not None and sys.stdout.isatty()
        self.progress = Progress(wanted=not (quiet and streamed), said=said)
        stack.callback(self.progress.clear)
        order = Order(args.left[:-1], args.left[-1], args.descending, args.nulls_last, args.rank)
        self.kinds = Kinds(order, tolerance, may_be_text=not streamed, keys=keys)
        self.dates = Dates(args.dates, args.zone)

    def source(self, path, names, ordered=True, also=()):
        """One of the tables, with its header read. One that is not `ordered` may have its rows in any order; `also` are
        columns that it has besides."""
        side = ('left', 'right')[len(self.sources)] if len(self.sources) < 2 and 'left_encoding' in self.args else None
        own = side and getattr(self.args, f'{side}_encoding')
        other = {'left': '--right-encoding', 'right': '--left-encoding'}.get(side) if self.args.encoding and not own else None
        opened = self.stack.enter_context(contextlib.closing(
            Input(path, own or self.args.encoding or 'utf-8', self.streamed, f'--{side}-encoding' if side else '--encoding', other)))
        check = ordered and self.args.check and not self.args.sort
        self.sources.append(Source(opened, names, self.kinds, check, self.args.separator, also, self.dates))
        return self.sources[-1]

    def show(self, stage):
        """What shows the progress of a stage."""
        return lambda: self.progress.show(stage, *self.sources)

    def judged(self):
        """All tables, read to their ends."""
        tables = [self.stack.enter_context(contextlib.closing(Judged(each))) for each in self.sources]
        judge(tables, self.kinds, self.progress)
        return tables

    def unchanged(self):
        """Stops if a file was changed since it was opened."""
        for each in self.sources:
            each.input.unchanged()

    def begun(self, target, mark=True):
        """The output, when its first line is due; notes come before it. It has a mark where the first file has one or was converted,
        unless none is wanted."""
        self.progress.clear()
        for note in self.kinds.notes:
            say(note)
        self.unchanged()
        file = self.stack.enter_context(target)
        self.stack.push(lambda kind, error, place: kind is None and self.unchanged())
        if mark and (self.sources[0].input.marked or self.sources[0].input.converted):
            file.write(codecs.BOM_UTF8)
        return file
