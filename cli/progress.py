"""How far a long run has come, on standard error where that is a terminal."""
import sys
import time

# The seconds before anything is shown, and between two shows.
PATIENCE, PACE = 2.0, 0.25


class Progress:
    """One line that is written over itself."""

    def __init__(self, stream=None, clock=time.monotonic, wanted=True, said=('sales', 'notices')):
        """Not wanted: the rows themselves go to the terminal. `said` is what the rows of each file are called."""
        self.said = said
        self.stream = sys.stderr if stream is None else stream
        self.clock = clock
        self.due = clock() + PATIENCE if wanted and self.stream is not None and self.stream.isatty() else None
        self.shown = False

    def show(self, stage, *sources):
        """Shows what is being done and the rows read so far, where it is time to."""
        if self.due is None or self.clock() < self.due:
            return
        self.due, self.shown = self.clock() + PACE, True
        self.stream.write(f'\r\033[Krowkeeper: {stage}: {", ".join(map(told, self.said, sources))}')
        self.stream.flush()

    def clear(self):
        """Takes the line away."""
        if self.shown:
            self.stream.write('\r\033[K')
            self.stream.flush()
            self.shown = False


def told(what, source):
    """How far a file has been read."""
    share = source.share()
    return f'{source.rows:,} {what}' + ('' if share is None else f' ({int(100 * share)} %)')
