"""The command's join: one of the module rowkeeper, with a right area that grows, and what --explain tells of it."""
import contextlib
from array import array

import rowkeeper
from rowkeeper.interface import IDLE, MOST_ROWS, NO_ROOM, WANTS_RIGHT, WROTE

from .build import told
from .problem import Problem

# The right rows that the area has room for at first.
FIRST_ROWS = 2 * MOST_ROWS


@contextlib.contextmanager
def expected(call):
    """Stops where the library refuses a call that this program should not have made."""
    try:
        yield
    except rowkeeper.Refused as refused:
        raise Problem(f'the library refused {call} by {refused.number}: {refused.text}') from None


class Join(rowkeeper.Join):
    """An open join over tables of this order, which counts what its calls do."""

    def __init__(self, order, strategy='backward', exact=True, tolerance=None, check=True, right_rows=FIRST_ROWS, distance=False,
                 carried=0):
        self.columns = len(order.columns)
        with expected('the opening'):
            told(lambda: super(Join, self).__init__(
                by=self.columns - 1, strategy=strategy, allow_exact_matches=exact, tolerance=tolerance,
                check='strict' if check else 'off',
                descending=order.descending, nulls_last=order.nulls_last, right_rows=right_rows, ranks=order.ranks,
                distance=distance, carried=carried))
        self.output = array('q', bytes(8 * self.output_words()))
        self.grown = self.most_held = self.most_waiting = 0
        self.answers = {WROTE: 0, WANTS_RIGHT: 0, IDLE: 0}

    def left(self, frame):
        """Hands in a left frame. The area has room for any one frame, and no second one is ever handed in."""
        with expected('a left frame'):
            super().left(frame)
        self.most_waiting = max(self.most_waiting, self.waiting_words)

    def right(self, frame):
        """Hands in a right frame; where it has no room the right area is made larger first, to twice its rows at least."""
        with expected('a right frame'):
            try:
                super().right(frame)
            except rowkeeper.Refused as refused:
                if refused.number != NO_ROOM:
                    raise
                self.grow(right_rows=max(2 * self.right_rows, self.held + frame[0]))
                self.grown += 1
                super().right(frame)
        self.most_held = max(self.most_held, self.held)

    def end_right(self):
        """No right frame comes any more."""
        with expected('the end of right'):
            super().end_right()

    def answer(self):
        """A turn's answer: WROTE, WANTS_RIGHT or IDLE."""
        with expected('a turn'):
            answer = self.turn_into(self.output)
        self.answers[answer] += 1
        return answer

    def matched(self):
        """What the last turn wrote: for each left row the number of its right row and 1, or 0 and 0; and if distances are told, the
        same of them, else None."""
        numbers = self.written(0)
        return (*numbers, self.written(1) if self.tells_distance else None)

    def written(self, place):
        """The values and the marks of a column that the last turn wrote."""
        width, size = self.output[1], self.output[0] * self.output[1]
        return self.output[2 + place:2 + size:width], self.output[2 + size + place:2 + 2 * size:width]
