"""One call at a time over what calls alter, and a mark that stays where a call did not come to its end."""
import ctypes
import threading

# The marks: a call is under way, and a call was interrupted. Each is the text of the error that a further call meets.
UNDER_WAY = ('a call is under way in this very thread, so nothing can be called or saved here: in a signal\'s handler set a flag, '
             'and save the state between two calls')
INTERRUPTED = 'an earlier call was interrupted, so what it altered cannot be trusted: go on from what was saved before it'


class Interrupted(RuntimeError):
    """A call of a join or of takings was interrupted, by Ctrl-C or by an exception of a signal's handler, or is still under way in
    this thread. Nothing was called."""


class Guard:
    """Lets one thread at a time make calls. Between the library's return and the moment at which its answer is stored, areas and
    join do not go together; an exception that strikes there, as that of a signal's handler does, leaves the mark behind."""

    def __init__(self):
        self.lock, self.mark = threading.RLock(), None

    def judge(self):
        """Interrupted if a call has not come to its end. Whoever asks holds the lock."""
        if self.mark is not None:
            raise Interrupted(self.mark)

    def made(self, call, keep):
        """The answer of a call of the library, once `keep` has stored it."""
        with self.lock:
            self.judge()
            try:
                self.mark = UNDER_WAY
                answer = call()
                keep(answer)
                self.mark = None
            except ctypes.ArgumentError:  # raised before the library is entered
                self.mark = None
                raise
            except BaseException:
                self.mark = INTERRUPTED
                raise
        return answer
