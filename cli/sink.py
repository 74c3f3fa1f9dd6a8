"""Where the priced sales are written: standard output, or a file that appears only when it is whole."""
import contextlib
import os
import shutil
import stat
import sys

from .input import DASH, temporary
from .problem import BAD_USAGE, Problem, at, reason

# The bytes that are written at once.
BUFFER = 1 << 18


def same_file(path, other):
    """Whether two names lead to one file."""
    try:
        return os.path.samefile(path, other)
    except OSError:
        return False


@contextlib.contextmanager
def standard_output():
    """Bytes to standard output."""
    if sys.stdout is None:
        raise Problem('standard output: cannot be written: it is closed')
    try:
        yield sys.stdout.buffer
        sys.stdout.buffer.flush()
    except BrokenPipeError:
        raise
    except OSError as error:
        raise Problem(f'standard output: cannot be written: {reason(error)}') from None


@contextlib.contextmanager
def at_the_end(target):
    """Bytes to a temporary file, which are copied to their place only if nothing went wrong until then."""
    with contextlib.closing(temporary()) as kept:
        try:
            yield kept
        except OSError as error:
            raise Problem(f'a temporary file: cannot be written: {reason(error)}') from None
        kept.seek(0)
        with target as file:
            shutil.copyfileobj(kept, file, BUFFER)


def opened(made, goal):
    """A new file, which from the start allows no more than the file that it will replace, and has its owner where that can be."""
    try:
        old = os.stat(goal)
    except FileNotFoundError:
        return os.open(made, os.O_WRONLY | os.O_CREAT | os.O_EXCL, 0o666)
    found = os.open(made, os.O_WRONLY | os.O_CREAT | os.O_EXCL, 0o600)
    with contextlib.suppress(OSError):
        os.fchown(found, old.st_uid, old.st_gid)
    os.fchmod(found, stat.S_IMODE(old.st_mode))
    return found


@contextlib.contextmanager
def whole_file(path):
    """Bytes to a new file beside this one, which takes its name at the end. Whatever ends the run before, the new file is
    removed, but for SIGKILL: its name is settled before it is made, so that there is no moment at which it could be left behind."""
    goal = os.path.realpath(path)
    made = os.path.join(os.path.dirname(goal), f'.rowkeeper-{os.urandom(8).hex()}.part')
    try:
        with open(opened(made, goal), 'wb', buffering=BUFFER) as file:
            yield file
            file.flush()
            os.fsync(file.fileno())
        os.replace(made, goal)
    except OSError as error:
        raise Problem(f'{at(path)}: cannot be written: {reason(error)}') from None
    finally:
        with contextlib.suppress(OSError):
            os.unlink(made)


@contextlib.contextmanager
def device(path):
    """Bytes to something that is no file, as a pipe with a name: it has nothing that could be replaced."""
    try:
        with open(path, 'wb') as file:
            yield file
    except BrokenPipeError:
        raise
    except OSError as error:
        raise Problem(f'{at(path)}: cannot be written: {reason(error)}') from None


def sink(path, inputs, whole=False):
    """Where bytes go: the file of this name, or standard output where there is none. `whole`: all of them at the end or none, also
    where that is no file."""
    if path is None or path == DASH:
        return at_the_end(standard_output()) if whole else standard_output()
    if not path:
        raise Problem('--output: the name is empty: say a file, or - for standard output', BAD_USAGE)
    if any(same_file(path, each) for each in inputs):
        raise Problem(f'{at(path)}: is one of the files to be read, and is left as it is')
    if os.path.isdir(path):
        raise Problem(f'{at(path)}: cannot be written: it is a folder')
    if os.path.exists(path) and not os.path.isfile(path):
        return at_the_end(device(path)) if whole else device(path)
    return whole_file(path)
