"""The command from its words to its status."""
import gc
import os
import signal

from .arguments import parse
from .books import merge, standing
from .join import price
from .passes import cover
from .picture import picture
from .plan import plan
from .problem import BAD_INPUT, DONE, Problem, Quiet, reason, say
from .takings import take

# The status of a program that a signal ends, less the signal's number.
BY_SIGNAL = 128


def no_reader():
    """Whoever read standard output has gone: nothing more is written there, and the status says so."""
    os.dup2(os.open(os.devnull, os.O_WRONLY), 1)
    return BY_SIGNAL + signal.SIGPIPE


class Ended(BaseException):
    """A signal has asked the program to end."""


def ended(number, _):
    """Ends the run from wherever it is: what is half written is removed on the way out."""
    raise Ended(number)


def main(words):
    """Runs the command; its status."""
    Quiet.wanted = False
    try:
        args = parse(words)
        Quiet.wanted = args.quiet
        {'join': price, 'picture': picture, 'merge': merge, 'standing': standing, 'passes': cover, 'plan': plan,
         'takings': take}[args.command](args)
    except Problem as problem:
        say(problem, always=True)
        return problem.status
    except MemoryError:
        say('there is not enough memory', always=True)
        return BAD_INPUT
    except BrokenPipeError:
        return no_reader()
    except OSError as error:  # whatever else is read or written tells its own name
        say(f'a temporary file: cannot be used: {reason(error)}', always=True)
        return BAD_INPUT
    except KeyboardInterrupt:
        return BY_SIGNAL + signal.SIGINT
    except Ended as signalled:
        return BY_SIGNAL + signalled.args[0]
    return DONE


def command(words):
    """Runs the command as a program: signals that ask it to end are heeded. Nothing in it refers to itself in circles, so Python need
    not look for such things among the cells."""
    gc.disable()
    for number in (signal.SIGTERM, signal.SIGHUP):
        signal.signal(number, ended)
    return main(words)
