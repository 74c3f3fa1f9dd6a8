"""Where the library's shared object is, or the line and the status that the command ends with: the module rowkeeper finds it."""
import os
import sys

from rowkeeper import NoLibrary, library

from .problem import NO_LIBRARY, Problem

ROOT = os.path.dirname(os.path.dirname(os.path.realpath(__file__)))


def told(find):
    """What a function of the library's finder gives; a Problem if there is no library."""
    try:
        return find()
    except NoLibrary as missing:
        raise Problem(str(missing), NO_LIBRARY) from None


if __name__ == '__main__':
    try:
        print(told(library.place))
    except Problem as problem:
        print(f'rowkeeper: {problem}', file=sys.stderr)
        sys.exit(problem.status)
