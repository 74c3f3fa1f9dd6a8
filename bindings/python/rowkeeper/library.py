"""The library: where its shared object is, and its calls with their types. interface.py has their numbers and structs."""
import ctypes
import functools
import importlib.util
import os
import sys

from .interface import CALLS, SONAME, VERSION, VERSION_NUMBER

HERE = os.path.dirname(os.path.realpath(__file__))
# The repository, if this package is in it; or what an unpacked source archive has of it.
ROOT = next((each for each in (os.path.dirname(os.path.dirname(os.path.dirname(HERE))), os.path.join(os.path.dirname(HERE), 'library'))
             if os.path.exists(os.path.join(each, 'dist', 'SOURCE')) and os.path.exists(os.path.join(each, 'tools', 'parts', 'library.py'))), None)


def below(*names):
    """A path in the repository."""
    return os.path.join(ROOT, *names)


class NoLibrary(ImportError):
    """There is no shared object, or it is not the one of this version; one line says why."""


def maker():
    """The repository's maker of the library, as a module under a name of its own: a host may have a module `tools`."""
    name = 'rowkeeper_parts'
    if name not in sys.modules:
        spec = importlib.util.spec_from_file_location(name, below('tools', 'parts', '__init__.py'),
                                                      submodule_search_locations=[below('tools', 'parts')])
        sys.modules[name] = importlib.util.module_from_spec(spec)
        spec.loader.exec_module(sys.modules[name])
    return importlib.import_module(f'{name}.library')


def from_dist():
    """The shared object of the repository; if crates were edited and dist/ was not made again, a line says so. A source archive
    has no crates."""
    library = maker()
    try:
        if not os.environ.get('ROWKEEPER_ARCHIVE') and os.path.exists(below('crates.txt')) and library.stale():
            print(f'rowkeeper: {library.stale()}', file=sys.stderr, flush=True)
        return library.shared()
    except library.Missing as missing:
        raise NoLibrary(str(missing)) from None


def place():
    """Where the shared object is: beside this package if it was installed, made from dist/ in the repository, else its bare
    name, which the system looks for among its libraries."""
    beside = os.path.join(HERE, SONAME)
    if os.path.exists(beside):
        return beside
    return SONAME if ROOT is None else from_dist()


def loaded(path):
    """The library in a shared object, with the types of its calls."""
    try:
        library = ctypes.CDLL(path)
        for name, (takes, gives) in CALLS.items():
            call = getattr(library, name)
            call.argtypes, call.restype = takes, gives
    except (OSError, AttributeError) as error:
        raise NoLibrary(f'the library cannot be loaded: {error}') from None
    if library.rowkeeper_version() != VERSION_NUMBER:
        raise NoLibrary(f'{path}: the library has the number {library.rowkeeper_version()}, and this module is {VERSION}')
    return library


@functools.lru_cache(maxsize=None)
def library():
    """The library of this version, looked for and loaded once a process, when the first call needs it."""
    return loaded(place())
