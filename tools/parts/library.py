"""The library as files that hosts link or load: made from dist/ by the C compiler, into build/, when they are missing or dist/ is
another one. Everything that needs the library asks here.

On x86-64 Linux they are made from the assembly text, elsewhere and where ROWKEEPER_FROM is c from the C file. If build/ cannot be
written, they are made in the user's cache folder.

A file in build/ appears whole, under its own name, by a rename, after it is on the disk: two runs at the same time do no harm, and
neither does a machine that stops. Beside it a file with the ending .from holds the sum of what it was made of and its own sum. Each
use compares both; a file that does not have them is made anew. No time of a file counts."""
import contextlib
import hashlib
import os
import platform
import re
import shlex
import shutil
import signal
import subprocess
import tempfile

from .sources import ROOT, Missing, file_sum, source_sum

DIST, BUILD = os.path.join(ROOT, 'dist'), os.path.join(ROOT, 'build')
SOURCE = os.path.join(DIST, 'SOURCE')
# The texts of the library in dist/, by the names of their sums in dist/SOURCE.
SUMS = {'text': 'rowkeeper.s', 'c': 'rowkeeper.c'}


def has_assembly():
    """Whether the assembly text is for this machine."""
    return (platform.system(), platform.machine()) == ('Linux', 'x86_64')


def text_name():
    """The text that the library is made from: the assembly where it is for this machine, unless ROWKEEPER_FROM asks for the C file."""
    wanted = os.environ.get('ROWKEEPER_FROM', '')
    if wanted not in ('', 'c'):
        raise Missing(f"ROWKEEPER_FROM is '{wanted}': leave it out, or set it to c for the C file")
    return 'rowkeeper.s' if has_assembly() and not wanted else 'rowkeeper.c'


def text():
    """The path of that text."""
    return os.path.join(DIST, text_name())


def soname():
    """The shared object's name. Its number, `abi` of the description, grows when a host must be compiled anew."""
    with open(os.path.join(ROOT, 'interface', 'rowkeeper.txt'), encoding='utf-8') as file:
        return 'librowkeeper.so.' + re.search(r'(?m)^abi (\d+)$', file.read()).group(1)


def ran(command):
    """Runs a command to its end: its status and what it printed on both streams. If a signal or anything else ends the wait, the
    command is ended too, with all that it started: they are a group of their own."""
    running = subprocess.Popen(command, stdout=subprocess.PIPE, stderr=subprocess.PIPE, stdin=subprocess.DEVNULL, start_new_session=True)
    with running:
        try:
            return (*running.communicate(), running.returncode)
        except BaseException:
            with contextlib.suppress(ProcessLookupError):
                os.killpg(running.pid, signal.SIGKILL)
            raise


def output_of(command, what):
    """What a command prints; if it fails, its last line is the reason."""
    try:
        out, err, status = ran(command)
    except OSError as error:
        raise Missing(f'{what}: {command[0]}: {error.strerror or error}') from None
    if status != 0:
        reason = [line for line in err.decode('utf-8', 'replace').split('\n') if line.strip()]
        raise Missing(f'{what}: {reason[-1] if reason else "status " + str(status)}')
    return out.decode('utf-8', 'replace').strip()


def compiler():
    """The command of a C compiler, as words: CC, which may have arguments, or the first that is on the path."""
    named = shlex.split(os.environ.get('CC', ''))
    if named:
        if shutil.which(named[0]):
            return named
        raise Missing(f'the library cannot be made: there is no {named[0]} on the path (CC names it)')
    for name in ('cc', 'gcc', 'clang'):
        if shutil.which(name):
            return [name]
    raise Missing('the library cannot be made: there is no C compiler (cc) on the path')


def said_of_source():
    """What dist/SOURCE says, by name."""
    try:
        with open(SOURCE, encoding='utf-8') as file:
            return dict(line.rstrip('\n').split(None, 1) for line in file if line.strip() and not line.startswith('#'))
    except (OSError, ValueError):
        raise Missing('dist/SOURCE cannot be read: run tools/dist') from None


def judge_text(name):
    """Stops if a text in dist/ is not the one that dist/SOURCE names."""
    label = next(label for label, each in SUMS.items() if each == name)
    try:
        if said_of_source().get(label) == file_sum(os.path.join(DIST, name)):
            return
    except OSError as error:
        raise Missing(f'dist/{name}: {error.strerror}') from None
    raise Missing(f'dist/{name} was altered: it is not the text that dist/SOURCE names; git checkout dist, or run tools/dist')


def stale():
    """The line that is due if crates of the library were edited and dist/ was not made again; else nothing."""
    if said_of_source().get('source') == source_sum('host_c'):
        return ''
    return 'crates of the library were edited and dist/ was not made again: this is the library from before; run tools/dist'


def is_from(path, total):
    """Whether a file is there, was made of this, and has the bytes that it was made with."""
    try:
        with open(f'{path}.from', encoding='utf-8') as file:
            return file.read() == f'{total} {file_sum(path)}'
    except OSError:
        return False


def on_disk(path):
    """Waits until a file or a folder is on the disk."""
    number = os.open(path, os.O_RDONLY)
    try:
        os.fsync(number)
    finally:
        os.close(number)


def cache():
    """The user's cache folder for this library, made if needed; nobody else may own it."""
    base = os.environ.get('XDG_CACHE_HOME') or os.path.join(os.path.expanduser('~'), '.cache')
    folder = os.path.join(base, 'rowkeeper')
    os.makedirs(folder, mode=0o700, exist_ok=True)
    if hasattr(os, 'getuid') and os.stat(folder).st_uid != os.getuid():
        raise PermissionError(1, 'it belongs to another user', folder)
    return folder


def make_at(path, total, commands):
    """Makes a file: the commands, over a new name for it, then the rename."""
    os.makedirs(os.path.dirname(path), exist_ok=True)
    folder = tempfile.mkdtemp(dir=os.path.dirname(path))
    try:
        new = os.path.join(folder, os.path.basename(path))
        for command in commands(new):
            output_of(command, 'the library cannot be made')
        with open(f'{new}.from', 'w', encoding='utf-8') as file:
            file.write(f'{total} {file_sum(new)}')
        for each in (new, f'{new}.from'):
            on_disk(each)
        for ending in ('', '.from'):
            os.replace(new + ending, path + ending)
        on_disk(os.path.dirname(path))
    finally:
        shutil.rmtree(folder, ignore_errors=True)
    return path


def make(path, total, commands):
    """The path of a file below build/, which is made unless it is there whole and made of this. If build/ cannot be written, the file is
    below the user's cache folder, under the sum of what it is made of."""
    if is_from(path, total):
        return path
    try:
        return make_at(path, total, commands)
    except OSError as error:
        reason = f'{os.path.dirname(path)}: {error.strerror}'
    try:
        kept = os.path.join(cache(), hashlib.sha256(total.encode()).hexdigest()[:16], os.path.basename(path))
        return kept if is_from(kept, total) else make_at(kept, total, commands)
    except OSError as error:
        raise Missing(f'the library cannot be made: {reason}; and in the cache, {error.filename}: {error.strerror}; '
                      'run make once as the owner of this folder') from None


def named_archive():
    """The archive that ROWKEEPER_ARCHIVE names, or none."""
    named = os.environ.get('ROWKEEPER_ARCHIVE')
    if named and not os.path.isfile(named):
        raise Missing(f'there is no file {named} (ROWKEEPER_ARCHIVE names it)')
    return os.path.realpath(named) if named else None


def dist_sum():
    """What a file made from dist/ is made of."""
    judge_text(text_name())
    return f'{soname()} {file_sum(text())}'


def below_build(name):
    """The path of a file that is made from dist/: that of the C file has a folder of its own where the assembly is the usual one."""
    return os.path.join(BUILD, 'c', name) if has_assembly() and text_name() == 'rowkeeper.c' else os.path.join(BUILD, name)


def compiled():
    """The text, and how it is compiled."""
    return [text()] if text_name() == 'rowkeeper.s' else ['-O2', '-fPIC', text()]


def static():
    """The path of the archive, for the linker."""
    archive = named_archive()
    if archive:
        return archive
    return make(below_build('librowkeeper.a'), dist_sum(), lambda new: [
        [*compiler(), '-c', *compiled(), '-o', f'{new}.o'], [os.environ.get('AR', 'ar'), 'rcs', new, f'{new}.o']])


def linked(new, parts):
    """The command that links the shared object. Its name inside, and that nothing may be undefined, are words of Linux' linkers."""
    words = [f'-Wl,-soname,{soname()}', '-Wl,-z,defs'] if platform.system() == 'Linux' else []
    return [*compiler(), '-shared', '-o', new, *words, *parts]


def shared():
    """The path of the shared object, for programs that load it and for the linker."""
    archive = named_archive()
    if not archive:
        return make(below_build(soname()), dist_sum(), lambda new: [linked(new, compiled())])
    name = hashlib.sha256(archive.encode()).hexdigest()[:12]
    return make(os.path.join(BUILD, 'other', name, soname()), f'{soname()} {file_sum(archive)}', lambda new: [
        linked(new, ['-Wl,--whole-archive', archive, '-Wl,--no-whole-archive'])])


def exported():
    """The names of the calls, as the header declares them."""
    with open(os.path.join(DIST, 'rowkeeper.h'), encoding='utf-8') as file:
        return re.findall(r'(?m)^[a-z][a-z0-9_]* (rowkeeper_[a-z_]+)\(', file.read())


def wasm():
    """The path of the library as WebAssembly, without imports, from the C file by clang and its linker."""
    judge_text('rowkeeper.c')
    code = os.path.join(DIST, 'rowkeeper.c')
    words = ['--target=wasm32', '-nostdlib', '-ffreestanding', '-O2', '-mbulk-memory', '-Wl,--no-entry', '-Wl,--stack-first',
             '-Wl,--export=__heap_base', *[f'-Wl,--export={name}' for name in exported()]]
    clang = os.environ.get('CLANG', 'clang')
    return make(os.path.join(BUILD, 'rowkeeper.wasm'), f'{" ".join(words)} {file_sum(code)}',
                lambda new: [[clang, *words, code, '-o', new]])


def crate_archive(crate):
    """The path of another crate's archive, by the Rattle kit, which makes it of the crate's exports, CRATE_c: for programs that
    measure what is inside the library."""
    exports = f'{crate}_c'
    folder, total = os.path.join(ROOT, 'crates', exports), source_sum(exports)
    if not shutil.which('rt'):
        raise Missing(f'the archive of {crate} is not in dist/, and the Rattle kit\'s command rt is not on the path')
    total += ' ' + output_of(['rt', 'version'], 'rt version')
    path = os.path.join(BUILD, 'crates', f'lib{crate}.a')
    if not is_from(path, total):
        ran = subprocess.run(['rt', 'lib'], cwd=folder, stdout=subprocess.PIPE, stderr=subprocess.STDOUT)
        if ran.returncode != 0:
            raise Missing(f'rt lib of {exports}: ' + ran.stdout.decode('utf-8', 'replace').strip().split('\n')[-1])
    return make(path, total, lambda new: [['cp', os.path.join(folder, 'out', f'lib{exports}.a'), new]])
