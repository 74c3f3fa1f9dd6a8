"""The library is made once: neither files of crates nor what the tests empty make the command make it again. In a copy of what the command
needs, after a first run; whatever is made after it would be made by a compiler that leaves a mark."""
import os
import shutil
import subprocess
import sys
import unittest

import rowkeeper.library

from ..build import ROOT
from .command import SEASON, Case, Run

# What the copy has: the command, its module, what makes the library, and the crates' sources.
PARTS = ('rowkeeper', 'cli', os.path.join('bindings', 'python', 'rowkeeper'), 'dist', 'interface', 'tools', 'crates.txt', 'crates')
# What it leaves out.
LEFT_OUT = shutil.ignore_patterns('__pycache__', 'tests', 'proofs', 'must-fail', 'out', 'build')

# A folder in which the kit works.
OUT = ('crates', 'host_c', 'out')

JOIN = ('join', os.path.join(SEASON, 'sales.csv'), os.path.join(SEASON, 'notices.csv'), '--on', 'minute', '--by', 'performance')

# The command as a program that writes down, into the file that is named first, every path that it or what it starts is handed: those of
# files that are opened, listed, made, renamed, removed, loaded or run, and those that are only looked at.
WATCHED = '''
import os, sys
seen, looks = [], {name: getattr(os, name) for name in ('stat', 'lstat', 'access', 'readlink')}

def note(each):
    if isinstance(each, (list, tuple)):
        list(map(note, each))
    elif isinstance(each, (str, bytes)):
        seen.append(os.path.abspath(os.fsdecode(each)))

def looking(look):
    return lambda path, *more, **how: (note(path), look(path, *more, **how))[1]

for name, look in looks.items():
    setattr(os, name, looking(look))
sys.addaudithook(lambda event, given: note(given) if event == 'open' or event.split('.')[0] in ('os', 'ctypes', 'subprocess') else None)
sys.path.insert(0, os.getcwd())
from cli.main import command
status = command(sys.argv[2:])
found = sorted(set(seen))
with open(sys.argv[1], 'w', encoding='utf-8') as file:
    file.write('\\n'.join(found))
sys.exit(status)
'''


class MadeOnce(Case):
    """The copy, in which the library has been made."""

    def setUp(self):
        """Makes the copy. Its dist/ stands for its crates, also where those of the repository are being edited."""
        super().setUp()
        self.copy, self.mark = os.path.join(os.path.realpath(self.folder), 'copy'), os.path.join(self.folder, 'mark')
        os.mkdir(self.copy)
        for part in PARTS:
            here, there = os.path.join(ROOT, part), os.path.join(self.copy, part)
            os.makedirs(os.path.dirname(there), exist_ok=True)
            if os.path.isdir(here):
                shutil.copytree(here, there, ignore=LEFT_OUT)
            else:
                shutil.copy(here, there)
        maker = rowkeeper.library.maker()
        self.sources = sys.modules[maker.__name__.rpartition('.')[0] + '.sources']
        text = self.read(os.path.join(self.copy, 'dist', 'SOURCE'))
        old, new = maker.said_of_source()['source'], self.sources.source_sum('host_c', self.copy)
        with open(os.path.join(self.copy, 'dist', 'SOURCE'), 'w', encoding='utf-8') as file:
            file.write(text.replace(old, new))
        self.compiler = self.file('cc', f'#!/bin/sh\n: >{self.mark}\nexit 1\n')
        os.chmod(self.compiler, 0o755)

    def ran(self, words, makes=False):
        """A program of the copy; only the real compiler makes anything."""
        env = {name: value for name, value in os.environ.items() if name != 'ROWKEEPER_ARCHIVE'}
        env.update({'PYTHONDONTWRITEBYTECODE': '1'}, **({} if makes else {'CC': self.compiler, 'AR': self.compiler}))
        ran = subprocess.run([sys.executable, *words], cwd=self.copy, env=env, stdout=subprocess.PIPE, stderr=subprocess.PIPE)
        return Run(ran.returncode, ran.stdout.decode('utf-8'), ran.stderr.decode('utf-8'))

    def made(self):
        """Every file of the copy that is no source, with what changes if it is written or made again."""
        found = {}
        for folder, folders, files in os.walk(self.copy):
            if folder == self.copy:
                folders[:] = [name for name in folders if name != 'crates']
            for name in (*folders, *files):
                path = os.path.join(folder, name)
                known = os.stat(path)
                found[os.path.relpath(path, self.copy)] = (known.st_ino, known.st_size, known.st_mtime_ns)
        return found

    def first(self):
        """The first run, which makes the library; what there is then."""
        self.went_well(self.ran(['rowkeeper', *JOIN], makes=True))
        found = self.made()
        self.assertIn(rowkeeper.library.SONAME, map(os.path.basename, found))
        return found

    def as_before(self, before, said=''):
        """A run that makes nothing, works, and says nothing but this line and how many sales have a notice."""
        run = self.ran(['rowkeeper', *JOIN])
        self.assertTrue(run.err.startswith(said), run.err)
        run.err = run.err[len(said):]
        self.went_well(run)
        self.assertEqual(run.out, self.read(os.path.join(SEASON, 'priced.csv')))
        self.assertFalse(os.path.exists(self.mark), 'the compiler was started')
        self.assertEqual(self.made(), before)

    def touch(self, folder, line=''):
        """Gives all files of a folder of the crates a time to come, and this line at their ends."""
        touched = 0
        for where, _, files in os.walk(os.path.join(self.copy, 'crates', folder)):
            for path in (os.path.join(where, name) for name in files):
                with open(path, 'a', encoding='utf-8') as file:
                    file.write(line)
                os.utime(path, (4 * 10**9, 4 * 10**9))
                touched += 1
        self.assertGreater(touched, 0)

    def test_files_of_crates(self):
        """Files of a crate that the library does not contain, touched and altered, and a crate that is listed nowhere; of one that it does
        contain, touched, and what only the checker reads altered: nothing is made and nothing is said. A source that is altered is told, and
        the library is the one from before."""
        before, inside = self.first(), self.sources.crates_of('host_c', self.copy)
        outside = [name for name in self.sources.listed(self.copy) if name not in inside and self.sources.files_of(name, self.copy)]
        self.assertGreater(min(len(inside), len(outside)), 3)
        for name in outside:
            self.touch(os.path.join(name, 'src'))
        self.as_before(before)
        for name in outside:
            self.touch(name, '-- altered\n')
        os.makedirs(os.path.join(self.copy, 'crates', 'new', 'src'))
        with open(os.path.join(self.copy, 'crates', 'new', 'src', 'lib.rt'), 'w', encoding='utf-8') as file:
            file.write('-- new\n')
        self.as_before(before)
        for name in inside:
            self.touch(os.path.join(name, 'src'))
        self.touch(os.path.join('order', 'specs'), '-- altered\n')
        self.as_before(before)
        self.touch(os.path.join('order', 'src'), '-- altered\n')
        self.as_before(before, 'rowkeeper: crates of the library were edited and dist/ was not made again: this is the library from before; '
                       'run tools/dist\n')

    def test_out_is_emptied(self):
        """What the tests empty is out/, in which the kit works: the command and the path of the archive make nothing if it is absent, empty or
        emptied, and leave it as it is."""
        out, archive = os.path.join(self.copy, *OUT), self.ran([os.path.join('tools', 'library')], makes=True).out
        before = self.first()
        self.assertFalse(os.path.exists(out))
        for make in (lambda: None, lambda: os.mkdir(out), lambda: os.makedirs(os.path.join(out, 'rlib')), lambda: shutil.rmtree(out)):
            make()
            there = os.path.exists(out) and os.listdir(out)
            self.as_before(before)
            self.assertEqual(os.path.exists(out) and os.listdir(out), there)
            now = self.made()
            run = self.ran([os.path.join('tools', 'library')])
            self.assertEqual((run.status, run.out, run.err), (0, archive, ''))
            self.assertEqual((self.made(), os.path.exists(self.mark)), (now, False))

    @unittest.skipUnless(hasattr(sys, 'addaudithook'), 'Python 3.8 tells what is opened')
    def test_nothing_below_out(self):
        """No path that the command looks at, when it makes the library and when it has it, lies below the kit's out/."""
        out, paths = os.path.join(self.copy, *OUT), os.path.join(self.folder, 'paths')
        wanted = [os.path.join(self.copy, *names) for names in (('crates.txt',), ('dist', 'SOURCE'), ('dist', 'rowkeeper.s'),
                                                                ('build', rowkeeper.library.SONAME), ('crates', 'order', 'src'))]
        for makes in (True, False):
            self.went_well(self.ran(['-c', WATCHED, paths, *JOIN], makes))
            found = self.read(paths).split('\n')
            self.assertEqual([path for path in found if path == out or path.startswith(out + os.sep)], [])
            self.assertEqual(set(wanted) - set(found), set())
