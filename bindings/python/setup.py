"""Makes the shared object from the repository's dist/ when a wheel is built, and puts it into the package; and puts what that needs
into a source archive. pyproject.toml has the rest."""
import os
import shutil
import sys

from setuptools import setup
from setuptools.command.build_py import build_py
from setuptools.command.sdist import sdist

try:
    from setuptools.command.bdist_wheel import bdist_wheel
except ImportError:
    from wheel.bdist_wheel import bdist_wheel

HERE = os.path.dirname(os.path.abspath(__file__))
sys.path.insert(0, HERE)

from rowkeeper import library  # noqa: E402 (the package is in this folder)

# What the shared object is made of and by, as the repository has it.
NEEDED = ('dist/SOURCE', 'dist/rowkeeper.c', 'dist/rowkeeper.h', 'dist/rowkeeper.s', 'interface/rowkeeper.txt', 'tools/parts/__init__.py',
          'tools/parts/library.py', 'tools/parts/sources.py', 'LICENSE', 'NOTICE')


class Build(build_py):
    """Copies the modules, and beside them the shared object."""

    def run(self):
        """Makes both."""
        super().run()
        made = library.from_dist()
        shutil.copy(made, os.path.join(self.build_lib, 'rowkeeper', library.SONAME))


class Source(sdist):
    """A source archive from which a wheel can be built where there is no repository, by a C compiler."""

    def make_release_tree(self, base_dir, files):
        """Puts what the shared object needs into a folder of its own."""
        super().make_release_tree(base_dir, files)
        for name in NEEDED:
            goal = os.path.join(base_dir, 'library', name)
            os.makedirs(os.path.dirname(goal), exist_ok=True)
            shutil.copy(library.below(name), goal)


class Wheel(bdist_wheel):
    """A wheel for this kind of machine, and for every Python 3: the shared object knows nothing of Python."""

    def finalize_options(self):
        """The wheel is not for every machine."""
        super().finalize_options()
        self.root_is_pure = False

    def get_tag(self):
        """Its tag: any Python 3, this platform."""
        return ('py3', 'none', super().get_tag()[2])


setup(cmdclass={'build_py': Build, 'bdist_wheel': Wheel, 'sdist': Source})
