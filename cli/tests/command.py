"""Runs the command, as a program of its own or within the test."""
import contextlib
import io
import os
import re
import subprocess
import sys
import tempfile
import unittest

from ..build import ROOT
from ..main import main

PROGRAM = os.path.join(ROOT, 'rowkeeper')
SEASON = os.path.join(ROOT, 'examples', 'season')


# The line at the end of a run that went well.
COUNTED = re.compile('rowkeeper: ([0-9,]+) of ([0-9,]+) sales? (?:has|have) a notice'
                     '(?:; ([0-9,]+) (?:has none, it is|have none, the first) in line ([0-9]+))?\n')


# What is said of groups that no notice has, and of columns that both files have; tests of their own judge these.
GROUPS, SHARED = re.compile('; [0-9,]+ groups? ha(?:s|ve) no notice at all[:,] [^;\\n]*'), re.compile('rowkeeper: .* not compared: add --by .*\\n')


def plain(said):
    """What was said, without that."""
    return SHARED.sub('', GROUPS.sub('', said))


class Run:
    """A run's status, and what it wrote."""

    def __init__(self, status, out, err):
        self.status, self.out, self.err = status, out, err


def within(words):
    """The command within this program."""
    out, err = io.TextIOWrapper(io.BytesIO(), encoding='ascii'), io.StringIO()
    with contextlib.redirect_stdout(out), contextlib.redirect_stderr(err):
        status = main([str(word) for word in words])
    return Run(status, out.buffer.getvalue().decode('utf-8'), err.getvalue())


def apart(words, **how):
    """The command as a program of its own."""
    ran = subprocess.run([sys.executable, PROGRAM, *words], stdout=how.pop('stdout', subprocess.PIPE),
                         stderr=subprocess.PIPE, **how)
    return Run(ran.returncode, (ran.stdout or b'').decode('utf-8'), ran.stderr.decode('utf-8'))


class Case(unittest.TestCase):
    """A test with a folder of its own."""

    def setUp(self):
        """Makes the folder; it goes with the test."""
        folder = tempfile.TemporaryDirectory()
        self.addCleanup(folder.cleanup)
        self.folder = folder.name

    def file(self, name, content):
        """Writes a file; its path."""
        path = os.path.join(self.folder, name)
        with open(path, 'wb') as file:
            file.write(content if isinstance(content, bytes) else content.encode('utf-8'))
        return path

    def read(self, path):
        """A file's text."""
        with open(path, encoding='utf-8', newline='') as file:
            return file.read()

    def went_well(self, run):
        """The run did what it was to do, and said in one line how many sales have a notice; those numbers and the line."""
        self.assertEqual(run.status, 0, run.err)
        counted = COUNTED.fullmatch(plain(run.err))
        self.assertTrue(counted, run.err)
        return [None if each is None else int(each.replace(',', '')) for each in counted.groups()]

    def refused(self, run, said, status=1):
        """The run ended with one line that says this, and no Python shows through."""
        self.assertEqual(run.status, status, run.err)
        self.assertEqual(run.err.count('\n'), 1, run.err)
        self.assertIn(said, run.err)
        self.assertTrue(run.err.startswith('rowkeeper: '), run.err)
        self.assertEqual(run.out, '')
