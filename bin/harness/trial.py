"""A trial: what one check starts, waits for and says."""

import os
import re
import shutil
import subprocess
import tempfile
import time
from typing import Any

from harness.program import short

PATIENCE = 10


class Wrong(Exception):
    """What a check found to be wrong."""


class Late(Wrong):
    """A time that a check found to be wrong, as it may be on a host that is too slow for all checks at once."""


class Skipped(Exception):
    """Why a check can't be made here."""


def require(holds, what, *shown, wrong=Wrong):
    """Ends the check unless something holds."""
    if not holds:
        raise wrong(' '.join([what] + [short(part) for part in shown]))


def equal(found, wanted, what):
    require(found == wanted, what + ':', found, 'and not', wanted)


def between(low, found, high, what):
    """Ends the check unless a number is within its bounds. It is a time if it is said to be seconds or ms."""
    wrong = Late if what.startswith(('seconds ', 'ms ')) else Wrong
    require(low <= found <= high, what + ':', round(found, 3), 'and not from', low, 'to', high, wrong=wrong)


def matches(pattern, text, what):
    """Returns the match of a whole text."""
    match = re.fullmatch(pattern, text)
    require(match, what + ':', text, 'is not as', pattern)
    return match


def wait(holds, seconds, what, shown=lambda: '', pause=0.02):
    """Waits until something holds, and returns it. It looks again after each pause."""
    latest = time.monotonic() + seconds
    while True:
        found = holds()
        if found:
            return found
        require(time.monotonic() < latest, '%s: not in %g s' % (what, seconds), shown(), wrong=Late)
        time.sleep(pause)


class Trial:
    """What a check has started. At its end all of it is closed, and each node has to have kept to its output."""

    def __init__(self, program, ports):
        self.program = program
        self.ports = ports
        self.nodes: list[Any] = []
        self.open: list[Any] = []

    def measures_memory(self):
        """Skips the check if the program is built with a sanitizer, which keeps memory that is freed."""
        with open(self.program, 'rb') as file:
            if b'__asan_init' in file.read():
                raise Skipped('the program is built with a sanitizer')

    def run(self, *words, text=b''):
        """Returns how a run of the program ended, with what it wrote. It has to end at once."""
        try:
            return subprocess.run([self.program, *words], input=text, capture_output=True, timeout=PATIENCE, check=False)
        except subprocess.TimeoutExpired:
            raise Wrong('it does not end: %s, with %s' % (' '.join(words), short(text[-200:]))) from None

    def closes(self, thing):
        """Notes something that is to be closed at the end, and returns it."""
        self.open.append(thing)
        return thing

    def finish(self):
        """Ends what still runs, and says what is wrong with it."""
        for thing in reversed(self.open):
            thing.close()
        wrongs = ['a lesson is wrong: ' + thing.wrong for thing in self.open if getattr(thing, 'wrong', None)]
        return wrongs + [wrong for node in self.nodes for wrong in node.ended()]


class Folder:
    """A folder of its own, whose path is short enough for the file of a socket. It is removed at the end of the trial."""

    def __init__(self, trial):
        self.name = tempfile.mkdtemp(prefix='n', dir='/tmp')
        trial.closes(self)

    def path(self, name='s'):
        return os.path.join(self.name, name)

    def close(self):
        shutil.rmtree(self.name, ignore_errors=True)


CHECKS = {}


def check(function):
    """Notes a check, under the name of its function, which no other one has."""
    name = function.__name__.replace('_', '-')
    require(name not in CHECKS, 'two checks have the name', name)
    CHECKS[name] = function
    return function
