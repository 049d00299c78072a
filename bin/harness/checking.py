"""Checks of single runs of the program: each prints a line `passed WHAT` or `FAILED WHAT: WHY`, which bin/test counts."""

import os
import subprocess
import sys

from harness.program import TOP, Ending, path_of_program, short

program = path_of_program()
failures: list[str] = []


def check(what, holds, *shown):
    """Prints what became of a check."""
    if not holds:
        failures.append(what)
    text = ': ' + ' '.join(short(part) for part in shown).replace('\n', ' | ') if shown and not holds else ''
    print('passed' if holds else 'FAILED', what.replace('\n', ' ') + text, flush=True)


def run(*words, text=b'', within=()):
    """Returns how a run of the program ends that reads this text, maybe within the words of a command that limits it."""
    done = subprocess.run([*within, program, *words], input=text, capture_output=True, timeout=600, check=False)
    return Ending(done.returncode, done.stdout, done.stderr)


def ends(what, ending, status, output, errors=b''):
    """Checks how a run ended."""
    check(what, ending == (status, output, errors), ending)


def example(name):
    """Returns a file of the examples, or None if it isn't there."""
    path = os.path.join(TOP, 'examples', name)
    if not os.path.exists(path):
        return None
    with open(path, 'rb') as file:
        return file.read()


def main(groups):
    """Makes the checks of the group that the command line names, and ends the command."""
    if len(sys.argv) != 2 or sys.argv[1] not in groups:
        sys.exit('usage: %s %s' % (os.path.basename(sys.argv[0]), ' | '.join(groups)))
    groups[sys.argv[1]]()
    sys.exit(1 if failures else 0)
