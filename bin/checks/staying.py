#!/usr/bin/env python3
"""Checks a node that stays, as `peers_node run` runs it, against scripted far sides that speak the peers protocol:

  staying.py                      all checks, side by side, of the built program, or of the one that PEERS_NODE names
  staying.py NAME..               these checks alone
  staying.py --list               the names of the checks, and what each of them is about

For each check it prints a line `passed NAME`, `FAILED NAME: WHY` or `skipped NAME: WHY`, and at the end how many passed and failed; the
status is 0 only if none failed and one at least passed. A check that is skipped counts as neither; with DIGBARO_ALL_CHECKS=1 it has failed.
One that failed beside the others, and of which only a time was wrong, is tried once more by itself, as up to three may be; more of them
have failed."""

import importlib
import os
import signal
import sys
import time
import traceback
from collections import namedtuple
from concurrent.futures import ThreadPoolExecutor, TimeoutError as NotYet

sys.dont_write_bytecode = True
sys.path[0] = os.path.dirname(os.path.dirname(os.path.abspath(__file__)))

from harness.ports import Ports  # noqa: E402, since the path has to be set first
from harness.program import path_of_program  # noqa: E402
from harness.trial import CHECKS, Late, Skipped, Trial, Wrong  # noqa: E402

# The modules of bin/staying, each of which notes its checks.
for module in ('balancers clocks dashboards definitions hostile lacking logs measures memory meshes ports renewals requests resyncs sessions '
               'starting').split():
    importlib.import_module('staying.' + module)

AT_ONCE = 20
# All checks have to end in so many seconds.
LIMIT = 600
# So many checks may be tried a second time, on a host that was too slow for all of them at once.
AGAIN = 3
# Those that take longest, which begin first.
LONGEST = """asks-again-after-a-minute dashboard clock-heartbeats clock-jumps clock-of-a-mute-peer three-faults idle-clients metrics-idle
    million-changes each-allocation-of-a-session soak memory-of-many-clients stops-beside-scrapes clock-of-slow-clients clock-of-lags
    suspended drains-slowly clock-of-renewals sends-without-pause clock-of-an-endless-peer haproxy-starts-again haproxy-that-connects
    haproxy-that-is-connected-to haproxy-of-version-2-0 haproxy-that-differs haproxy-that-differs-otherwise lacking-tables
    many-tables-differ deaf stops-beside-the-deaf heartbeats heartbeats-of-a-connector idle bytes-are-enough a-byte-a-second reads-slowly
    silent silent-to-a-connector two-of-three-killed killed-and-started-again stopped-and-started-again no-answer-to-a-hello
    refused-by-a-status falls-back""".split()


# Whether a check that can't be made here has failed.
ALL = os.environ.get('DIGBARO_ALL_CHECKS') == '1'
# What became of a check: the first word of its line, why it failed or was skipped, and whether only a time was wrong.
Result = namedtuple('Result', 'word why is_late')

trials: list[Trial] = []


def give_up(*_):
    """Ends all nodes that still run, and this process."""
    for trial in trials:
        for node in trial.nodes:
            node.end()
    sys.stdout.flush()
    os._exit(1)


def tried(program, ports, function):
    """Makes a check, and returns what became of it."""
    trial = Trial(program, ports)
    trials.append(trial)
    wrongs, skipped, is_late = [], None, False
    try:
        function(trial)
    except Wrong as wrong:
        wrongs, is_late = [str(wrong)], isinstance(wrong, Late)
    except Skipped as why:
        skipped = str(why)
    except Exception:  # A check that breaks down has failed.
        wrongs = [traceback.format_exc()]
    at_its_end = trial.finish()
    if skipped is not None and ALL:
        wrongs = ['it is skipped: ' + skipped]
    if wrongs or at_its_end:
        return Result('FAILED', '; '.join(wrongs + at_its_end).replace('\n', ' | '), is_late and not at_its_end)
    return Result('passed', None, False) if skipped is None else Result('skipped', skipped, False)


def result_of(check, latest):
    """Waits until a check has ended, until some moment at the latest, and returns what became of it."""
    try:
        return check.result(max(0, latest - time.monotonic()))
    except NotYet:
        return Result('FAILED', 'it has not ended in time', False)


def tell(word, name, why):
    """Prints the line of a check."""
    print(word, name if why is None else '%s: %s' % (name, why), flush=True)


def in_order(names):
    """Returns the names, the longest checks first."""
    return sorted(names, key=lambda name: LONGEST.index(name) if name in LONGEST else len(LONGEST))


def run(program, names):
    """Runs checks, prints a line for each, and returns the status."""
    ports, counts = Ports(), dict.fromkeys(('passed', 'FAILED', 'skipped'), 0)
    begun = time.monotonic()
    again: list[str] = []
    pool = ThreadPoolExecutor(AT_ONCE)
    running = [(name, pool.submit(tried, program, ports, CHECKS[name])) for name in in_order(names)]
    for name, check in running:
        word, why, is_late = result_of(check, begun + LIMIT)
        if is_late and len(names) > 1 and len(again) < AGAIN:
            again.append(name)
            tell('again', name, why)
            continue
        counts[word] += 1
        tell(word, name, why)
    # A check that failed beside the others, which may have kept it from its times, is tried once more by itself.
    for name in again:
        running.append((name, pool.submit(tried, program, ports, CHECKS[name])))
        word, why, _ = result_of(running[-1][1], begun + LIMIT)
        counts[word] += 1
        tell(word, name, why)
    print('%d passed, %d failed, %d skipped, %d tried again, in %.0f s' % (*counts.values(), len(again), time.monotonic() - begun), flush=True)
    if not all(check.done() for _, check in running):
        give_up()
    return 0 if counts['passed'] and not counts['FAILED'] else 1


def main(words):
    if words == ['--list']:
        for name, function in CHECKS.items():
            print('%-32s %s' % (name, function.__doc__))
        return 0
    strange = [word for word in words if word not in CHECKS]
    if strange:
        print('no such check: %s; staying.py --list has their names' % ' '.join(strange), file=sys.stderr)
        return 2
    program = path_of_program()
    signal.signal(signal.SIGTERM, give_up)
    signal.signal(signal.SIGINT, give_up)
    return run(program, words or list(CHECKS))


if __name__ == '__main__':
    sys.exit(main(sys.argv[1:]))
