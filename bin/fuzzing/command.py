"""The command line of bin/fuzz: workers that take cases one after another, and what they found."""

import argparse
import multiprocessing
import os
import random as chances
import signal
import subprocess
import sys
import time
import traceback
from collections import Counter

from fuzzing import kinds
from fuzzing.keeping import Folder, kept_case, kept_name
from harness.program import TOP, Program, path_of_program
from fuzzing.shrinking import complaint_of, shrunk

MOST_FAILURES = 20
SECONDS_TO_SHRINK = 20


def arguments(words):
    parser = argparse.ArgumentParser(prog='bin/fuzz', description='Feeds the program random and hostile input, and looks at what it does.')
    parser.add_argument('seconds', metavar='SECONDS', type=float, nargs='?', help='how long to go on')
    parser.add_argument('seed', metavar='SEED', type=int, nargs='?', help='the same seed makes the same cases in the same order')
    parser.add_argument('--cases', metavar='N', type=int, help='at most that many cases')
    parser.add_argument('--jobs', metavar='N', type=int, default=len(os.sched_getaffinity(0)), help='worker processes; one for each core without this option')
    parser.add_argument('--kinds', metavar='KIND,..', help='cases of these kinds alone: ' + ', '.join(kind.name for kind in kinds.ALL))
    parser.add_argument('--only', metavar='NUMBER', type=int, help='this case of the seed alone')
    parser.add_argument('--keep', metavar='FOLDER', help='where failed cases are kept; a fresh folder without this option')
    parser.add_argument('--patience', metavar='SECONDS', type=float, default=5, help='how long the program may take to end; 5 without this option')
    parser.add_argument('--again', metavar='FOLDER', help='the case that was kept there alone')
    options = parser.parse_args(words)
    if options.seconds is None and options.again is None:
        parser.error('SECONDS is missing')
    chosen = [kinds.BY_NAME.get(name) for name in options.kinds.split(',')] if options.kinds else list(kinds.ALL)
    if None in chosen or options.jobs < 1:
        parser.error('no such kind, or no job')
    options.kinds = chosen
    return options


def built_program():
    """Returns the path of the program to try, which is built if need be."""
    if not os.environ.get('PEERS_NODE'):
        with open(os.path.join(TOP, 'examples/empty-batch.scene'), 'rb') as scene:
            subprocess.run([os.path.join(TOP, 'bin/peers_node'), 'lesson'], stdin=scene, stdout=subprocess.DEVNULL, check=False)
    return path_of_program()


def case_of(seed, number, chosen):
    """Returns the kind and the data of a case of a seed. Each case has chance of its own, so that any number of workers makes the same."""
    random = chances.Random('%d/%d' % (seed, number))
    kind = random.choices(chosen, [each.weight for each in chosen])[0]
    return kind, kind.make(random)


class Worker:
    """Runs cases, and keeps those that fail."""

    def __init__(self, program, seed, chosen, folder):
        self.program, self.seed, self.chosen, self.folder = program, seed, chosen, folder
        self.counts: Counter[str] = Counter()
        self.began = time.monotonic()

    def run(self, number):
        """Runs a case, and returns whether it passed."""
        kind, case = case_of(self.seed, number, self.chosen)
        self.counts[kind.name] += 1
        seconds = time.monotonic() - self.began
        try:
            complaint = complaint_of(self.program, kind, case)
            if complaint is None:
                return True
            before = self.program.decoded, self.program.sessions
            case, complaint = shrunk(self.program, kind, case, complaint, SECONDS_TO_SHRINK)
            what, text = complaint.what, str(complaint)
            if complaint_of(self.program, kind, case) is None:
                text += '; run once more it passed'
            self.program.decoded, self.program.sessions = before
        except Exception:  # the fuzzer itself is wrong: that is a failure too
            what, text = 'fuzzer', traceback.format_exc()
        name = kept_name(number, kind.name, what)
        self.folder.keep(name, dict(case, kind=kind.name), text, self.program.latest)
        print('FAILED: case %d, %s, begun after %.0f s: %s' % (number, kind.name, seconds, text), flush=True)
        return False

    def work(self, following, failures, options, latest):
        """Takes case after case until the time is over, or there were too many failures. Returns the counts."""
        while True:
            with following.get_lock():
                number = following.value
                following.value += 1
            if options.cases is not None and number >= options.cases or time.monotonic() >= latest or failures.value >= MOST_FAILURES:
                break
            if not self.run(number):
                with failures.get_lock():
                    failures.value += 1
        self.counts['decoded'], self.counts['sessions'] = self.program.decoded, self.program.sessions
        return self.counts


def run_worker(path, seed, options, folder, following, failures, latest, results):
    try:
        results.put(Worker(Program(path, options.patience), seed, options.kinds, folder).work(following, failures, options, latest))
    except KeyboardInterrupt:
        results.put(Counter())


def fuzz(path, seed, options, folder):
    """Runs workers until all have ended. Returns their counts and how many cases failed."""
    following, failures = multiprocessing.Value('q', 0), multiprocessing.Value('q', 0)
    results: multiprocessing.SimpleQueue = multiprocessing.SimpleQueue()
    latest = time.monotonic() + options.seconds
    given = path, seed, options, folder, following, failures, latest, results
    workers = [multiprocessing.Process(target=run_worker, args=given, daemon=True) for _ in range(options.jobs)]
    for worker in workers:
        worker.start()
    for worker in workers:
        worker.join()
    counts: Counter[str] = Counter()
    while not results.empty():
        counts.update(results.get())
    return counts, failures.get_obj().value + sum(1 for worker in workers if worker.exitcode != 0)


def run_again(program, folder):
    """Runs a kept case again, and says what it comes to."""
    name, case = kept_case(folder)
    complaint = complaint_of(program, kinds.BY_NAME[name], case)
    print('passed' if complaint is None else 'FAILED: %s' % complaint)
    return complaint is not None


def main(words):
    signal.signal(signal.SIGTERM, lambda *_: sys.exit(1))
    options = arguments(words)
    path = built_program()
    if options.again is not None:
        return int(run_again(Program(path, options.patience), options.again))
    seed = chances.SystemRandom().randrange(2 ** 32) if options.seed is None else options.seed
    folder = Folder(options.keep)
    began = time.monotonic()
    try:
        counts, failed = run_only(path, seed, options, folder) if options.only is not None else fuzz(path, seed, options, folder)
        return report(counts, failed, seed, folder, time.monotonic() - began)
    finally:
        folder.drop()


def run_only(path, seed, options, folder):
    """Runs one case of a seed. Returns the counts, and how many cases failed."""
    worker = Worker(Program(path, options.patience), seed, options.kinds, folder)
    failed = int(not worker.run(options.only))
    return worker.counts + Counter(decoded=worker.program.decoded, sessions=worker.program.sessions), failed


def report(counts, failed, seed, folder, seconds):
    """Prints what was tried and what failed, and returns the exit status."""
    total = sum(counts[kind.name] for kind in kinds.ALL)
    print('seed %d, %.0f s' % (seed, seconds))
    print('cases: ' + ', '.join('%s %d' % (kind.name, counts[kind.name]) for kind in kinds.ALL if counts[kind.name]))
    print('messages decoded by learn and check: %d' % counts['decoded'])
    print('sessions: %d' % counts['sessions'])
    for name in folder.sort():
        print('kept: bin/fuzz --again %s' % os.path.join(folder.path, name))
    print('%d passed, %d failed' % (max(0, total - failed), failed))
    return int(failed > 0)
