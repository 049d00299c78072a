"""A node that lacks memory while it runs: its allocations are refused as it goes on, one of them or all (bin/checks/refusing.py)."""

import itertools
import os
import subprocess
import sys
import time

from harness.far import Door, Far, speaks, status_of
from harness.node import T1, address
from harness.trial import PATIENCE, Skipped, between, check, equal, require, wait
from harness.wire import hello
from staying.resyncs import T2
from staying.sessions import with_b

REFUSING = os.path.join(os.path.dirname(os.path.abspath(__file__)), '../checks/refusing.py')
SEVEN = (7).to_bytes(4, 'big')


class Refuser:
    """Refuses a node its allocations when it is told to."""

    def __init__(self, trial, node):
        words = [sys.executable, REFUSING, 'running', str(node.child.pid)]
        self.child = subprocess.Popen(words, stdin=subprocess.PIPE, stdout=subprocess.PIPE, stderr=subprocess.DEVNULL, text=True)
        trial.closes(self)
        if not self.child.stdout.readline():
            raise Skipped('the node cannot be traced')

    def counts(self):
        """Returns what it says next: how many allocations were refused since it was last told to, and of how many."""
        refused, calls = self.child.stdout.readline().split(' of ')
        return int(refused), int(calls)

    def tell(self, line):
        """Tells it a line, and returns what it says."""
        self.child.stdin.write(line + '\n')
        self.child.stdin.flush()
        return self.counts()

    def close(self):
        self.child.stdin.close()
        self.child.wait()
        self.child.stdout.close()


def at_rest(node):
    """Waits until the tables of a node have no further events, and returns how many these are."""
    counts = []

    def same():
        counts.append(node.events())
        return len(counts) > 3 and counts[-4:] == counts[-1:] * 4
    wait(same, PATIENCE, 'the tables are at rest', lambda: counts, pause=0.3)
    return counts[-1]


def attempted(trial, node):
    """Returns a far side that connects as b, if the node takes its hello."""
    peer = speaks(trial, node, hello(node.name, 'b'))
    if status_of(peer) == b'200\n':
        return trial.closes(Far(peer))
    peer.close()
    return None


def has_seven(far):
    """Whether a far side is taught a row before its session is over."""
    wait(lambda: far.over or SEVEN in far.rows('t1'), 5, 'a row comes, or the session ends', far.shown)
    return SEVEN in far.rows('t1')


def served(trial, node):
    """Returns a far side that connects as b again and again until it is taught a row."""
    def comes():
        far = attempted(trial, node)
        return far if far and has_seven(far) else None
    return wait(comes, PATIENCE, 'the peer is served', node.said, pause=0.5)


def with_a_row(trial, **other):
    """Returns a node that has taught its peer b a row of both tables, and the peer."""
    node, far = with_b(trial, tables=(T1, T2), **other)
    for name in ('t1', 't2'):
        node.ask('track %s 7 add gpc0 1' % name)
        far.gets_row(name, 7, (1,))
    return node, far


@check
def session_ends_without_memory(trial):
    """a session that ends while there is no memory stays open in its tables, and the peer's next one stands and teaches all the same"""
    node, far = with_a_row(trial)
    before, refuser = at_rest(node), Refuser(trial, node)
    refuser.tell('refuse')
    far.close()
    time.sleep(1)
    refused, calls = refuser.tell('allow')
    require(refused == calls >= 4, 'allocations that were refused:', refused, 'of', calls)
    wait(lambda: node.peer('b')['state'] == 'down', 3, 'the session is over', lambda: node.peer('b'))
    equal(node.events(), before, 'events, of which the end of a session is one in each table')
    far = served(trial, node)
    far.gets_row('t2', 7, (1,), 2)
    node.ask('track t1 8 add gpc0 1')
    far.gets_row('t1', 8, (1,), 2)
    between(before + 5, at_rest(node), before + 20, 'events once it was closed and opened in both tables')
    between(0, node.stop(), 5, 'seconds until it has ended')


@check
def each_allocation_of_a_session(trial):
    """whichever allocation is refused while a session ends and the peer connects again, the peer is served in the end"""
    node, far = with_a_row(trial)
    refuser = Refuser(trial, node)
    for number in itertools.count(1):
        refuser.tell('refuse %d' % number)
        far.close()
        far = attempted(trial, node)
        time.sleep(0.5)
        refused, _ = refuser.tell('allow')
        if not (far and has_seven(far)):
            far = served(trial, node)
        if not refused:
            break
    require(number > 20, 'allocations that were refused in turn:', number - 1)
    between(0, node.stop(), 5, 'seconds until it has ended')


@check
def stops_while_all_is_refused(trial):
    """stop ends a node within 5 s while each allocation is refused, so that no session can be closed in a table"""
    door = Door(trial)
    node, far = with_a_row(trial, peers=('b', 'c ' + address(door.port)))
    door.far().gets_row('t1', 7, (1,))
    at_rest(node)
    admin, refuser = node.admin(), Refuser(trial, node)
    time.sleep(0.5)
    refuser.tell('refuse')
    begun = time.monotonic()
    admin.send('stop\n')
    equal((admin.line(), node.child.wait(6)), ('ok', 0), 'the answer to stop, and the status')
    between(0, time.monotonic() - begun, 5, 'seconds until it has ended')
    refused, calls = refuser.counts()
    require(refused == calls >= 8, 'allocations that were refused:', refused, 'of', calls)
    far.ends(1)
