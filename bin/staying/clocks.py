"""A node under a clock of the check's own, which stands still until the check moves it: what comes due comes at its millisecond and not
before it. A thread that waits for a time waits by the system's clock, for as long as was left when it began to."""

import contextlib
import itertools
import mmap
import os
import shutil
import signal
import socket
import struct
import subprocess
import threading
import time

from harness.far import Door, Manners, connected, kept_open, status_of
from harness.node import T1, Admin, address
from harness.trial import Folder, Skipped, check, equal, require, wait
from harness.wire import CONFIRMED, FINISHED, HEARTBEAT, PARTIAL, REQUEST, acknowledgement, definition, hello, table, update
from staying.logs import refused
from staying.measures import lag_of, lags
from staying.ports import Metered
from staying.requests import answer_to
from staying.resyncs import long_rows, tracked
from staying.sessions import KEEPS_QUIET, up_to_date, with_b

# Where the clock stands when a node begins, in ms: so that its own start isn't the clock's.
BEGIN = 70_000
# The longest that a session waits before it looks at the clock, in s.
SOON = 3.5
SILENT = Manners(beats=False)


class Clock:
    """A clock, of which a node learns by its environment."""

    def __init__(self, trial):
        folder = Folder(trial)
        self.name, self.library = folder.path('milliseconds'), folder.path('clock.so')
        source = os.path.join(os.path.dirname(os.path.abspath(__file__)), 'clock.c')
        subprocess.run(['cc', '-shared', '-fPIC', '-O1', '-o', self.library, source], check=True)
        with open(self.name, 'w+b') as file:
            file.truncate(mmap.PAGESIZE)
            self.there = mmap.mmap(file.fileno(), 0)

    def set(self, milliseconds):
        self.there[:8] = struct.pack('=q', milliseconds)

    def close(self):
        self.there.close()


class Clocked(Metered):
    """A node with such a clock."""

    def __init__(self, trial, **other):
        if shutil.which('cc') is None:
            raise Skipped('there is no cc')
        super().__init__(trial, **other)
        self.clock = trial.closes(Clock(trial))
        self.clock.set(BEGIN)
        self.environment = {**os.environ, 'LD_PRELOAD': self.clock.library, 'CLOCK': self.clock.name}

    def at(self, milliseconds):
        """Sets the clock to so many ms after the node began."""
        self.clock.set(BEGIN + milliseconds)


def passes(node, first, last, step=500):
    """Has a time pass while sessions are lively, which look at the clock every 100 ms: without a jump of a second, which puts a tick off."""
    for moment in [*range(first, last, step), last]:
        node.at(moment)
        time.sleep(0.4)


@check
def clock_heartbeats(trial):
    """a session sends a heartbeat 3,000 ms after its last message, and ends as silent 10,000 ms after the last byte that came, not a ms sooner"""
    node = Clocked(trial, tables=(T1,)).start()
    far = connected(trial, node, manners=SILENT)
    far.gets(CONFIRMED, 2)
    up_to_date(node)
    passes(node, 500, 2_999)
    for count in (1, 2, 3):
        node.at(3_000 * count - 1)
        time.sleep(SOON)
        equal(far.count(HEARTBEAT), count - 1, 'heartbeats a ms before the next one')
        node.at(3_000 * count)
        far.gets(HEARTBEAT, SOON, count)
    node.at(9_999)
    time.sleep(SOON)
    far.stands()
    node.at(10_000)
    far.ends(SOON)
    wait(lambda: node.peer('b')['last_end'] == 'silent', 2, 'the end is silent', lambda: node.peer('b'))


@check
def clock_jumps(trial):
    """a node that finds 30 s gone at once gives its sessions another second: one of which a byte comes then stays, one without ends"""
    node = Clocked(trial, peers=('b', 'c'), tables=(T1,)).start()
    mute = connected(trial, node, 'b', SILENT)
    lively = connected(trial, node, 'c', SILENT)
    up_to_date(node)
    passes(node, 500, 3_000)
    for far in (mute, lively):
        far.gets(HEARTBEAT, SOON)
    node.at(33_000)
    time.sleep(SOON)
    lively.send(HEARTBEAT)
    wait(lambda: node.peer('c')['heartbeats_received'] == '1', 2, 'the heartbeat is read')
    node.at(33_999)
    time.sleep(SOON)
    mute.stands()
    node.at(34_000)
    mute.ends(SOON)
    node.at(42_999)
    time.sleep(SOON)
    lively.stands()
    equal([node.peer(name)['last_end'] for name in 'bc'], ['silent', '-'], 'the ends')


@check
def clock_of_a_mute_peer(trial):
    """a peer that was asked has 5,000 ms to answer, and is asked again 60,000 ms after it was asked, not a ms sooner"""
    node = Clocked(trial, peers=('b', 'c'), tables=(T1,)).start()
    first = connected(trial, node, 'b', KEEPS_QUIET)
    first.gets(REQUEST, SOON)
    second = connected(trial, node, 'c', KEEPS_QUIET)
    passes(node, 500, 4_999)
    time.sleep(1)
    equal((second.count(REQUEST), node.logged('unanswered')), (0, []), 'requests to the other one, and lines, a ms before')
    node.at(5_000)
    node.logs('unanswered', peer='b')
    second.gets(REQUEST, SOON)
    passes(node, 5_500, 9_999)
    equal(node.logged('unanswered', peer='c'), [], 'lines a ms before')
    node.at(10_000)
    node.logs('unanswered', peer='c')
    node.at(59_999)
    time.sleep(SOON)
    equal((first.count(REQUEST), second.count(REQUEST)), (1, 1), 'requests a ms before')
    node.at(60_000)
    first.gets(REQUEST, SOON, 2)
    passes(node, 60_500, 64_999)
    equal(second.count(REQUEST), 1, 'requests to the other one a ms before')
    node.at(65_000)
    second.gets(REQUEST, SOON, 2)
    second.send(FINISHED)
    up_to_date(node)


@check
def clock_of_a_heartbeat_that_stays_away(trial):
    """the log says for how long nothing was read of a peer, once something is, if that was more than 6,000 ms, and nothing if it was a ms less; the session stands on"""
    node = Clocked(trial, tables=(T1,)).start()
    far = connected(trial, node, 'b', SILENT)
    passes(node, 500, 6_000)
    far.send(HEARTBEAT)
    time.sleep(0.5)
    passes(node, 6_500, 12_000)
    equal(node.logged('no-heartbeat'), [], 'lines about a peer that sent nothing for 6,000 ms')
    node.at(12_001)
    far.send(HEARTBEAT)
    said, = node.logs('no-heartbeat', peer='b', seconds=SOON)
    equal((said.level, said.keys['ms']), ('warn', '6001'), 'the line')
    equal(node.peer('b')['state'], 'ready', 'its session')


@check
def clock_of_a_late_status(trial):
    """that a peer answered the hello late is no heartbeat that stayed away; but a late one is behind which the far side closes at once"""
    door = Door(trial, SILENT, status=b'')
    node = Clocked(trial, peers=('b ' + address(door.port),), tables=(T1,)).start()
    late = wait(lambda: door.kept and door.kept[0], SOON, 'the node connects', node.said)
    passes(node, 500, 7_000)
    late.sendall(b'200\n')
    node.logs('connected', peer='b', seconds=SOON)
    time.sleep(0.5)
    equal(node.logged('no-heartbeat'), [], 'lines about a status that came late')
    passes(node, 7_500, 14_000)
    late.sendall(HEARTBEAT)
    late.shutdown(socket.SHUT_WR)
    node.logs('ended', peer='b', seconds=SOON)
    said, = node.logged('no-heartbeat', peer='b')
    equal(said.keys['ms'], '7000', 'ms for which nothing was read')


def brings_on(far, there, number):
    """Has a far side bring a row, and waits until the node has it."""
    far.send(update(there, number, number, (1,)))
    far.gets_ack(there.id, number, SOON)


@check
def clock_of_an_endless_peer(trial):
    """a peer that goes on bringing rows is waited for until 600,000 ms after it was asked, and asked again 660,000 ms after that, not a ms sooner; what it
    brings later counts"""
    node = Clocked(trial, peers=('b', 'c'), tables=(T1,)).start()
    fars = [connected(trial, node, 'b', KEEPS_QUIET)]
    fars[0].gets(REQUEST, SOON)
    fars.append(connected(trial, node, 'c', KEEPS_QUIET))
    first, second = fars
    of, numbers = table(7, 't1'), itertools.count(1)
    for far in fars:
        far.send(definition(of))

    def rows(begin, end):
        """Has both bring a row each 4,999 ms."""
        for moment in [*range(begin, end, 4_999), end]:
            node.at(moment)
            number = next(numbers)
            for far in fars:
                brings_on(far, of, number)
    rows(0, 599_999)
    time.sleep(1)
    equal((second.count(REQUEST), node.logged('unanswered')), (0, []), 'requests to the other one, and lines, a ms before')
    node.at(600_000)
    said, = node.logs('unanswered', peer='b', seconds=SOON)
    equal((said.keys['why'], 'ten minutes' in said.sentence), ('endless', True), 'why the wait is over: ' + said.sentence)
    second.gets(REQUEST, SOON)
    second.send(PARTIAL)
    second.gets(CONFIRMED, SOON)
    rows(600_000, 659_999)
    equal((len(node.ask('show rows')), node.head()['up_to_date']), (next(numbers) - 1, 'no'), 'rows, and whether the node is up to date')
    time.sleep(SOON)
    equal(first.count(REQUEST), 1, 'requests to the first one a ms before')
    node.at(660_000)
    first.gets(REQUEST, SOON, 2)
    first.send(FINISHED)
    up_to_date(node)


@check
def clock_of_those_away(trial):
    """a node some of whose peers are away, and the others partial, is up to date 5,000 ms after its start, not a ms sooner"""
    node = Clocked(trial, peers=('b', 'c'), tables=(T1,)).start()
    connected(trial, node, 'b', Manners(answer=PARTIAL)).gets(CONFIRMED, SOON)
    node.at(4_999)
    time.sleep(1)
    equal(node.is_up_to_date(), False, 'up to date a ms before')
    node.at(5_000)
    wait(node.is_up_to_date, 1, 'the node is up to date', node.said)


@check
def clock_of_resyncs(trial):
    """a peer that asks again is taught 1,000 ms after its last resync began, not a ms sooner"""
    node, far = with_b(trial, of=Clocked, tables=(T1,))
    node.at(900)
    far.send(REQUEST)
    far.gets(FINISHED, SOON)
    far.send(REQUEST)
    node.at(1_899)
    time.sleep(1)
    equal(far.count(FINISHED), 1, 'ends a ms before')
    node.at(1_900)
    far.gets(FINISHED, SOON, 2)


@check
def clock_of_idle_clients(trial):
    """a connection without a request is closed after 60,000 ms, at both ports, not a ms sooner"""
    node = Clocked(trial, tables=(T1,)).start()
    idle = [trial.closes(Admin(port, node.host)) for port in (node.admin_port, node.metrics_port)]
    time.sleep(0.5)
    node.at(59_999)
    time.sleep(1)
    equal([client.is_over() for client in idle], [False, False], 'which are over a ms before')
    node.at(60_000)
    wait(lambda: all(client.is_over() for client in idle), 2, 'both are over')


@check
def clock_of_a_stopped_node(trial):
    """what a client sends while the node is stopped, for longer than it may be idle, is answered: a request at each port, and a hello"""
    node = Clocked(trial, tables=(T1,)).start()
    idle = [trial.closes(Admin(port, node.host)) for port in (node.admin_port, node.metrics_port)]
    peer = trial.closes(kept_open((node.host, node.port)))
    time.sleep(0.5)
    node.child.send_signal(signal.SIGSTOP)
    time.sleep(0.2)
    node.at(90_000)
    idle[0].send('get t1 7\n')
    idle[1].send('GET /ready HTTP/1.1\r\n\r\n')
    peer.sendall(hello(node.name, 'b'))
    time.sleep(0.2)
    node.child.send_signal(signal.SIGCONT)
    equal(idle[0].line(2), 'none', 'the answer to a request')
    require(idle[1].line(2).startswith('HTTP/1.1 200 '), 'the answer to a request at the other port')
    equal(status_of(peer, 2), b'200\n', 'the answer to a hello')


def slow_readers(trial, path, count):
    """Has clients of a socket ask for more than the system keeps for them, of which each then reads a little again and again."""
    clients = []
    for _ in range(count):
        clients.append(trial.closes(Admin(path)).peer)
        clients[-1].sendall(b'show rows\n' * 100)
        time.sleep(0.01)

    def play():
        while any(client.fileno() >= 0 for client in clients):
            time.sleep(0.1)
            for client in clients:
                with contextlib.suppress(OSError):
                    client.recv(1 << 13)
    for client in clients:
        client.settimeout(0.01)
    threading.Thread(target=play, daemon=True).start()


@check
def clock_of_slow_clients(trial):
    """of 32 clients that take their answers slowly the one answered longest makes room for another after 60,000 ms, not a ms sooner"""
    path = Folder(trial).path()
    node = Clocked(trial, peers=(), tables=('table 1 long string 8192 0 gpc0',), more=('admin unix:' + path,)).start()
    long_rows(node, 64)
    node.admins.close()
    time.sleep(0.2)
    slow_readers(trial, path, 32)
    time.sleep(1)
    node.at(59_999)
    equal(answer_to(node, 'get long =k\n'), b'busy\n', 'the answer to one more a ms before')
    node.at(60_000)
    equal([node.admin().ask('get long =k') for _ in range(3)], ['none'] * 3, 'the answers to three more')
    equal(node.admin().ask('stop'), 'ok', 'the answer to stop')
    equal(node.child.wait(5), 0, 'the status')


@check
def clock_of_lags(trial):
    """the count of more than 32,000 rows that a peer lacks is shown for 5,000 ms, not a ms longer, and one of fewer is always new"""
    node, far = with_b(trial, of=Clocked, tables=(T1, 'table 2 t2 integer 4 0 gpc0'))
    node.at(500)
    for name in ('t1', 't2'):
        node.ask('track %s 0 add gpc0 1' % name)
        wait(lambda name=name: node.shared('b', name)['acknowledged'] == '1', 3, 'a row is acknowledged')
    far.manners = Manners(acks='none')
    for name, count in (('t1', 33_500), ('t2', 1_000)):
        tracked(node, name, range(1, count + 1))
        equal(lags(node, 'b', name)[0], count, 'the lag in ' + name)
    far.manners = Manners()
    for at in (1, 2):
        far.send(acknowledgement(at, [one.number for one in far.updates('t%d' % at)][-1]))
    for name, count in (('t1', 33_501), ('t2', 1_001)):
        wait(lambda: node.shared('b', name)['acknowledged'] == str(count), 20, 'all is acknowledged')
    node.at(5_499)
    equal((lags(node, 'b', 't1')[0], lags(node, 'b', 't2')[0]), (33_500, 0), 'the lags a ms before')
    node.at(5_500)
    equal((lags(node, 'b', 't1')[0], lag_of(node)), (0, 0), 'the lags')


@check
def clock_of_rows(trial):
    """a row lives until its end, that ms excluded; a lone event is shown as 1 until two periods are over, that ms included"""
    node = Clocked(trial, peers=(), tables=('table 1 ends integer 4 10000 gpc0', 'table 2 rates integer 4 0 http_req_rate:10000')).start()
    node.ask('track ends 7 add gpc0 1')
    node.ask('track rates 7 rate http_req_rate 1')
    node.at(9_999)
    equal(node.ask('get ends 7'), 'row 1 %d 7 1' % (2 ** 32 + 10_000), 'the row a ms before its end')
    node.at(10_000)
    equal(node.ask('get ends 7'), 'none', 'the row at its end')
    for moment, shown in ((10_000, 1), (10_001, 1), (20_000, 1), (20_001, 0)):
        node.at(moment)
        _, line = node.ask('show table rates')
        require(line.endswith(' http_req_rate(10000)=%d' % shown), 'the rate after %d ms:' % moment, line)


@check
def clock_of_the_log(trial):
    """of one event about strangers, or about one peer, the log has five lines until a second is over, and says then how many were left out"""
    node = Clocked(trial, peers=('b', 'c'), tables=(T1,)).start()
    for number in range(12):
        equal(refused(node, 'n', 's%d' % number), b'504\n', 'the status')
    node.at(999)
    time.sleep(1.5)
    equal((len(node.logged('hello-refused')), node.logged('omitted')), (5, []), 'lines, and what was left out, a ms before')
    node.at(1_000)
    said, = node.logs('omitted', seconds=SOON, of='hello-refused')
    equal(said.keys['count'], '7', 'lines that were left out')
    refused(node, 'n', 's12')
    equal(len(node.logs('hello-refused', times=6)), 6, 'lines')
    for times in range(1, 13):
        connected(trial, node).close()
        wait(lambda times=times: (node.peer('b')['state'], node.peer('b')['sessions']) == ('down', str(times)), SOON, 'the session is over', node.said)
    connected(trial, node, 'c')
    node.logs('connected', peer='c')
    for event in ('connected', 'ended'):
        equal(len(node.logged(event, peer='b')), 5, 'lines about one peer: ' + event)
    node.at(2_000)
    for event in ('connected', 'ended'):
        said, = node.logs('omitted', seconds=SOON, of=event, peer='b')
        equal(said.keys['count'], '7', 'lines about one peer that were left out: ' + event)
