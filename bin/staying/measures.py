"""What a node that stays tells of its peers and of itself: what they lack, why they aren't there, what it displaced, and its process."""

import os
import shutil
import subprocess
import time

from harness.far import Manners, connected, speaks, status_of
from harness.node import T1, Node
from harness.trial import Folder, Skipped, between, check, equal, matches, require, wait
from harness.wire import CONFIRMED, FINISHED, REQUEST, acknowledgement, definition, hello, update
from staying.logs import refused
from staying.resyncs import tracked
from staying.sessions import T1_THERE, asking, node_of_b, node_with_door, up_to_date, with_b

TWO = (T1, 'table 2 t2 integer 4 0 gpc0')
MUTE = Manners(acks='none')


def lag_of(node, peer='b'):
    """Returns how many rows a peer lacks, as `show peers` says it."""
    return int(node.peer(peer)['lag'])


def lags(node, peer, name):
    """Returns how many rows of a table a peer lacks, and the age of the oldest, as the metrics say them."""
    values = node.metrics()
    return [float(values['digbaro_peer_lag_%s{peer="%s",name="%s"}' % (what, peer, name)]) for what in ('rows', 'seconds')]


@check
def lag(trial):
    """show peers and the metrics say how many rows a peer has still to be pushed or to acknowledge, and how old the oldest of them is"""
    node = node_of_b(trial, peers=('b', 'c'), tables=TWO)
    equal((lag_of(node), lag_of(node, 'c'), lags(node, 'b', 't1')), (0, 0, [0, 0]), 'the lag without a session')
    far = connected(trial, node)
    up_to_date(node)
    node.ask('track t1 0 add gpc0 1')
    far.gets_row('t1', 0, (1,))
    wait(lambda: lag_of(node) == 0, 2, 'all is acknowledged')
    equal(lags(node, 'b', 't1'), [0, 0], 'the lag once all is acknowledged')
    far.manners = MUTE
    begun = time.monotonic()
    node.ask('track t1 1 add gpc0 1')
    wait(lambda: node.shared('b', 't1')['taught'] == '2', 1, 'a row is sent')
    for key in (2, 3, 1, 2, 1):
        node.ask('track t1 %d add gpc0 1' % key)
    equal(lag_of(node), 3, 'the lag of three rows, of which some changed again')
    time.sleep(3)
    equal((lag_of(node), lag_of(node, 'c')), (3, 0), 'the lag of rows that are sent, or wait for the acknowledgement of others')
    rows, age = lags(node, 'b', 't1')
    equal(rows, 3, 'the rows')
    between(2.5, age, time.monotonic() - begun, 'the age of the oldest')
    equal((lags(node, 'b', 't2'), lags(node, 'c', 't1')), ([0, 0], [0, 0]), 'the lag of another table, and of another peer')
    node.ask('track t2 7 add gpc0 1')
    equal((lag_of(node), lags(node, 'b', 't2')[0]), (4, 1), 'the lag of rows of two tables')
    far.send(acknowledgement(1, 2))
    wait(lambda: node.shared('b', 't1')['taught'] == '7', 2, 'the other rows are sent', lambda: node.shared('b', 't1'))
    for number, left in ((4, 2), (6, 1), (7, 0)):
        far.send(acknowledgement(1, number))
        wait(lambda: lags(node, 'b', 't1')[0] == left, 1, 'the lag once %d is acknowledged' % number, lambda: lags(node, 'b', 't1'))
    equal((lag_of(node), lags(node, 'b', 't1')), (1, [0, 0]), 'the lag of the other table alone')
    far.close()
    wait(lambda: node.peer('b')['state'] == 'down', 2, 'the session is over')
    equal((lag_of(node), lags(node, 'b', 't2')), (0, [0, 0]), 'the lag once the session is over')


@check
def lag_of_rows_learned(trial):
    """rows of another peer are no lag, but while a resync teaches them"""
    node, far = asking(trial, peers=('b', 'c', 'd'), tables=(T1,))
    far.send(definition(T1_THERE) + b''.join(update(T1_THERE, number, number, (1,)) for number in range(1, 6)) + FINISHED)
    up_to_date(node)
    equal(len(node.ask('show rows')), 5, 'rows learned')
    other = connected(trial, node, 'c')
    node.ask('track t1 9 add gpc0 1')
    other.gets_row('t1', 9, (1,))
    wait(lambda: lag_of(node, 'c') == 0, 2, 'the lag of a peer that was pushed the row')
    taught = connected(trial, node, 'd', MUTE, REQUEST)
    taught.gets_row('t1', 9, (1,))
    node.ask('track t1 10 add gpc0 1')
    equal((lag_of(node, 'd'), lags(node, 'd', 't1')[0]), (7, 7), 'the lag of a peer that is taught all of them')
    equal(len(taught.rows('t1')), 6, 'rows that it was taught')


@check
def lag_of_many_rows(trial):
    """rows are counted beside a peer that acknowledges none, while others are served at once"""
    node, far = with_b(trial, peers=('b', 'c'), tables=(T1,))
    node.ask('track t1 0 add gpc0 1')
    wait(lambda: node.shared('b', 't1')['acknowledged'] == '1', 2, 'the first row is acknowledged')
    far.manners = MUTE
    count = 50_000
    admin = node.admin()
    for first in range(1, count, 5000):
        admin.send(''.join('track t1 %d add gpc0 1\n' % key for key in range(first, min(count, first + 5000))))
        for _ in range(first, min(count, first + 5000)):
            require(admin.line(5).startswith('reply '), 'a track')
    begun = time.monotonic()
    equal(lag_of(node), count - 1, 'the lag')
    between(0, time.monotonic() - begun, 2, 'seconds until it is counted')


@check
def stops_beside_scrapes(trial):
    """stop ends a node within 5 s while many rows are counted for each of its peers, again and again"""
    names, count = ['b%d' % place for place in range(15)], 50_000
    node = node_of_b(trial, peers=names, tables=(T1,))
    for name in names:
        connected(trial, node, name, MUTE)
    up_to_date(node)
    tracked(node, 't1', range(count))
    wait(lambda: node.metric('digbaro_tables_left') == 15, 20, 'the table is left', node.metrics)
    values = node.metrics()
    equal([values['digbaro_peer_lag_rows{peer="%s",name="t1"}' % name] for name in names], [str(count)] * 15, 'the lags')
    time.sleep(5)
    for _ in range(8):
        node.admin().send('GET /metrics HTTP/1.1\r\n\r\n')
    time.sleep(0.1)
    between(0, node.stop(), 5, 'seconds until it has ended')


@check
def lag_of_a_table_left(trial):
    """the rows of a table that was left since its peer never acknowledged it stay to be acknowledged"""
    node = node_of_b(trial, tables=(T1,))
    connected(trial, node, manners=MUTE)
    up_to_date(node)
    node.ask('track t1 7 add gpc0 1')
    begun = time.monotonic()
    wait(lambda: node.shared('b', 't1')['left'] == 'yes', 5, 'the table is left')
    time.sleep(1)
    equal(lag_of(node), 1, 'the lag')
    between(1, lags(node, 'b', 't1')[1], time.monotonic() - begun, 'its age')


@check
def lag_of_rows_that_ended(trial):
    """a row that has ended is no lag"""
    node, far = with_b(trial, tables=('table 1 t1 integer 4 1000 gpc0',))
    node.ask('track t1 7 add gpc0 1')
    wait(lambda: node.shared('b', 't1')['acknowledged'] == '1', 2, 'a row is acknowledged')
    far.manners = MUTE
    node.ask('track t1 8 add gpc0 1')
    equal(lag_of(node), 1, 'the lag of a row')
    time.sleep(1.1)
    equal(lag_of(node), 0, 'the lag after its end')


@check
def rows_displaced(trial):
    """rows that a full table drops for new ones are counted, whoever brings these"""
    node, far = asking(trial, tables=TWO, more=('size 1 2', 'size 2 1', 'nopurge 2'))
    far.send(definition(T1_THERE) + update(T1_THERE, 1, 21, (1,)) + update(T1_THERE, 2, 22, (1,)) + update(T1_THERE, 3, 23, (1,)) + FINISHED)
    up_to_date(node)
    node.shows('digbaro_rows_displaced_total{name="t1"}', 1)
    for key, displaced in ((23, 1), (22, 1), (1, 2), (1, 2), (2, 3), (22, 4)):
        node.ask('track t1 %d add gpc0 1' % key)
        equal(node.metric('digbaro_rows_displaced_total{name="t1"}'), displaced, 'rows displaced after a change of %d' % key)
    for key, answer in ((1, 'reply 1 - 1 1 local'), (2, 'TableFull')):
        equal(node.ask('track t2 %d add gpc0 1' % key), answer, 'a track')
    equal(node.metric('digbaro_rows_displaced_total{name="t2"}'), 0, 'rows displaced in a table with nopurge')


@check
def hellos_refused(trial):
    """hellos that are refused are counted by their status"""
    node = node_of_b(trial)
    for text, status in ((b'HAProxyS 2.1\nn\nx 1 1\n', 504), (b'HAProxyS 2.1\nn\nx 1 1\n', 504), (b'HAProxyS 2.1\nx\nb 1 1\n', 503),
                         (b'HAProxyS 3.0\nn\nb 1 1\n', 502), (b'x' * 2000, 501)):
        peer = speaks(trial, node, text)
        equal(status_of(peer), b'%d\n' % status, 'the answer to %r' % text[:20])
        peer.close()
    for status, count in ((501, 1), (502, 1), (503, 1), (504, 2)):
        node.shows('digbaro_hellos_refused_total{status="%d"}' % status, count)


@check
def troubles_shown(trial):
    """a peer's line says why there is no session, how many rows it lacks, and how many tables it defines otherwise"""
    node = node_of_b(trial, tables=(T1,))
    matches(r'peer b state=down .* version=- last_error=- lag=0 mismatched=0( .*)?', node.ask('show peers')[1], 'a peer without a session')
    equal(refused(node, 'm', 'b'), b'503\n', 'the status for a hello to another name')
    node.shows('digbaro_peer_last_error{peer="b",error="hello-refused-503"}', 1)
    connected(trial, node).gets(CONFIRMED, 3)
    up_to_date(node)
    equal([name for name in node.metrics() if name.startswith('digbaro_peer_last_error')], [], 'reasons beside a session')
    lines = node.ask('show peers')
    matches(r'peer b state=ready .* version=2\.1 last_error=- lag=0 mismatched=0( .*)?', lines[1], 'a peer with a session')
    matches(r'table b t1 .* left=no mismatch=-( .*)?', lines[2], 'a table of it')
    equal(node.metric('digbaro_tables_mismatched{peer="b"}'), 0, 'tables that it defines otherwise')


@check
def last_error_of_an_end(trial):
    """a hello that was refused while a session stood is no reason why there is none later"""
    door, node = node_with_door(trial)
    far = door.far()
    up_to_date(node)
    refuse = speaks(trial, node, hello('x', 'b'))
    equal(status_of(refuse), b'503\n', 'the status for a hello to another name')
    node.shows('digbaro_hellos_refused_total{status="503"}', 1)
    door.status = b''
    far.close()
    wait(lambda: door.kept, 6, 'the node connects again')
    door.kept[0].close()
    node.logs('unreachable', peer='b')
    equal(node.peer('b')['last_error'], 'unreachable', 'why there is no session')
    again = speaks(trial, node, hello('x', 'b'))
    equal(status_of(again), b'503\n', 'the status for a further one')
    wait(lambda: node.peer('b')['last_error'] == 'hello-refused-503', 2, 'why there is no session by then', lambda: node.peer('b'))


@check
def process_metrics(trial):
    """the metrics of the process are what the system says of it"""
    begun = time.time()
    node = Node(trial, peers=(), tables=(T1,))
    # The system says the program's name between parentheses, whatever it has in it.
    node.program = Folder(trial).path('a) R (b')
    os.symlink(trial.program, node.program)
    node.start()
    values = node.metrics()
    between(0.5, float(values['process_resident_memory_bytes']) / 2 ** 20 / node.memory(), 2, 'the memory, as a share of what the system says')
    others = [node.admin() for _ in range(3)]
    for admin in others:
        equal(admin.ask('get t1 7'), 'none', 'an answer')
    open_fds = len(os.listdir('/proc/%d/fd' % node.child.pid))
    # The connection that brings the metrics is one more.
    equal(node.metric('process_open_fds'), open_fds + 1, 'the descriptors')
    between(begun - 1, float(values['process_start_time_seconds']), time.time(), 'the start')
    before = node.metric('process_cpu_seconds_total')
    for _ in range(5):
        node.admins.send('track t1 7 add gpc0 1\n' * 5000)
        for _ in range(5000):
            node.admins.line()
    with open('/proc/%d/stat' % node.child.pid) as file:
        words = file.read().rsplit(') ', 1)[1].split(' ')
    between(before, node.metric('process_cpu_seconds_total'), (int(words[11]) + int(words[12])) / 100 + 0.2, 'the time')
    require(any(name.startswith('digbaro_build_info{version="') and value == '1' for name, value in values.items()), 'the version', values)


@check
def kit_of_the_program(trial):
    """the metrics name the kit that is there, by its own name"""
    if not shutil.which('rt'):
        raise Skipped('there is no rt')
    kit = subprocess.run(['rt', 'version'], capture_output=True, text=True).stdout.split()[0]
    node = Node(trial, peers=(), tables=(T1,)).start()
    version = subprocess.run([trial.program, '--version'], capture_output=True, text=True).stdout.split()
    values = node.metrics()
    name = next(name for name in values if name.startswith('digbaro_build_info{'))
    matches(r'digbaro_build_info\{version="[0-9.]+",kit="%s"\}' % kit, name, 'the build')
    require(not version or name.split('"')[1] in version[-1], 'the version', name, version)


@check
def promtool(trial):
    """promtool finds nothing to mend in the page of metrics"""
    if not shutil.which('promtool'):
        raise Skipped('there is no promtool')
    node = node_of_b(trial, peers=('b', 'c'), tables=TWO, more=('section mesh',))
    connected(trial, node)
    up_to_date(node)
    node.ask('track t1 7 add gpc0 1')
    _, page = node.get('/metrics')
    found = subprocess.run(['promtool', 'check', 'metrics'], input=page, capture_output=True, text=True)
    equal((found.returncode, found.stdout + found.stderr), (0, ''), 'what promtool says')


@check
def families_without_samples(trial):
    """each family stands on the page also if it has no sample"""
    node = Node(trial, peers=(), tables=(T1,)).start()
    _, page = node.get('/metrics')
    for family in ('digbaro_peer_up', 'digbaro_peer_lag_rows', 'digbaro_peer_lag_seconds', 'digbaro_tables_mismatched', 'digbaro_faults_total'):
        require('\n# HELP %s ' % family in page and '\n# TYPE %s ' % family in page, 'the head of %s' % family, page)
        require('\n%s' % family not in page.replace('\n# ', ''), 'a sample of %s' % family)
