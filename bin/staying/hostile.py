"""Far sides that break the protocol, or stand outside the profile."""

import contextlib
import random
import threading
import time

from fuzzing.streams import OVER
from harness.far import Door, Manners, connected, is_closed, kept_open, speaks, status_of
from harness.node import T1, Node, address
from harness.tables import KINDS
from harness.trial import between, check, equal, require, wait
from harness.wire import (CONFIRMED, DEFINITION, HEARTBEAT, OLDER_VERSION, PROTOCOL_ERROR, REQUEST, SIZE_LIMIT, TABLE_CLASS,
                          Heard, acknowledgement, definition, encoded, hello, message, switch, table, update)
from staying.resyncs import long_rows
from staying.sessions import T1_THERE, beats, node_of_b, up_to_date, with_b, with_c

ST = 'table 2 st string 33 0 server_key'
ST_THERE = table(78, 'st', 'string', types=('server_key',))


def wide(identifier, name, bits, rest, kind='integer', length=4):
    """Returns a definition with these bits for its types."""
    data = encoded(identifier) + encoded(len(name)) + name + encoded(KINDS[kind]) + encoded(length) + encoded(bits) + encoded(0) + rest
    return message(TABLE_CLASS, DEFINITION, data)


# --- What is passed over

def still_learns(node, far, value, seconds=2):
    """Checks that the session goes on: another row is learned and acknowledged."""
    far.send(definition(T1_THERE) + update(T1_THERE, value, 7, (value,)))
    far.gets_ack(77, value, seconds)
    equal(node.ask('get t1 7'), 'row 1 - 7 %d' % value, 'a row after it')
    far.stands()


@check
def empty_slots(trial):
    """an update with the name of an empty slot is passed over"""
    node = node_of_b(trial, tables=(T1, ST))
    far = connected(trial, node)
    far.send(definition(ST_THERE) + update(ST_THERE, 1, b'a', (), name=('read', 5)) + update(ST_THERE, 2, b'b', (), name=('write', 5, b's5'))
             + update(ST_THERE, 3, b'c', (), name=('read', 5)))
    still_learns(node, far, 1)
    equal([node.ask('get st =' + key) for key in 'abc'], ['none', 'row 2 - =b s5', 'row 2 - =c s5'], 'the rows')
    node.shows('digbaro_passed_over_total{why="slot"}', 1)


@check
def types_from_20_up(trial):
    """a table with types from 20 up is passed over, and its names still go into the slots"""
    node = node_of_b(trial, tables=(T1, ST))
    far = connected(trial, node)
    arrays = wide(90, b'arrays', 1 << 2 | 1 << 19 | 1 << 20, encoded(20) + encoded(3))
    row = b'\0\0\0\1' + b'\0\0\0\7' + encoded(5) + b'\4\1\2s9' + encoded(1) + encoded(2) + encoded(3)
    far.send(arrays + message(TABLE_CLASS, 128, row) + definition(ST_THERE) + update(ST_THERE, 1, b'a', (), name=('read', 1)))
    far.gets_ack(78, 1, 2)
    equal(node.ask('get st =a'), 'row 2 - =a s9', 'a name that the other table wrote')
    still_learns(node, far, 1)
    wait(lambda: node.metric('digbaro_passed_over_total{why="type"}') >= 1, 2, 'it is counted', node.metrics)
    equal([line for line in node.ask('show rows') if 'row 1 ' in line], ['row 1 - 7 1'], 'rows of t1')


@check
def other_definitions(trial):
    """a definition outside the profile is passed over, and so is a table that this node hasn't"""
    node = node_of_b(trial)
    far = connected(trial, node)
    far.send(wide(91, b't1', 1 << 2, b'', length=5) + message(TABLE_CLASS, 128, b'\0\0\0\1' + b'\0\0\0\7\7' + encoded(5)))
    still_learns(node, far, 1)
    other = table(92, 'other', types=('gpc0', 'gpc1'))
    far.send(definition(other) + update(other, 1, 7, (1, 2)) + update(other, None, 8, (1, 2)))
    still_learns(node, far, 2)
    equal(far.acks, [(77, 1), (77, 2)], 'acknowledgements')
    wait(lambda: node.metric('digbaro_passed_over_total{why="definition"}') >= 1, 2, 'it is counted', node.metrics)


@check
def log_of_tables_passed_over(trial):
    """standard error says once a connection that tables are passed over, and names the first of them, in hexadecimal if it would read as more"""
    node = node_of_b(trial)
    outside = definition(table(93, '#quiet')) + wide(91, b'#strange', 1 << 2 | 1 << 20, encoded(20)) + wide(92, b'#stranger', 1 << 19, b'')
    for times in (1, 2):
        far = connected(trial, node)
        up_to_date(node)
        for value in (1, 2):
            far.send(outside)
            still_learns(node, far, 2 * times + value)
            time.sleep(1.2)
        far.close()
        node.logs('ended', times, peer='b', end='end')
        said = node.logged('passed-over', peer='b')
        equal([each.keys['table'] for each in said], ['0x23737472616E6765'] * times, 'lines about tables')
        require('data types from 20 up' in said[-1].sentence, 'why:', said[-1].sentence)
    require(b'#' not in node.said(), 'no table is named as it came', node.said())


@check
def values_out_of_range(trial):
    """an update with a value out of its range is passed over"""
    node = node_of_b(trial)
    far = connected(trial, node)
    far.send(definition(T1_THERE) + update(T1_THERE, 1, 8, (2 ** 32,)) + update(T1_THERE, 2, 9, (2 ** 32 - 1,)))
    far.gets_ack(77, 2, 2)
    equal([node.ask('get t1 %d' % key) for key in (8, 9)], ['none', 'row 1 - 9 4294967295'], 'the rows')
    still_learns(node, far, 3)
    node.shows('digbaro_passed_over_total{why="value"}', 1)


@check
def other_messages(trial):
    """messages of other classes and types are passed over"""
    node = node_of_b(trial)
    far = connected(trial, node)
    far.send(b'\0\5\0\x7f\2\0\xff\x01' + message(5, 128, b'abc') + message(255, 255, bytes(16384)) + message(TABLE_CLASS, 135, b'') + CONFIRMED)
    still_learns(node, far, 1)


@check
def byte_by_byte(trial):
    """messages that come byte by byte are read as if they came at once"""
    node, far = with_b(trial)
    for byte in definition(T1_THERE) + update(T1_THERE, 5, 7, (300,)):
        far.send(bytes((byte,)))
        time.sleep(0.005)
    far.gets_ack(77, 5, 2)
    equal(node.ask('get t1 7'), 'row 1 - 7 300', 'the row')


# --- Faults

def faulty(node, far, data, answer, fault, ends=1):
    """Checks how a fault ends a session."""
    far.send(data)
    far.gets(answer, 2)
    far.ends(2)
    wait(lambda: node.peer('b')['last_end'] == 'fault', 2, 'the end is a fault', lambda: node.peer('b'))
    node.shows('digbaro_faults_total{fault="%s"}' % fault, ends)
    node.logs('fault', peer='b', fault=fault)


@check
def faults(trial):
    """a fault of the messages is answered by an error message, and ends the session"""
    node = node_of_b(trial)
    for place, (data, answer, fault) in enumerate((
            (switch(9), PROTOCOL_ERROR, 'NoTable'), (b'\x0A\x85' + OVER, PROTOCOL_ERROR, 'BadInteger'),
            (b'\x05\x80' + encoded(16385), SIZE_LIMIT, 'SizeLimit'))):
        faulty(node, connected(trial, node), data, answer, fault)
        equal(node.peer('b')['faults'], str(place + 1), 'faults of the peer')
    still_learns(node, connected(trial, node), 1)


@check
def three_faults(trial):
    """after three faults in 60 s a node leaves a peer alone for 60 s, and still takes its hello"""
    door = Door(trial)
    node = Node(trial, peers=('b ' + address(door.port),)).start()
    for place in range(3):
        far = door.far(place, 6)
        far.send(switch(9))
        ended = far.ends(2)
    time.sleep(7)
    equal(len(door.tries), 3, 'connections')
    far = connected(trial, node)
    still_learns(node, far, 1)
    far.close()
    between(59.9, door.tried(4, 60)[3] - ended, 64, 'seconds until the node connects again')


@check
def too_many_definitions(trial):
    """1,024 different tables may be defined at once, again and again; one more is a size limit error"""
    node = node_of_b(trial)
    far = connected(trial, node)
    ids = [table(1000 + place, 'x%d' % place) for place in range(1023)]
    for value in (1, 2):
        far.send(b''.join(map(definition, ids)))
        still_learns(node, far, value, 10)
    far.stands()
    faulty(node, far, definition(table(5000, 'y')), SIZE_LIMIT, 'SizeLimit')
    still_learns(node, connected(trial, node), 3)


@check
def garbage(trial):
    """garbage behind a hello ends its session at the most: another peer's goes on"""
    node, b = with_b(trial, peers=('b', 'c'))
    for seed in range(25):
        chances = random.Random(seed)
        c = connected(trial, node, 'c')
        c.send(bytes(chances.choice((0, 1, 2, 10, 128, 130, 133, 240, 255, chances.getrandbits(8))) for _ in range(chances.choice((5, 300, 9000)))))
        c.close()
    still_learns(node, b, 1)
    equal(node.peer('b')['sessions'], '1', 'sessions')


# --- Hellos

def answer_to(trial, node, data, seconds=3):
    """Returns the status with which a node answers some bytes, and checks that it closes the connection then."""
    peer = speaks(trial, node, data)
    status = status_of(peer, seconds)
    if status != b'200\n':
        require(is_closed(peer, 2), 'the connection is open after the status', status)
    return status


@check
def hellos(trial):
    """hellos are answered with the codes of the protocol"""
    node = node_of_b(trial)
    for data, status in (
            (hello('n', 'b', b'HAProxyS 2.00'), b'502\n'), (hello('n', 'b', b'HAProxyS 3.0'), b'502\n'), (hello('x', 'b'), b'503\n'),
            (hello('N', 'b'), b'503\n'), (hello('n', 'z'), b'504\n'), (hello('n', 'n'), b'504\n'), (hello('n', 'b', b'HAProxyX 2.1'), b'501\n'),
            (hello('x', 'b', OLDER_VERSION), b'503\n'), (hello('n', 'z', OLDER_VERSION), b'504\n'),
            (b'GET / HTTP/1.1\r\nHost: n\r\n\r\n', b'501\n'), (b'HAProxyS 2.1\nn\nb 1\n', b'501\n'), (b'HAProxyS 2.1\nn\nb x 1\n', b'501\n'),
            (b'\n\n\n', b'501\n'), (b'H' * 513, b'501\n'), (b'HAProxyS 2.1\n' + b'n' * 600, b'501\n')):
        equal(answer_to(trial, node, data), status, 'the answer to %r' % data)
    equal(answer_to(trial, node, b'HAProxyS 2.1\r\nn\r\nb 12345 678\r\n'), b'200\n', 'the answer to a hello with CR')
    wait(lambda: node.peer('b')['sessions'] == '1', 2, 'one session', lambda: node.peer('b'))
    equal(answer_to(trial, node, hello('n', 'b', OLDER_VERSION)), b'200\n', 'the answer to a hello of version 2.0')
    wait(lambda: node.peer('b')['sessions'] == '2', 2, 'two sessions', lambda: node.peer('b'))


@check
def refused_hellos(trial):
    """a hello that is refused, also one of another version that names a peer, ends no session that stands"""
    node = node_of_b(trial)
    b = connected(trial, node)
    answers_to = ((hello('n', 'b', b'HAProxyS 1.0'), b'502\n'), (hello('n', 'b', b'HAProxyS 2.2'), b'502\n'),
                  (hello('x', 'b', OLDER_VERSION), b'503\n'), (hello('n', 'z', OLDER_VERSION), b'504\n'))
    for value, (data, status) in enumerate(answers_to, 1):
        equal(answer_to(trial, node, data), status, 'the answer to %r' % data)
        still_learns(node, b, value)
    equal(node.peer('b')['sessions'], '1', 'sessions')


@check
def hello_in_pieces(trial):
    """a hello may come byte by byte, with messages right behind it"""
    node = node_of_b(trial)
    peer = trial.closes(kept_open((node.host, node.port)))
    for byte in hello('n', 'b'):
        peer.sendall(bytes((byte,)))
        time.sleep(0.01)
    equal(status_of(peer), b'200\n', 'the status')


@check
def cut_hellos(trial):
    """a hello that stays cut is answered 501 and closed after 5 s, and one that ends early hurts nobody"""
    node = node_of_b(trial)
    whole = hello('n', 'b')
    for length in range(0, len(whole), 3):
        peer = speaks(trial, node, whole[:length])
        peer.close()
    peer = speaks(trial, node, whole[:10])
    begun = time.monotonic()
    equal(status_of(peer, 8), b'501\n', 'the status')
    require(is_closed(peer, 3), 'a cut hello is open after 8 s')
    between(4.5, time.monotonic() - begun, 6.5, 'seconds until it is closed')
    still_learns(node, connected(trial, node), 1)


@check
def silent_connections(trial):
    """connections that say nothing keep no peer out"""
    node = node_of_b(trial, peers=('b', 'c'))
    b = connected(trial, node)
    for _ in range(20):
        trial.closes(kept_open((node.host, node.port)))
    time.sleep(0.2)
    begun = time.monotonic()
    far = connected(trial, node, 'c')
    between(0, far.begun - begun, 3, 'seconds until a hello is answered')
    time.sleep(0.3)
    b.stands()
    far.stands()


@check
def reads_slowly(trial):
    """a peer that reads a lesson too slowly ends its own session 10 s after the lesson began, though it goes on to read"""
    node, c = with_c(trial, tables=('table 1 long string 8192 0 gpc0',))
    long_rows(node, 600)
    peer = speaks(trial, node, hello('n', 'b') + REQUEST, 2048)
    equal(status_of(peer), b'200\n', 'the status')
    wait(lambda: node.peer('b')['state'] == 'teaching', 2, 'the node teaches', lambda: node.peer('b'))
    begun, read = time.monotonic(), 0
    while node.peer('b')['state'] != 'down':
        between(0, time.monotonic() - begun, 16, 'seconds until the session is over')
        with contextlib.suppress(OSError):
            read += len(peer.recv(16384))
            peer.sendall(HEARTBEAT)
        time.sleep(0.2)
    between(9.5, time.monotonic() - begun, 14, 'seconds until the session is over')
    equal(node.peer('b')['last_end'], 'device', 'the end')
    require(read > 20_000, 'the peer read', read)
    c.stands()


@check
def leaves_under_a_flood(trial):
    """a table that a peer doesn't acknowledge is left after 2 s, though the peer sends rows of another one without pause"""
    node, far = with_b(trial, manners=Manners(passed=('t2',)), tables=(T1, T1.replace('1 t1', '2 t2')))
    time.sleep(1)
    node.ask('track t2 1 add gpc0 1')
    far.send(definition(T1_THERE))
    begun, number = time.monotonic(), 0
    while node.shared('b', 't2')['left'] != 'yes':
        between(0, time.monotonic() - begun, 5, 'seconds until the table is left')
        for _ in range(20):
            rows = range(number + 1, number + 101)
            far.send(b''.join(update(T1_THERE, at, at % 50, (1,)) for at in rows))
            number += 100
    between(1.5, time.monotonic() - begun, 4, 'seconds until the table was left')
    far.stands()


@check
def deaf(trial):
    """a peer that doesn't read ends its own session, and delays nobody else's, nor a change of the table that it is being taught"""
    node, c = with_c(trial, tables=('table 1 long string 8192 0 gpc0', T1.replace('1 t1', '2 t1')))
    long_rows(node, 600)
    peer = speaks(trial, node, hello('n', 'b') + REQUEST, 2048)
    equal(status_of(peer), b'200\n', 'the status')
    begun = time.monotonic()
    place = 0
    while place < 8 or node.peer('b')['state'] != 'down':
        node.ask('track t1 %d add gpc0 1' % place)
        c.gets_row('t1', place, (1,), 3)
        if place == 2:
            equal(node.peer('b')['state'], 'teaching', 'the state while a lesson waits')
            asked = time.monotonic()
            equal(node.ask('track long =x add gpc0 1'), 'reply 601 - =x 1 local', 'a change of its table')
            between(0, time.monotonic() - asked, 1, 'seconds until it is answered')
        between(0, time.monotonic() - begun, 30, 'seconds until the session is over')
        with contextlib.suppress(OSError):
            peer.sendall(HEARTBEAT)
        place += 1
        time.sleep(1)
    equal(node.peer('b')['last_end'], 'device', 'the end')
    c.stands()


def sends_on(far, data):
    """Has a far side send bytes again and again until its connection is over."""
    peer = far.peer.dup()
    peer.settimeout(60)

    def play():
        with contextlib.closing(peer), contextlib.suppress(OSError):
            while far.over is None:
                peer.sendall(data)
    threading.Thread(target=play, daemon=True).start()


@check
def sends_without_pause(trial):
    """a peer that sends without pause gets a heartbeat every 3.0 to 3.3 s, a table that it doesn't acknowledge is left in time, and others are served"""
    node, c = with_c(trial, tables=(T1, 'table 2 t2 integer 4 0 gpc0'))
    far = connected(trial, node, manners=Manners(beats=False, passed=('t1',)))
    time.sleep(0.5)
    sends_on(far, message(5, 128, bytes(1000)) * 50)
    time.sleep(0.5)
    begun = time.monotonic()
    for name in ('t1', 't2'):
        node.ask('track %s 7 add gpc0 1' % name)
        for one in (far, c):
            one.gets_row(name, 7, (1,), 2)
    wait(lambda: node.shared('b', 't1')['left'] == 'yes', 4, 'the table is left')
    between(1.5, time.monotonic() - begun, 4, 'seconds until it is left')
    beats(far)
    equal((node.shared('b', 't1')['left'], node.shared('b', 't2')['left']), ('yes', 'no'), 'tables that are left')
    before = node.metric('digbaro_bytes_received_total')
    time.sleep(0.5)
    require(node.metric('digbaro_bytes_received_total') - before > 1_000_000, 'it sends on')
    c.stands()
    between(0, node.stop(), 5, 'seconds until it has ended')


def drains(peer, rate, is_over, take):
    """Reads so many bytes a second from a connection until it is over, and hands them on."""
    begun, read = time.monotonic(), 0
    while not is_over():
        allowed = int((time.monotonic() - begun) * rate) - read
        if allowed <= 0:
            time.sleep(0.01)
            continue
        data = peer.recv(min(allowed, 1 << 16))
        if not data:
            return
        read += len(data)
        take(data)


class Drain(Heard):
    """A peer that reads lessons slowly, and acknowledges each of the table `long` as soon as it begins to come."""

    def __init__(self, trial, node, rate):
        super().__init__()
        self.peer = speaks(trial, node, hello('n', 'b') + REQUEST, 1 << 16)
        equal(status_of(self.peer), b'200\n', 'the status')
        self.rows, self.over = 0, False
        threading.Thread(target=self.play, args=(rate,), daemon=True).start()

    def play(self, rate):
        with contextlib.suppress(OSError):
            drains(self.peer, rate, lambda: self.over, self.hear)
        self.over = True

    def look_at(self, class_byte, type_byte, data):
        update = self.lessons.take(type_byte, data) if class_byte == TABLE_CLASS else None
        if update is not None and update.table.name == b'long':
            if self.rows % 512 == 0:
                self.peer.sendall(acknowledgement(update.id, update.number + 511))
            self.rows += 1


@check
def drains_slowly(trial):
    """a table that a peer doesn't acknowledge is left also while each lesson takes it seconds to read, and its session goes on"""
    node, c = with_c(trial, tables=(T1, 'table 2 long string 8192 0 gpc0'))
    node.ask('track t1 7 add gpc0 1')
    long_rows(node, 5 * 512)
    begun, drain = time.monotonic(), Drain(trial, node, 1_200_000)
    # The second lesson is written after some 4.5 s, the third after 7.
    wait(lambda: node.shared('b', 't1')['left'] == 'yes', 12, 'the table is left', lambda: node.ask('show peers'))
    between(1.5, time.monotonic() - begun, 12, 'seconds until it is left')
    require(drain.rows < 4 * 512 and not drain.over, 'it still reads then:', drain.rows)
    wait(lambda: drain.rows == 5 * 512, 30, 'it has read all', lambda: drain.rows)
    equal(node.peer('b')['sessions'], '1', 'sessions')
    c.stands()
