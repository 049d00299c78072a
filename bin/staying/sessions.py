"""Sessions of a node that stays: how they begin, what keeps them up, and how they end."""

import os
import time

from harness.far import Door, Manners, connected, is_closed, speaks, status_of
from harness.node import T1, Node, address
from harness.ports import held
from harness.trial import Skipped, between, check, equal, matches, require, wait
from harness.wire import (CONFIRMED, FINISHED, HEARTBEAT, OLDER_VERSION, PROTOCOL_ERROR, REQUEST, VERSION, acknowledgement,
                          definition, hello, table, update)

T1_THERE = table(77, 't1')
T1_THAT_ENDS = 'table 1 t1 integer 4 600000 gpc0'
KEEPS_QUIET = Manners(answer=b'')


def node_of_b(trial, **other):
    """Returns a node that waits for its peer b."""
    return Node(trial, **other).start()


def with_b(trial, manners=Manners(), of=Node, **other):
    """Returns a node and its peer b, which has connected, once the node is up to date."""
    node = of(trial, **other).start()
    far = connected(trial, node, manners=manners)
    up_to_date(node)
    return node, far


def with_c(trial, **other):
    """Returns a node that waits for b and c, and its peer c, which has connected, once the node is up to date."""
    node = Node(trial, peers=('b', 'c'), **other).start()
    far = connected(trial, node, 'c')
    up_to_date(node)
    return node, far


def asking(trial, manners=KEEPS_QUIET, **other):
    """Returns a node and its peer b, which has connected, and which the node has asked for a resync."""
    node = Node(trial, **other).start()
    far = connected(trial, node, manners=manners)
    far.gets(REQUEST, 2)
    return node, far


def node_with_door(trial, manners=Manners(), **other):
    """Returns a far side that listens, and a node that connects to it as to its peer b."""
    door = Door(trial, manners)
    return door, Node(trial, peers=('b ' + address(door.port),), **other).start()


def up_to_date(node):
    wait(node.is_up_to_date, 8, 'the node is up to date', node.said)


@check
def accepts(trial):
    """a node takes a connection, asks for a resync, and confirms its end"""
    node, far = asking(trial)
    peer = node.peer('b')
    equal((peer['state'], peer['role'], peer['sessions']), ('asking', 'accept', '1'), 'the peer while the node asks')
    equal(node.head()['up_to_date'], 'no', 'up to date')
    far.send(FINISHED)
    far.gets(CONFIRMED, 2)
    up_to_date(node)
    wait(lambda: node.peer('b')['state'] == 'ready', 2, 'the peer is ready')
    equal(far.count(REQUEST), 1, 'requests')
    equal(node.peer('b')['last_end'], '-', 'the end of the last session')
    between(0, int(node.peer('b')['since']), 5000, 'since, in ms')


@check
def connects(trial):
    """a node connects to a peer at once, asks for a resync, and confirms its end"""
    door, node = node_with_door(trial, KEEPS_QUIET)
    far = door.far(seconds=1.5)
    matches(r'HAProxyS 2\.1\nb\nn [0-9]+ [0-9]+\n', door.tries[0][1].decode(), 'its hello')
    far.gets(REQUEST, 2)
    peer = node.peer('b')
    equal((peer['state'], peer['role'], peer['sessions']), ('asking', 'connect', '1'), 'the peer while the node asks')
    far.send(FINISHED)
    far.gets(CONFIRMED, 2)
    up_to_date(node)


@check
def connects_again(trial):
    """a node connects again 2 to 4 s after a session ended, and says 00 04 right behind the status if it is up to date"""
    door, node = node_with_door(trial)
    far = door.far()
    far.gets(CONFIRMED)
    wait(lambda: node.peer('b')['state'] == 'ready', 2, 'the peer is ready')
    closed = time.monotonic()
    far.close()
    wait(lambda: node.peer('b')['state'] == 'down', 2, 'the peer is down')
    between(1.9, door.tried(2)[1] - closed, 4.6, 'seconds until the node connects again')
    far = door.far(1)
    between(-0.1, far.gets(HEARTBEAT, 2) - far.begun, 0.5, 'seconds until the heartbeat (it may come in the read that ends the hello)')
    time.sleep(0.5)
    equal(far.count(REQUEST), 0, 'requests of a node that is up to date')
    equal(node.peer('b')['sessions'], '2', 'sessions')
    equal(node.peer('b')['last_end'], 'end', 'the end of the last session')
    node.shows('digbaro_sessions_total{peer="b",end="end"}', 1)


@check
def refused_by_a_status(trial):
    """a node whose hello is refused tries again 2 to 4 s later"""
    door = Door(trial, status=b'300\n')
    Node(trial, peers=('b ' + address(door.port),)).start()
    first, second, third = door.tried(3, 12)[:3]
    between(1.9, second - first, 4.6, 'seconds between two tries')
    between(1.9, third - second, 4.6, 'seconds between two tries')


def versions_said(door):
    """Returns the first line of each hello that a node said at a door."""
    return [said.split(b'\n')[0] for _, said in door.tries]


@check
def falls_back(trial):
    """a node whose hello is refused with 502 says 2.0 in its next one, after the usual pause, and 2.1 in the one after that"""
    door = Door(trial, status=b'502\n')
    node = Node(trial, peers=('b ' + address(door.port),)).start()
    moments = door.tried(4, 16)
    for before, moment in zip(moments, moments[1:]):
        between(1.9, moment - before, 4.6, 'seconds between two tries')
    equal(versions_said(door)[:4], [VERSION, OLDER_VERSION, VERSION, OLDER_VERSION], 'the versions of the hellos')
    equal((node.peer('b')['sessions'], node.peer('b')['version']), ('0', '-'), 'sessions, and the version without one')


@check
def peer_of_version_2_0(trial):
    """a peer that refuses 2.1 with 502 and takes 2.0 is taught without lives, and gets a hello of 2.1 again at the attempt after that"""
    door = Door(trial, status=lambda said: b'200\n' if said.startswith(OLDER_VERSION + b'\n') else b'502\n')
    node = Node(trial, peers=('b ' + address(door.port),), tables=(T1_THAT_ENDS,)).start()
    far = door.far(seconds=8)
    up_to_date(node)
    wait(lambda: node.peer('b')['state'] == 'ready', 2, 'the peer is ready')
    equal((node.peer('b')['role'], node.peer('b')['version']), ('connect', '2.0'), 'the role, the version')
    node.ask('track t1 7 add gpc0 1')
    far.gets_row('t1', 7, (1,))
    equal(lives(far), {None}, 'the lives of updates')
    far.stands()
    far.close()
    door.tried(3, 6)
    equal(versions_said(door)[:3], [VERSION, OLDER_VERSION, VERSION], 'the versions of the hellos')


@check
def no_answer_to_a_hello(trial):
    """a node closes a connection whose far side never answers its hello"""
    door = Door(trial, status=b'')
    node = Node(trial, peers=('b ' + address(door.port),)).start()
    begun = door.tried(1, 3)[0]
    time.sleep(0.3)
    equal((node.peer('b')['state'], node.peer('b')['version']), ('down', '-'), 'the state and the version during the hello')
    require(is_closed(door.kept[0], 12), 'the connection is open')
    between(1.9, time.monotonic() - begun, 12, 'seconds until it is closed')


def beats(far):
    """Checks the gaps between the heartbeats of an idle node."""
    far.gets(HEARTBEAT, 4)
    begun = max([one.moment for one in far.came if one.kind != (0, 4)], default=far.begun)
    wait(lambda: len([moment for moment in far.controls(HEARTBEAT) if moment > begun + 1]) >= 3, 12, 'three heartbeats', far.shown)
    moments = [begun] + [moment for moment in far.controls(HEARTBEAT) if moment > begun + 1]
    for before, moment in zip(moments, moments[1:]):
        between(2.9, moment - before, 3.3, 'seconds of silence before a heartbeat')
    far.stands()


@check
def heartbeats(trial):
    """a node that was connected to and has nothing to say sends a heartbeat every 3.0 to 3.3 s"""
    node = node_of_b(trial)
    far = connected(trial, node)
    beats(far)
    peer = node.peer('b')
    between(3, int(peer['heartbeats_sent']), 5, 'heartbeats sent')
    between(2, int(peer['heartbeats_received']), 5, 'heartbeats received')


@check
def heartbeats_of_a_connector(trial):
    """a node that connected and has nothing to say sends a heartbeat every 3.0 to 3.3 s"""
    door, node = node_with_door(trial)
    beats(door.far())
    between(3, int(node.peer('b')['heartbeats_sent']), 6, 'heartbeats sent')


def wakes(node):
    """Returns how often the threads of a node have waited for something so far."""
    tasks, count = '/proc/%d/task' % node.child.pid, 0
    for task in os.listdir(tasks):
        with open('%s/%s/status' % (tasks, task)) as file:
            count += next(int(line.split()[1]) for line in file if line.startswith('voluntary_ctxt_switches:'))
    return count


@check
def idle(trial):
    """a node with 15 peers that have nothing to say sleeps most of the time"""
    names = ['b%d' % place for place in range(15)]
    node = Node(trial, peers=names).start()
    fars = [connected(trial, node, name) for name in names]
    up_to_date(node)
    time.sleep(4)
    before, begun = wakes(node), time.monotonic()
    time.sleep(8)
    between(1, (wakes(node) - before) / (time.monotonic() - begun), 80, 'wakes a second')
    for far in fars:
        far.stands()
    node.ask('track t1 7 add gpc0 1')
    for far in fars:
        far.gets_row('t1', 7, (1,), 1)


@check
def silent(trial):
    """a far side that says nothing is closed after 10 to 11 s"""
    node, far = asking(trial, manners=Manners(beats=False, answer=b''))
    far.send(FINISHED)
    said = time.monotonic()
    far.gets(CONFIRMED, 2)
    between(9.95, far.ends(12) - said, 11, 'seconds until it is closed')
    between(2, far.count(HEARTBEAT), 3, 'heartbeats before')
    wait(lambda: node.peer('b')['last_end'] == 'silent', 2, 'the end is silent')
    node.shows('digbaro_sessions_total{peer="b",end="silent"}', 1)
    node.shows('digbaro_peer_up{peer="b"}', 0)


@check
def silent_to_a_connector(trial):
    """a far side that was connected to and says nothing is closed after 10 to 11 s"""
    door, node = node_with_door(trial, Manners(beats=False, answer=b''))
    far = door.far()
    far.gets(REQUEST, 2)
    between(9.9, far.ends(12) - far.begun, 11.2, 'seconds until it is closed')
    wait(lambda: node.peer('b')['last_end'] == 'silent', 2, 'the end is silent')


@check
def bytes_are_enough(trial):
    """a far side that says something every 5 s is no silent one, whatever it is"""
    node = node_of_b(trial)
    far = connected(trial, node, manners=Manners(beats=False))
    for _ in range(3):
        time.sleep(4.5)
        far.send(b'\xff\x01')
    far.stands()
    equal(node.peer('b')['sessions'], '1', 'sessions')


@check
def a_byte_a_second(trial):
    """a far side that sends a byte a second of a long message is no silent one"""
    node, far = with_b(trial, manners=Manners(beats=False), tables=('table 1 st string 33 0 gpc0',))
    there = table(77, 'st', 'string')
    far.send(definition(there))
    for byte in update(there, 1, b'k' * 8, (1,)):
        far.send(bytes((byte,)))
        time.sleep(1)
    far.gets_ack(77, 1)
    far.stands()
    equal((node.peer('b')['sessions'], node.ask('get st =kkkkkkkk')), ('1', 'row 1 - =kkkkkkkk 1'), 'sessions, and the row')


@check
def error_messages(trial):
    """an error message ends a session, and so do a close and a reset"""
    node = node_of_b(trial)
    for place, (end, does) in enumerate((('error', lambda far: far.send(PROTOCOL_ERROR)), ('end', lambda far: far.close()),
                                         ('device', lambda far: far.reset()), ('error', lambda far: far.send(b'\1\1')))):
        far = connected(trial, node)
        wait(lambda: node.peer('b')['state'] in ('ready', 'asking'), 2, 'the session stands')
        does(far)
        wait(lambda: node.peer('b')['state'] == 'down', 2, 'the session is over', lambda: node.peer('b'))
        ended = node.peer('b')
        equal((ended['last_end'], ended['role'], ended['sessions']), (end, '-', str(place + 1)), 'the last end, the role, the sessions')
    for end, count in (('end', 1), ('device', 1), ('error', 2)):
        node.shows('digbaro_sessions_total{peer="b",end="%s"}' % end, count)


@check
def pushes(trial):
    """a change goes to each peer that is connected, numbered from its first one on"""
    node = node_of_b(trial, peers=('b', 'c'))
    b, c = connected(trial, node), connected(trial, node, 'c')
    up_to_date(node)
    time.sleep(0.4)
    for number in range(1, 6):
        equal(node.ask('track t1 %d add gpc0 %d' % (number, 10 * number)), 'reply %d - %d %d local' % (number, number, 10 * number), 'a track')
        for far in (b, c):
            far.gets_row('t1', number, (10 * number,), 1)
    for far in (b, c):
        equal([(one.id, one.number, one.life) for one in far.updates('t1')], [(1, number, 0) for number in range(1, 6)], 'the updates')
        equal(far.updates('t1')[0].table, table(1, 't1'), 'the definition')
        far.stands()
    wait(lambda: node.shared('b', 't1')['acknowledged'] == '5', 2, 'the acknowledgement is known')
    equal({name: node.shared('b', 't1')[name] for name in ('taught', 'acknowledged', 'received', 'left')},
          {'taught': '5', 'acknowledged': '5', 'received': '-', 'left': 'no'}, 'the table of the peer')
    node.shows('digbaro_rows_taught_total', 10)


def lives(far):
    """Returns the lives of the updates of `t1` that came to a far side."""
    return {one.life for one in far.updates('t1')}


@check
def version_2_0(trial):
    """a peer that says version 2.0 is taught without lives, in resyncs too, and is shown with it; one of 2.1 after it gets lives"""
    node = node_of_b(trial, tables=(T1_THAT_ENDS,))
    older = connected(trial, node, version=OLDER_VERSION)
    up_to_date(node)
    equal(node.peer('b')['version'], '2.0', 'the version of the first session')
    node.ask('track t1 7 add gpc0 1')
    older.gets_row('t1', 7, (1,))
    older.send(REQUEST)
    older.gets(FINISHED)
    equal((lives(older), len(older.updates('t1'))), ({None}, 2), 'the lives of a push and of a resync, and how many updates came')
    older.send(definition(T1_THERE) + update(T1_THERE, 1, 8, (5,)) + update(T1_THERE, 2, 9, (6,), life=20_000))
    older.gets_ack(77, 2)
    for key, value, least, most in ((8, 5, 590_000, 600_000), (9, 6, 10_000, 20_000)):
        end = int(matches(r'row 1 ([0-9]+) %d %d' % (key, value), node.ask('get t1 %d' % key), 'a row that was learned')[1])
        between(least, end - node.moment(), most, 'its life')
    older.stands()
    older.close()
    wait(lambda: node.peer('b')['state'] == 'down', 2, 'the session is over')
    equal(node.peer('b')['version'], '-', 'the version without a session')
    newer = connected(trial, node)
    newer.gets_row('t1', 7, (1,))
    equal(node.peer('b')['version'], '2.1', 'the version of the second session')
    require(None not in lives(newer), 'an update has no life:', newer.updates('t1'))


@check
def pushes_late(trial):
    """a node pushes nothing in the first 300 ms of a session, and then its own rows, all of them at each connection"""
    node, far = with_b(trial)
    for key in range(3):
        node.ask('track t1 %d add gpc0 1' % key)
    for _ in range(2):
        far.close()
        wait(lambda: node.peer('b')['state'] == 'down', 2, 'the session is over')
        far = connected(trial, node)
        wait(lambda: len(far.rows('t1')) == 3, 2, 'the rows come', far.shown)
        came = min(one.moment for one in far.came if one.kind[0] == 10)
        between(0.295, came - far.asked, 1, 'seconds from the hello to the first of them')


@check
def learned_rows(trial):
    """rows that a node learned go to those alone who ask for a resync"""
    node, b = with_b(trial, peers=('b', 'c', 'd'))
    c = connected(trial, node, 'c')
    b.send(definition(T1_THERE) + update(T1_THERE, 900, 7, (5,)) + update(T1_THERE, None, 8, (6,)))
    b.gets_ack(77, 901, 2)
    equal(b.acks, [(77, 901)], 'the acknowledgements')
    equal(node.ask('get t1 8'), 'row 1 - 8 6', 'the row')
    time.sleep(0.7)
    equal((b.updates(), c.updates()), ([], []), 'updates that nobody asked for')
    equal(node.shared('b', 't1')['received'], '901', 'the number received')
    c.send(REQUEST)
    c.gets(FINISHED, 2)
    equal(c.rows('t1'), {b'\0\0\0\7': ((5,), None), b'\0\0\0\x08': ((6,), None)}, 'the rows of a resync')
    far = connected(trial, node, 'd', behind=REQUEST)
    between(0, far.gets(FINISHED, 2) - far.asked, 0.5, 'seconds until a resync asked for right behind the hello ends')
    equal(len(far.rows('t1')), 2, 'its rows')
    node.shows('digbaro_rows_learned_total', 2)


@check
def later_writer(trial):
    """the last writer wins: a learned row replaces an own one, which is then pushed to nobody, and an own change the learned one"""
    node, far = with_b(trial)
    node.ask('track t1 7 add gpc0 3')
    far.gets_row('t1', 7, (3,))
    far.send(definition(T1_THERE) + update(T1_THERE, 1, 7, (100,)))
    far.gets_ack(77, 1)
    equal(node.ask('get t1 7'), 'row 1 - 7 100', 'the row that was learned')
    equal(node.ask('track t1 7 add gpc0 1'), 'reply 3 - 7 101 local', 'the change')
    far.gets_row('t1', 7, (101,))


@check
def second_that_leaves(trial):
    """a second connection of a peer that leaves within 300 ms changes nothing"""
    node, far = with_b(trial)
    for _ in range(2):
        peer = speaks(trial, node, hello('n', 'b'))
        time.sleep(0.05)
        peer.close()
        time.sleep(0.8)
    far.stands()
    equal((node.peer('b')['sessions'], node.peer('b')['last_end']), ('1', '-'), 'sessions, and the end of the last one')
    node.ask('track t1 7 add gpc0 1')
    far.gets_row('t1', 7, (1,), 1)


@check
def second_that_stays(trial):
    """a second connection of a peer that stays for 300 ms takes the place of the first"""
    node, first = with_b(trial)
    begun = time.monotonic()
    peer = speaks(trial, node, hello('n', 'b'))
    equal(status_of(peer, 3), b'200\n', 'the status')
    between(0.28, time.monotonic() - begun, 1.5, 'seconds until the status')
    between(0.28, first.ends(2) - begun, 2, 'seconds until the first is closed')
    wait(lambda: node.peer('b')['sessions'] == '2' and node.peer('b')['state'] == 'ready', 2, 'the second session', lambda: node.peer('b'))
    equal(node.peer('b')['last_end'], 'replaced', 'the end of the first')
    node.shows('digbaro_sessions_total{peer="b",end="replaced"}', 1)


@check
def gone_and_back(trial):
    """a peer whose connection ends right behind its hello, and that connects again at once, is answered each time"""
    node = node_of_b(trial)
    for _ in range(60):
        gone = speaks(trial, node, hello('n', 'b'))
        gone.close()
        peer = speaks(trial, node, hello('n', 'b'))
        equal(status_of(peer, 3), b'200\n', 'the status')
        peer.close()
        time.sleep(0.02)


@check
def two_peers_apart(trial):
    """connections of two peers leave each other alone"""
    node = node_of_b(trial, peers=('b', 'c'))
    b = connected(trial, node)
    c = connected(trial, node, 'c')
    c.close()
    connected(trial, node, 'c')
    time.sleep(0.5)
    b.stands()
    equal((node.peer('b')['sessions'], node.peer('c')['sessions']), ('1', '2'), 'sessions')


@check
def acknowledged_ahead(trial):
    """an acknowledgement above all that was taught is a protocol error"""
    node, far = with_b(trial, manners=Manners(acks='none'))
    node.ask('track t1 7 add gpc0 1')
    far.gets_row('t1', 7, (1,))
    far.send(acknowledgement(1, 2))
    far.gets(PROTOCOL_ERROR, 2)
    far.ends(2)
    wait(lambda: node.peer('b')['last_end'] == 'fault', 2, 'the end is a fault')
    node.shows('digbaro_faults_total{fault="AckAhead"}', 1)


@check
def other_acknowledgements(trial):
    """acknowledgements of tables that aren't there, and old ones, change nothing"""
    node, far = with_b(trial)
    for value in range(1, 4):
        node.ask('track t1 7 add gpc0 1')
        far.gets_row('t1', 7, (value,))
        far.send(acknowledgement(99, 5) + acknowledgement(2 ** 63, 5) + acknowledgement(1, 0) + acknowledgement(1, value))
    time.sleep(0.3)
    far.stands()
    equal(node.shared('b', 't1')['acknowledged'], '3', 'the number acknowledged')


@check
def over_ipv6(trial):
    """a node listens and takes requests at [::1]"""
    if held(trial.ports.next(), '::1') is None:
        raise Skipped('no IPv6 here')
    node = Node(trial, host='::1').start()
    connected(trial, node).gets(CONFIRMED, 3)
    up_to_date(node)
    equal(node.ask('track t1 7 add gpc0 1'), 'reply 1 - 7 1 local', 'a track')


@check
def without_an_admin_port(trial):
    """a node without an admin port takes part all the same"""
    node = Node(trial, admin=False, tables=(T1,)).start()
    connected(trial, node).gets(CONFIRMED, 3)
