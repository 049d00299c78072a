"""What the log of a node that stays says, and that whoever reads it holds nothing up."""

import contextlib
import hashlib
import os
import re
import socket
import time
from datetime import datetime, timezone

from harness.far import Door, Manners, connected, is_closed, speaks, status_of
from harness.node import T1, Node, address
from harness.tables import FIRST_MOMENT
from harness.trial import Folder, Skipped, between, check, equal, matches, require, wait
from harness.wire import FINISHED, PROTOCOL_ERROR, REQUEST, definition, hello, switch, update
from staying.sessions import T1_THERE, asking, node_of_b, up_to_date, with_b


def events(node, *left_out):
    """Returns the events of the log in order, but for some."""
    return [said.event for said in node.logged() if said.event not in left_out]


def refused(node, to, name):
    """Returns the status that answers a hello."""
    peer = speaks(node.trial, node, hello(to, name))
    return status_of(peer)


# --- What it says

@check
def log_of_a_start(trial):
    """the log says the version, the configuration's SHA-256 checksum and the ports at the start, each line with the time in UTC, and the stop"""
    node = node_of_b(trial)
    start, = node.logs('start')
    equal((start.level, start.keys['config'], start.keys['node']),
          ('info', hashlib.sha256(node.configuration.encode()).hexdigest(), 'n'), 'the start')
    matches(r'[0-9]+\.[0-9]+\.[0-9]+', start.keys['version'], 'the version')
    ports = [(said.keys['port'], said.keys['address']) for said in node.logs('listening', 2)]
    equal(ports, [('peers', address(node.port)), ('admin', address(node.admin_port))], 'the ports')
    said = datetime.strptime(start.time, '%Y-%m-%dT%H:%M:%S.%fZ').replace(tzinfo=timezone.utc)
    between(-5, (datetime.now(timezone.utc) - said).total_seconds(), 10, 'seconds since the start by its line')
    node.stop()
    equal(events(node), ['start', 'listening', 'listening', 'stop', 'stopped'], 'events')
    stopped, = node.logged('stopped')
    equal((stopped.level, stopped.keys['cut']), ('info', '0'), 'the last line')


@check
def log_of_warnings(trial):
    """the log of a start says what in the configuration is surely meant otherwise, in the lines of --check but for `warning`, at most five"""
    tables = tuple('table %d mesh/t%d integer 4 0 gpc0' % (at, at) for at in range(1, 8))
    for more, count in ((('section mesh',), 5), ((), 5), ((), 1)):
        node = Node(trial, peers=(), tables=tables if count > 1 else (T1,), more=more).start()
        checked = trial.run('run', '--check', text=node.configuration.encode())
        equal(checked.returncode, 0, 'the status of --check')
        wanted = [line.replace(': warning: ', ': ', 1) for line in checked.stderr.decode('ascii').splitlines()]
        said = node.logs('configuration-warning', count)
        equal([(line.level, line.keys, line.sentence) for line in said], [('warn', {}, line) for line in wanted[:count]], 'lines about warnings')
        if len(wanted) > count:
            omitted, = node.logs('omitted', of='configuration-warning')
            equal(omitted.keys['count'], str(len(wanted) - count), 'how many were left out')
        node.stop()


@check
def log(trial):
    """the log says each change of a session: its begin, who was asked, the ends of resyncs with their rows and ms, and its end"""
    node, far = asking(trial)
    far.send(definition(T1_THERE) + update(T1_THERE, 1, 7, (5,)) + update(T1_THERE, 2, 8, (5,)))
    time.sleep(0.2)
    far.send(FINISHED)
    up_to_date(node)
    far.gets_ack(77, 2)
    far.send(REQUEST)
    far.gets(FINISHED, 2)
    far.close()
    node.logs('ended', peer='b', end='end')
    equal(events(node, 'start', 'listening', 'unshared', 'undefined'),
          ['connected', 'asked', 'resync-ended', 'up-to-date', 'resync-ended', 'ended'], 'events')
    equal([(said.level, said.keys) for said in node.logged('up-to-date')], [('info', {'peer': 'b'})], 'the line about being up to date')
    begun, = node.logged('connected')
    matches(r'127\.0\.0\.1:[0-9]+', begun.keys['address'], 'the address')
    equal((begun.level, begun.keys['role'], begun.keys['protocol']), ('info', 'accept', '2.1'), 'the beginning of the session')
    ended, = node.logged('ended')
    between(190, int(ended.keys['lasted_ms']), 10_000, 'ms of the session')
    learned, taught = node.logged('resync-ended')
    equal([(said.keys['role'], said.keys['end'], said.keys['rows']) for said in (learned, taught)],
          [('learner', 'finished', '2'), ('teacher', 'finished', '2')], 'the resyncs')
    between(190, int(learned.keys['ms']), 2000, 'ms of the resync')
    equal({said.keys.get('address') for said in node.logged(peer='b') if said.event != 'up-to-date'}, {begun.keys['address']}, 'addresses')
    time.sleep(1)
    connected(trial, node)
    between(900, int(node.logs('connected', 2)[1].keys['away_ms']), 4000, 'ms without a session')


@check
def log_of_resyncs_of_nothing(trial):
    """a resync in which there is nothing to teach, and which is over as soon as it begins, has a line too, each time"""
    node, far = with_b(trial, tables=(T1,))
    for times in (1, 2, 3):
        far.send(REQUEST)
        far.gets(FINISHED, 3, times)
        said = node.logs('resync-ended', times, role='teacher')
        equal([(each.keys['end'], each.keys['rows']) for each in said], [('finished', '0')] * times, 'the resyncs')


@check
def log_of_a_new_process(trial):
    """a session says whether the peer's pid is another one than before, from its second hello on"""
    node = node_of_b(trial)
    for times, pid in enumerate((7, 8, 8), 1):
        peer = speaks(trial, node, b'HAProxyS 2.1\nn\nb %d 1\n' % pid)
        equal(status_of(peer), b'200\n', 'the status')
        node.logs('connected', times, peer='b')
        peer.close()
        node.logs('ended', times, peer='b')
    said = node.logged('connected')
    equal([each.keys.get('process') for each in said], [None, 'new', 'same'], 'what is known of the process')
    require('started or reloaded' in said[1].sentence, 'what a new one means:', said[1].sentence)


@check
def log_of_a_table_left(trial):
    """the log says once a connection that a table was left, by its name"""
    node, far = with_b(trial, manners=Manners(acks='none'), tables=(T1,))
    node.ask('track t1 7 add gpc0 1')
    wait(lambda: node.shared('b', 't1')['left'] == 'yes', 5, 'the table is left')
    node.ask('track t1 8 add gpc0 1')
    time.sleep(2.5)
    far.close()
    node.logs('ended', peer='b')
    equal([(said.level, said.keys['table']) for said in node.logged('left', peer='b')], [('warn', 't1')], 'lines about tables left')


@check
def log_of_a_stop_with_a_table_left(trial):
    """at a stop the log names a table that was left, whose rows the peer hasn't acknowledged, although the session isn't cut"""
    node, far = with_b(trial, manners=Manners(acks='none'), tables=(T1,))
    node.ask('track t1 7 add gpc0 1')
    wait(lambda: node.shared('b', 't1')['left'] == 'yes', 5, 'the table is left')
    node.stop()
    far.ends(1)
    lacking, = node.logged('unacknowledged', peer='b')
    equal((lacking.level, lacking.keys['table']), ('warn', 't1'), 'the line about the table')
    ended, = node.logged('ended', peer='b')
    require(ended.sentence.endswith('because it is stopping'), 'the session was not cut', ended.sentence)
    stopped, = node.logged('stopped')
    equal((stopped.level, stopped.keys['cut']), ('info', '0'), 'the last line')


@check
def log_of_rows_passed_over(trial):
    """the log has no line for rows that are passed over"""
    node = node_of_b(trial)
    far = connected(trial, node)
    time.sleep(0.4)
    before = node.said().count(b'\n')
    out_of_range = b''.join(update(T1_THERE, number, 123456789, (2 ** 32,)) for number in range(1, 301))
    far.send(definition(T1_THERE) + out_of_range + update(T1_THERE, 301, 8, (1,)))
    far.gets_ack(77, 301)
    time.sleep(0.3)
    equal(node.said().count(b'\n'), before, 'lines')
    require(b'123456789' not in node.said(), 'no key is named', node.said())


@check
def log_for_the_journal(trial):
    """with `log journal` a line begins with its level's number for systemd's journal, and has no time"""
    node = Node(trial, more=('log journal',)).start()
    node.logs('start')
    require(node.said().startswith(b'<6>event=start '), 'the first line:', node.said())


@check
def log_of_a_level(trial):
    """with `log warn` the log has lines of that level and of those above it alone"""
    node = Node(trial, peers=('b ' + address(trial.ports.next()),), more=('log warn',)).start()
    node.logs('unreachable', peer='b')
    equal({said.level for said in node.logged()}, {'warn'}, 'levels')


# --- Why there is no session

@check
def log_of_a_peer_that_is_not_there(trial):
    """a peer that can't be connected to is named once, with its address and the system's reason"""
    port = trial.ports.next()
    node = Node(trial, peers=('b ' + address(port),)).start()
    node.logs('unreachable', peer='b')
    wait(lambda: node.peer('b')['last_error'] == 'unreachable', 2, 'the last error', lambda: node.peer('b'))
    node.shows('digbaro_peer_last_error{peer="b",error="unreachable"}', 1)
    time.sleep(6)
    first, second = node.logged('connecting') + node.logged('unreachable')
    equal({said.keys['address'] for said in (first, second)}, {address(port)}, 'addresses')
    equal((first.level, second.level), ('info', 'warn'), 'levels')
    require('Connection refused' in second.sentence, 'the reason:', second.sentence)
    require('"peer b .."' in second.sentence and 'has another port' in second.sentence, 'what repairs it:', second.sentence)
    require('a firewall rejects' in second.sentence, 'what else it may be:', second.sentence)


def full_port(trial):
    """Returns a port at which a connection comes to nothing: as many wait to be accepted as may, and nobody accepts them."""
    port = trial.ports.next()
    listener = trial.closes(socket.socket())
    listener.bind(('127.0.0.1', port))
    listener.listen(0)
    for _ in range(20):
        waiting = trial.closes(socket.socket())
        waiting.settimeout(0.3)
        try:
            waiting.connect(('127.0.0.1', port))
        except socket.timeout:
            return port
    raise Skipped('the system takes any number of connections that nobody accepts')


@check
def log_of_a_peer_that_takes_no_packet(trial):
    """a peer whose address doesn't answer an attempt to connect is named once, 2 s after it, with the reason; it delays no other, and no stop"""
    node = Node(trial, peers=('b', 'c ' + address(full_port(trial))), tables=(T1,)).start()
    connecting, = node.logs('connecting', peer='c')
    said, = node.logs('unreachable', seconds=4, peer='c')
    equal((said.level, said.keys['address']), ('warn', connecting.keys['address']), 'the line about the connection')
    require('timed out' in said.sentence, 'the reason:', said.sentence)
    between(1.9, seconds_from(connecting, said), 3, 'seconds between the two lines')
    wait(lambda: node.peer('c')['last_error'] == 'unreachable', 2, 'the last error', lambda: node.peer('c'))
    far = connected(trial, node)
    up_to_date(node)
    for key in range(12):
        node.ask('track t1 %d add gpc0 1' % key)
        far.gets_row('t1', key, (1,), 1)
        time.sleep(0.5)
    equal((len(node.logged('connecting', peer='c')), len(node.logged('unreachable', peer='c'))), (1, 1), 'lines about the connection')
    between(0, node.stop(), 5, 'seconds until it has ended')


def seconds_from(one, other):
    """Returns how many seconds after one line of the log another one was said."""
    first, second = (datetime.strptime(said.time, '%Y-%m-%dT%H:%M:%S.%fZ') for said in (one, other))
    return (second - first).total_seconds()


@check
def log_of_a_status(trial):
    """a status that refuses the node is said once, with what repairs it, and again once it changes; a session is said to begin then"""
    statuses = [b'504\n', b'504\n', b'503\n', b'200\n']
    door = Door(trial, status=lambda said: statuses.pop(0) if len(statuses) > 1 else statuses[0])
    node = Node(trial, peers=('b ' + address(door.port),)).start()
    unknown, = node.logs('refused', peer='b', status=504)
    require('add "peer n .." there' in unknown.sentence, 'what repairs it:', unknown.sentence)
    wait(lambda: node.peer('b')['last_error'] == 'refused-504', 2, 'the last error', lambda: node.peer('b'))
    node.shows('digbaro_peer_last_error{peer="b",error="refused-504"}', 1)
    other, = node.logs('refused', seconds=12, peer='b', status=503)
    require("isn't named b there" in other.sentence, 'what is wrong:', other.sentence)
    node.logs('connected', seconds=6, peer='b', role='connect')
    equal(node.peer('b')['last_error'], '-', 'the last error of a session')
    equal(events(node, 'start', 'listening')[:4], ['connecting', 'refused', 'refused', 'connected'], 'events')


@check
def log_of_a_peer_that_says_nothing(trial):
    """a connection that ends before a session begins is said once"""
    door = Door(trial, status=b'')
    node = Node(trial, peers=('b ' + address(door.port),)).start()
    door.tried(1)
    said, = node.logs('unreachable', seconds=13, peer='b')
    equal((said.level, 'for 10 s no answer came' in said.sentence), ('warn', True), 'the line about the connection')
    equal(node.peer('b')['last_error'], 'unreachable', 'the last error')
    equal(node.logged('ended'), [], 'ends of sessions')


@check
def log_of_a_peer_that_is_another_server(trial):
    """what answers at a peer's address and doesn't speak the protocol is said to be something else, once, with what repairs it; so is one that closes"""
    answers = ((b'HTTP/1.1 400 Bad Request\r\n\r\n', 'something other than a peers port of HAProxy answers'),
               (b'\x15\x03\x01\x00\x02\x02\x46', 'something other than a peers port of HAProxy answers'), (b'2', 'closed before b answered'))
    for answer, words in answers:
        door = Door(trial, status=answer)
        node = Node(trial, peers=('b ' + address(door.port),)).start()
        said, = node.logs('unreachable', peer='b')
        equal((said.level, words in said.sentence), ('warn', True), 'the line about the connection: ' + said.sentence)
        wait(lambda node=node: node.peer('b')['last_error'] == 'unreachable', 2, 'the last error', lambda node=node: node.peer('b'))
        node.shows('digbaro_peer_last_error{peer="b",error="unreachable"}', 1)
        door.tried(2, 6)
        time.sleep(0.5)
        equal((len(node.logged('unreachable')), node.logged('ended')), (1, []), 'lines about the connections')
        between(1500, int(node.peer('b')['since']), node.moment() - FIRST_MOMENT, 'ms since the node began, whatever attempts failed')


@check
def log_of_an_end(trial):
    """a session that is closed or reset ends with a line of level info, one that its peer ends by an error message with a warning; each says why"""
    node = node_of_b(trial)
    for times, (does, end, level, words) in enumerate(((lambda far: far.close(), 'end', 'info', 'the far end has closed the session: b '),
                                                       (lambda far: far.reset(), 'device', 'info', 'Connection reset by peer'),
                                                       (lambda far: far.send(PROTOCOL_ERROR), 'error', 'warn', 'by an error message')), 1):
        far = connected(trial, node)
        node.logs('connected', times, peer='b')
        time.sleep(0.5)
        does(far)
        said = node.logs('ended', times, peer='b')[-1]
        equal((said.keys['end'], said.level, words in said.sentence), (end, level, True), 'the end: ' + said.sentence)


@check
def log_of_short_sessions(trial):
    """the third session that a peer closes soon after it began is followed by a warning, which says what may be behind it, once"""
    node = node_of_b(trial)
    for times in range(1, 6):
        far = connected(trial, node)
        node.logs('connected', times, peer='b')
        (far.reset if times == 2 else far.close)()
        node.logs('ended', times, peer='b')
        time.sleep(0.3)
        equal(len(node.logged('short-sessions')), int(times > 2), 'lines about short sessions after %d' % times)
    said, = node.logged('short-sessions', peer='b')
    equal((said.level, said.keys['count'], 'by the name n there' in said.sentence), ('warn', '3', True), 'the line: ' + said.sentence)


@check
def log_of_two_of_one_name(trial):
    """three sessions that further connections of the peer replace soon after they began are followed by the same warning"""
    node = node_of_b(trial)
    connected(trial, node)
    for times in range(1, 4):
        connected(trial, node)
        node.logs('ended', times, peer='b', end='replaced')
        time.sleep(0.3)
        equal(len(node.logged('short-sessions')), int(times > 2), 'lines about short sessions after %d' % times)
    said, = node.logged('short-sessions', peer='b')
    require('two processes may call themselves b' in said.sentence, 'the line names the cause', said.sentence)


@check
def log_of_a_fault_behind_a_hello(trial):
    """a session whose peer breaks the protocol right behind its hello begins in the log before the fault"""
    node = node_of_b(trial)
    speaks(trial, node, hello('n', 'b') + switch(9))
    node.logs('ended', peer='b', end='fault')
    equal(events(node, 'start', 'listening'), ['connected', 'fault', 'ended'], 'events')


@check
def log_of_a_hello_refused(trial):
    """a hello that the node refuses is said once for each host, name and status, with its address; names that would read as more in hexadecimal"""
    node = node_of_b(trial)
    for _ in range(2):
        equal([refused(node, *names) for names in (('n', 'stranger'), ('n', 'str:anger'), ('other', 'b'), ('n', 'x\x01'))],
              [b'504\n', b'504\n', b'503\n', b'504\n'], 'the statuses')
    peer = speaks(trial, node, b'GET / HTTP/1.1\n\n\n')
    equal(status_of(peer), b'501\n', 'the status of what is no hello')
    node.logs('hello-refused', status=501)
    said = node.logged('hello-refused')
    equal(sorted((each.keys['status'], each.keys.get('peer', '-')) for each in said),
          [('501', '-'), ('503', 'b'), ('504', '0x7374723A616E676572'), ('504', '0x7801'), ('504', 'stranger')], 'the lines')
    for each in said:
        matches(r'127\.0\.0\.1:[0-9]+', each.keys['address'], 'the address')
    other, = node.logged('hello-refused', peer='b')
    equal(other.keys['called'], 'other', 'the name by which it called this node')
    require('"peer n .."' in other.sentence, 'what repairs it:', other.sentence)
    equal(node.peer('b')['last_error'], 'hello-refused-503', 'the last error')
    node.shows('digbaro_hellos_refused_total{status="504"}', 6)
    node.shows('digbaro_hellos_refused_total{status="503"}', 2)
    connected(trial, node)
    wait(lambda: node.peer('b')['last_error'] == '-', 2, 'a session has no last error', lambda: node.peer('b'))


@check
def log_of_a_hello_that_never_comes(trial):
    """a connection on which nothing comes, or half a hello, is answered 501 after 5 s; each is said once for a host, and counted"""
    node = node_of_b(trial)
    peers = [speaks(trial, node, data) for data in (b'', b'', b'HAProxyS 2.1\n', b'x' * 300)]
    equal([status_of(peer, 8) for peer in peers], [b'501\n'] * 4, 'the statuses')
    node.logs('hello-refused', 2, status=501)
    time.sleep(0.3)
    said = node.logged('hello-refused')
    equal(sorted(words in each.sentence for each in said for words in ('sent nothing for 5 s', 'sent no whole hello within 5 s')),
          [False, False, True, True], 'the lines: %s' % [each.sentence for each in said])
    for each in said:
        matches(r'127\.0\.0\.1:[0-9]+', each.keys['address'], 'the address')
    node.shows('digbaro_hellos_refused_total{status="501"}', 4)


@check
def log_of_a_hello_of_another_version(trial):
    """a hello of a version that the node doesn't speak is said with it, once, in hexadecimal if it would read as more"""
    node = node_of_b(trial)
    for version, wanted in ((b'2.2', '2.2'), (b'2: x', '0x323A2078')):
        peer = speaks(trial, node, hello('n', 's' + wanted, b'HAProxyS ' + version))
        equal(status_of(peer), b'502\n', 'the status')
        said, = node.logs('hello-refused', status=502, peer='s' + wanted)
        equal(said.keys['protocol'], wanted, 'the version')


@check
def log_of_a_node_that_is_its_own_peer(trial):
    """a node that connects to itself, or to another one of its name, says so, and which lines to look at"""
    port = trial.ports.next()
    own = Node(trial, peers=('c ' + address(port),), tables=(T1,), port=port).start()
    said, = own.logs('hello-refused', seconds=5, peer='n')
    equal((said.keys['status'], said.keys['called']), ('503', 'c'), 'the refusal')
    require('connected to itself' in said.sentence and '"node n"' in said.sentence, 'what repairs it:', said.sentence)
    node = node_of_b(trial)
    equal(refused(node, 'n', 'n'), b'504\n', 'the status')
    said, = node.logs('hello-refused', status=504, peer='n')
    require('"node n"' in said.sentence, 'what repairs it:', said.sentence)


@check
def log_of_a_hello_at_another_port(trial):
    """a peer's hello at the admin port or at the port of metrics is answered there as before, and named once, with the port that it has to have"""
    metrics = trial.ports.next()
    node = node_of_b(trial, more=('metrics ' + address(metrics),))
    for name, port in (('admin', node.admin_port), ('metrics', metrics)):
        for _ in range(2):
            peer = speaks(trial, node, hello('n', 'b'), port=port)
            require(is_closed(peer, 5), 'the connection is closed')
        for _ in range(5):
            speaks(trial, node, hello('n', 'b'), port=port).close()
        said, = node.logs('wrong-port', port=name, peer='b')
        equal((said.level, '"listen %s"' % address(node.port) in said.sentence), ('warn', True), 'the line: ' + said.sentence)
        matches(r'127\.0\.0\.1:[0-9]+', said.keys['address'], 'the address')
    for data in (hello('n', 'x'), hello('n', 'z').split(b'\n')[0] + b'\n'):
        peer = speaks(trial, node, data, port=node.admin_port)
        require(is_closed(peer, 5), 'the connection is closed')
    time.sleep(0.3)
    equal([said.keys.get('peer', '-') for said in node.logged('wrong-port')], ['b', 'b', 'x', '-'], 'the peers of the lines')


@check
def peer_from_elsewhere(trial):
    """a hello of a peer that may not come from where it comes is answered 504, named once and counted, and one from where it may is taken"""
    node = node_of_b(trial, peers=('b from 10.0.0.0/8', 'c from 10.0.0.0/8 127.0.0.0/8', 'd'))
    equal([refused(node, 'n', name) for name in 'bbcd'], [b'504\n', b'504\n', b'200\n', b'200\n'], 'the statuses')
    said, = node.logs('hello-refused', peer='b', status=504)
    require('from' in said.sentence, 'why:', said.sentence)
    matches(r'127\.0\.0\.1:[0-9]+', said.keys['address'], 'the address')
    node.shows('digbaro_hellos_refused_total{status="504"}', 2)
    equal(node.peer('b')['last_error'], 'hello-refused-504', 'the last error')
    equal(len(node.logged('hello-refused')), 1, 'lines about hellos')


# --- How much it says

@check
def five_lines_a_second(trial):
    """of one event about one peer, or about strangers, at most five lines a second are written, and then how many were left out"""
    node = node_of_b(trial)
    begun = time.monotonic()
    for number in range(30):
        equal(refused(node, 'n', 's%d' % number), b'504\n', 'the status')
    between(0, time.monotonic() - begun, 0.9, 'seconds for so many hellos')
    omitted = node.logs('omitted', seconds=4, of='hello-refused')
    said = node.logged('hello-refused')
    equal((len(said), sum(int(each.keys['count']) for each in omitted)), (5, 25), 'the lines, and those left out')
    time.sleep(1)
    refused(node, 'n', 's31')
    node.logs('hello-refused', peer='s31')


@check
def strangers_named_later(trial):
    """a stranger whose line was left out among those of others is named when it comes again, and then once"""
    node = node_of_b(trial)
    begun = time.monotonic()
    for number in range(7):
        equal(refused(node, 'n', 's%d' % number), b'504\n', 'the status')
    between(0, time.monotonic() - begun, 0.9, 'seconds for so many hellos')
    time.sleep(1.1)
    for _ in range(2):
        refused(node, 'n', 's5')
    node.logs('hello-refused', peer='s5')
    refused(node, 'n', 's6')
    node.logs('hello-refused', peer='s6')
    equal(len(node.logged('hello-refused')), 7, 'lines about hellos')


# --- Who reads it

def full_pipe(trial):
    """Returns the path of a pipe that is full and that nobody reads, and the end at which it could be read."""
    path = Folder(trial).path()
    os.mkfifo(path)
    pipe = trial.closes(open(os.open(path, os.O_RDWR | os.O_NONBLOCK), 'rb', buffering=0))
    with contextlib.suppress(BlockingIOError):
        while True:
            os.write(pipe.fileno(), b'x' * 4096)
    return path, pipe


def written_to(trial, target, **other):
    """Returns a node whose standard error is what a shell opens by these words."""
    node = Node(trial, **other)
    node.within = ('sh', '-c', 'exec "$@" ' + target, 'sh')
    return node.start()


@check
def blocked_log(trial):
    """a standard error that nobody reads holds nothing up: requests, sessions and the stop"""
    path, _ = full_pipe(trial)
    node = written_to(trial, '2>' + path)
    far = connected(trial, node)
    up_to_date(node)
    equal(node.ask('track t1 7 add gpc0 1').split(' ')[0], 'reply', 'the answer')
    far.gets_row('t1', 7, (1,))
    require(node.stop() < 5, 'the node stops within 5 s')


@check
def log_read_late(trial):
    """lines that wait are written once standard error is read again, and those for which there was no room are counted"""
    path, pipe = full_pipe(trial)
    # Long names make long lines.
    names = ['p%02d%s' % (number, 'x' * 200) for number in range(15)]
    node = written_to(trial, '2>' + path, peers=names)
    for number in range(400):
        connected(trial, node, names[number % 15]).close()
        if number % 15 == 0 and node.metric('digbaro_log_lines_dropped_total') > 0:
            break
    require(node.metric('digbaro_log_lines_dropped_total') > 0, 'lines are dropped')
    came = b''
    latest = time.monotonic() + 5
    while b'event=omitted count=' not in came and time.monotonic() < latest:
        try:
            came += os.read(pipe.fileno(), 1 << 16)
        except BlockingIOError:
            connected(trial, node, names[0]).close()
    require(b'event=start' in came and b'event=omitted count=' in came, 'the log, once it is read:', came[-600:])
    node.stop()


@check
def log_that_fails(trial):
    """a node whose standard error takes nothing goes on, and counts the lines that are dropped"""
    node = written_to(trial, '2>/dev/full')
    node.shows('digbaro_log_lines_dropped_total', 3)
    time.sleep(3.5)
    equal(node.metric('digbaro_log_lines_dropped_total'), 3, 'lines dropped while nothing happens')
    connected(trial, node)
    up_to_date(node)
    node.stop()


def datagrams_at(trial, path):
    """Returns a socket that takes what is written to those that are connected to this path."""
    taking = trial.closes(socket.socket(socket.AF_UNIX, socket.SOCK_DGRAM))
    taking.bind(path)
    taking.setblocking(False)
    return taking


def taken(taking):
    """Returns what has come to a socket since."""
    found = b''
    with contextlib.suppress(BlockingIOError):
        while True:
            found += taking.recv(1 << 16)
    return found


@check
def log_that_fails_for_a_while(trial):
    """all lines that a standard error didn't take are counted, once, and their number is said as soon as it takes lines again"""
    folder = Folder(trial)
    taking = datagrams_at(trial, folder.path('first'))
    errors = trial.closes(socket.socket(socket.AF_UNIX, socket.SOCK_DGRAM))
    errors.connect(folder.path('first'))
    node = Node(trial)
    node.told = errors
    node.start()
    wait(lambda: b' port=admin ' in taken(taking), 5, 'the log has its last line of the start', pause=0.3)
    taking.close()
    for number in range(5):
        refused(node, 'n', 's%d' % number)
    node.shows('digbaro_log_lines_dropped_total', 5)
    time.sleep(3.5)
    taking = datagrams_at(trial, folder.path('second'))
    errors.connect(folder.path('second'))
    time.sleep(1.5)
    equal(re.findall(rb' event=omitted (.*?): ', taken(taking)), [b'count=5'], 'how many lines were dropped, as the log says')
    equal(node.metric('digbaro_log_lines_dropped_total'), 5, 'lines dropped')
    node.stop()


@check
def log_without_a_reader(trial):
    """a node whose standard error is a pipe that nobody reads any longer goes on, answers, and stops"""
    reading, writing = os.pipe()
    node = Node(trial)
    try:
        node.told = writing
        node.start()
    finally:
        os.close(reading)
        os.close(writing)
    far = connected(trial, node)
    up_to_date(node)
    for number in range(5):
        refused(node, 'n', 's%d' % number)
    equal(node.ask('track t1 7 add gpc0 1').split(' ')[0], 'reply', 'the answer')
    far.gets_row('t1', 7, (1,))
    require(node.stop() < 5, 'the node stops within 5 s')


@check
def closed_log(trial):
    """a node whose standard error is closed goes on, and no port or connection gets its number"""
    node = written_to(trial, '2>&-')
    far = connected(trial, node)
    up_to_date(node)
    equal(os.readlink('/proc/%d/fd/2' % node.child.pid), '/dev/null', 'its standard error')
    far.stands()
    node.stop()
