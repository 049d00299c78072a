"""What a node says of a peer that defines tables otherwise than it does, and of tables that only one side has."""

import re
import time

from harness.far import Manners, connected
from harness.node import Node, fields
from harness.trial import check, equal, require, wait
from harness.wire import DEFINITION, FINISHED, REQUEST, TABLE_CLASS, definition, encoded, message, table, update
from staying.balancers import Pair
from staying.sessions import KEEPS_QUIET, asking

TABLES = ('table 1 kinds integer 4 0 gpc0', 'table 2 lengths string 33 0 gpc0', 'table 3 stores integer 4 0 gpc0',
          'table 4 periods integer 4 0 gpc0 http_req_rate:20000', 'table 5 further integer 4 0 gpc0', 'table 6 alike integer 4 0 gpc0')
PERIODS = table(14, 'periods', types=('gpc0', 'http_req_rate'), periods=(10000,))
ALIKE = table(16, 'alike', expire=5000)
DIFFERENT = (table(11, 'kinds', 'ipv4'), table(12, 'lengths', 'string', length=65), table(13, 'stores', types=('gpc0', 'gpc1')), PERIODS)
# A table with two of the type 22, gpt: behind the period of http_req_rate stands the size of their array.
FURTHER = message(TABLE_CLASS, DEFINITION, encoded(15) + b'\7further' + b''.join(
    map(encoded, (2, 4, 1 << 2 | 1 << 10 | 1 << 22, 0, 10, 10000, 22, 2))))
# Of each table that differs: the difference, and each side.
SIDES = {
    'kinds': ('kind', 'type ip', 'type integer'),
    'lengths': ('length', 'type string len 64 (key length 65)', 'type string len 32 (key length 33)'),
    'stores': ('types', 'store gpc0,gpc1', 'store gpc0'),
    'periods': ('period', 'http_req_rate(10s)', 'http_req_rate(20s)'),
    'further': ('types', 'store gpc0,http_req_rate(10s) and data types from 20 up', 'store gpc0'),
}


def lines(node, event, peer='b'):
    """Returns the lines of the log about an event with a peer, each without its time and its address."""
    found = re.findall(r'^\S+ \S+ (event=%s peer=%s .*)$' % (event, peer), node.said().decode('ascii'), re.MULTILINE)
    return [re.sub(r' address=\S+', '', line) for line in found]


def tables_in(found):
    """Returns the tables that lines of the log name."""
    return [re.search(r' table=([^ :]+)', line)[1] for line in found]


def says(node, event, count, seconds=6, peer='b'):
    """Waits until the log has so many lines about an event, and returns them."""
    wait(lambda: len(lines(node, event, peer)) >= count, seconds, '%d lines about %s' % (count, event), node.said)
    found = lines(node, event, peer)
    equal(len(found), count, 'lines about ' + event)
    return found


def mismatched(node, tables, seconds=6):
    """Waits until the node shows which tables differ, and in what."""
    def shown():
        found = {name: node.shared('b', name)['mismatch'] for name in TABLE_NAMES}
        return {name: word for name, word in found.items() if word != '-'}
    wait(lambda: shown() == tables, seconds, 'the tables that differ', lambda: node.ask('show peers'))
    equal(node.peer('b')['mismatched'], '%d' % len(tables), 'how many differ')
    equal(node.metric('digbaro_tables_mismatched{peer="b"}'), len(tables), 'how many differ, as a metric')


TABLE_NAMES = [line.split(' ')[2] for line in TABLES]


def define(far, *tables):
    far.send(b''.join(of if isinstance(of, bytes) else definition(of) for of in tables))


@check
def definitions_differ(trial):
    """a table that a peer defines with another kind, length, types or period is said once, with both sides, shown, and learned nothing of"""
    node = Node(trial, tables=TABLES).start()
    far = connected(trial, node)
    define(far, *DIFFERENT, FURTHER, ALIKE)
    for of in (PERIODS, ALIKE):
        values = (1, (0, 1, 0)) if of.periods else (1,)
        far.send(definition(of) + update(of, 1, 7, values))
    found = says(node, 'mismatch', len(SIDES))
    equal(sorted(tables_in(found)), sorted(SIDES), 'the tables in the log')
    for line in found:
        what, theirs, ours = SIDES[tables_in([line])[0]]
        require(' what=%s: ' % what in line, 'the log says what differs', line)
        sentence = line.split(': ', 1)[1]
        require(theirs in sentence and ours in sentence.split(theirs, 1)[1], 'the log has both sides', line)
        require('start this node again' in sentence, 'the log has what repairs it', line)
    mismatched(node, {name: what for name, (what, _, _) in SIDES.items()})
    wait(lambda: node.ask('show rows') == ['row 6 - 7 1'], 3, 'only the row of the table that is alike', lambda: node.ask('show rows'))
    far.gets_ack(ALIKE.id, 1)
    equal([pair for pair in far.acks if pair[0] != ALIKE.id], [], 'acknowledgements of tables that differ')


@check
def differences_once(trial):
    """a difference is said once, also on the next connection, and again if it is another one or comes back; that the table is alike is said with what
    repairs it"""
    node = Node(trial, tables=TABLES).start()
    for _ in range(2):
        far = connected(trial, node)
        define(far, PERIODS, ALIKE)
        says(node, 'mismatch', 1)
        mismatched(node, {'periods': 'period'})
        time.sleep(3)
        far.close()
        wait(lambda: node.peer('b')['state'] == 'down', 2, 'the session is over')
        equal(node.peer('b')['mismatched'], '0', 'how many differ without a session')
    far = connected(trial, node)
    define(far, PERIODS._replace(periods=((10, 15000),)))
    require('http_req_rate(15s)' in says(node, 'mismatch', 2)[1], 'the log has the other period', node.said())
    define(far, PERIODS._replace(periods=((10, 20000),)))
    mismatched(node, {})
    found = says(node, 'alike', 1)
    equal(tables_in(found), ['periods'], 'the table that both define alike now')
    require('start this node again' in found[0], 'the log has what repairs it', found)
    define(far, PERIODS)
    require('http_req_rate(10s)' in says(node, 'mismatch', 3)[2], 'the log has the first period again', node.said())


@check
def alike_in_a_resync(trial):
    """of a table that comes to be alike while the node is being taught, the log says which end brings its rows, and they come with that"""
    node, far = asking(trial, tables=TABLES)
    define(far, PERIODS)
    says(node, 'mismatch', 1)
    far.close()
    far = connected(trial, node, manners=KEEPS_QUIET)
    far.gets(REQUEST, 3)
    alike = PERIODS._replace(periods=((10, 20000),))
    define(far, alike)
    found = says(node, 'alike', 1)
    require('unless a line resync-ended with finished or incomplete follows' in found[0], 'the log says what to wait for', found)
    far.send(update(alike, 1, 7, (1, (0, 0, 0))) + FINISHED)
    said, = node.logs('resync-ended', peer='b', end='incomplete')
    equal((said.keys['role'], said.keys['rows']), ('learner', '1'), 'the end that the line named')


def counted(node, what, count, peer='b'):
    """Waits until a metric and the line of a peer say how many tables only one side has."""
    node.shows('digbaro_tables_%s{peer="%s"}' % (what, peer), count)
    equal(node.peer(peer)[what], str(count), 'tables that are ' + what)


@check
def lacking_tables(trial):
    """tables that this node lacks are said once, and its own that a peer didn't define 10 s after its first, if it has taught all it has"""
    node, far = asking(trial, tables=TABLES, peers=('b', 'c', 'd'))
    define(far, ALIKE, table(17, 'other'), table(18, 'x\x01 y'))
    begun = time.monotonic()
    equal(tables_in(says(node, 'unshared', 2)), ['other', '0x78012079'], 'tables that this node lacks')
    counted(node, 'unshared', 2)
    far.send(FINISHED)
    # Its resync is incomplete, so the next peer is asked.
    connected(trial, node, name='d').gets(REQUEST, 2)
    wait(lambda: node.is_up_to_date(), 3, 'the node is up to date', node.said)
    # One that isn't asked defines a table only with its first row to push.
    other = connected(trial, node, name='c')
    define(other, ALIKE)
    time.sleep(max(0, begun + 9.5 - time.monotonic()))
    equal(lines(node, 'undefined'), [], 'tables that were not defined, before 10 s are over')
    found = says(node, 'undefined', len(TABLES) - 1)
    require(time.monotonic() < begun + 14, 'tables that were not defined are said in time', time.monotonic() - begun)
    equal(tables_in(found), [name for name in TABLE_NAMES if name != 'alike'], 'tables that were not defined')
    counted(node, 'undefined', len(TABLES) - 1)
    counted(node, 'unshared', 2)
    equal((node.peer('b')['mismatched'], node.metric('digbaro_tables_mismatched{peer="b"}')), ('0', 0), 'how many differ')
    time.sleep(4)
    equal(lines(node, 'undefined', 'c'), [], 'tables of a peer that was not asked')
    equal(len(lines(node, 'unshared')), 2, 'lines about tables that this node lacks, later')
    counted(node, 'undefined', 0, 'c')
    far.close()
    counted(node, 'unshared', 0)
    counted(node, 'undefined', len(TABLES) - 1)
    far = connected(trial, node)
    equal(lines(node, 'alike'), [], 'tables that came to be alike')
    define(far, ALIKE, PERIODS._replace(periods=((10, 20000),)))
    equal(tables_in(says(node, 'alike', 1)), ['periods'], 'the table that was not defined, and is defined alike')
    counted(node, 'undefined', len(TABLES) - 2)
    define(far, *DIFFERENT, FURTHER)
    counted(node, 'undefined', 0)


@check
def no_table_defined(trial):
    """of a peer that has taught all it has and has defined no table, each table of this node is said to be undefined, 10 s after that end"""
    node, far = asking(trial, tables=TABLES)
    begun = time.monotonic()
    far.send(FINISHED)
    wait(lambda: node.is_up_to_date(), 3, 'the node is up to date', node.said)
    time.sleep(max(0, begun + 9.5 - time.monotonic()))
    equal(lines(node, 'undefined'), [], 'tables that were not defined, before 10 s are over')
    # A session looks every 3 s at most, and says five each time.
    equal(tables_in(says(node, 'undefined', len(TABLES), 8)), TABLE_NAMES, 'tables that were not defined')
    counted(node, 'undefined', len(TABLES))


def each_named(node, event, names, seconds):
    """Waits until the log has a line about an event for each of these tables, and requires that it has no other."""
    equal(sorted(tables_in(says(node, event, len(names), seconds))), names, 'tables in lines about ' + event)


@check
def many_tables_differ(trial):
    """of 12 tables that differ and 12 that one side lacks, each is named once within 10 s, though only five lines a second are written"""
    names = {first: ['%s%02d' % (first, number) for number in range(12)] for first in 'dot'}
    tables = ['table %d %s integer 4 0 gpc0 http_req_rate:20000' % (at, name) for at, name in enumerate(names['d'] + names['o'], 1)]
    node, far = asking(trial, tables=tables)
    define(far, *(table(at, name, types=('gpc0', 'http_req_rate'), periods=(10000,)) for at, name in enumerate(names['d'] + names['t'], 101)))
    begun = time.monotonic()
    far.send(FINISHED)
    for event, first in (('mismatch', 'd'), ('unshared', 't')):
        each_named(node, event, names[first], begun + 10 - time.monotonic())
    each_named(node, 'undefined', names['o'], begun + 22 - time.monotonic())
    time.sleep(3)
    for event in ('mismatch', 'unshared', 'undefined'):
        equal(len(lines(node, event)), 12, 'lines about ' + event)
    equal(node.logged('omitted'), [], 'lines that were left out')


@check
def many_tables_left(trial):
    """of 12 tables that a peer acknowledges nothing of, each is named once within 10 s, though only five lines a second are written"""
    names = ['t%02d' % number for number in range(12)]
    node = Node(trial, tables=['table %d %s integer 4 0 gpc0' % (at, name) for at, name in enumerate(names, 1)]).start()
    far = connected(trial, node, manners=Manners(acks='none'))
    wait(lambda: node.is_up_to_date(), 3, 'the node is up to date', node.said)
    # Rows that come later than 300 ms after the session's begin go out at once, and so the tables are left at one tick.
    time.sleep(1)
    node.admins.send(''.join('track %s 7 add gpc0 1\n' % name for name in names))
    equal([node.admins.line().split(' ')[0] for _ in names], ['reply'] * 12, 'the answers')
    each_named(node, 'left', names, 10)
    time.sleep(2)
    equal((len(lines(node, 'left')), node.logged('omitted')), (12, []), 'lines about tables left, and those left out')
    far.stands()


def table_line(node, name):
    """Returns what a node says of a table that it shares with a HAProxy."""
    return next(fields(line) for line in node.ask('show peers') if line.startswith('table h %s ' % name))


def differs_from(pair, keys, what, other, mismatches, sides):
    """Checks what becomes of rows of two tables that differ: those of the first go to the HAProxy, and none of the second go either way.
    `keys` are one of the second table at each side, `what` and `other` say what differs."""
    node, balancer = pair.node, pair.balancer
    pair.connected()
    for _ in range(3):
        wait(lambda: node.count(1), 7, 'the node counts', pause=0.2)
        wait(lambda: balancer.count(2), 7, 'the HAProxy counts', pause=0.2)
    require(node.stick(keys[0]) and balancer.stick(keys[1]), 'both choose a server')
    wait(lambda: balancer.rows().get(('ints', 1)) == 3, 5, 'the HAProxy takes a row with ' + what, balancer.rows)
    wait(lambda: table_line(node, 'names')['left'] == 'yes', 6, 'the table with another %s is left' % other, lambda: node.ask('show peers'))
    equal(sorted(node.rows()), [('ints', 1), ('names', keys[0])], 'the rows of the node')
    equal(sorted(balancer.rows()), [('ints', 1), ('ints', 2), ('names', keys[1])], 'the rows of the HAProxy')
    ints = table_line(node, 'mesh/ints')
    require(ints['taught'] == ints['acknowledged'] != '0', 'the rows with %s are acknowledged' % what, ints)
    equal((ints['mismatch'], ints['left'], table_line(node, 'names')['mismatch']), (mismatches[0], 'no', mismatches[1]), 'what differs')
    equal(pair.line()['mismatched'], '2', 'how many differ')
    said = [line for _, line in node.said if ' event=mismatch ' in line]
    for theirs, ours in sides:
        require(any(theirs in line and ours in line.split(theirs, 1)[1] for line in said), 'the log has both sides', theirs, ours, said)
    equal(len(said), 2, 'lines about tables that differ')


@check
def haproxy_that_differs(trial):
    """a HAProxy takes rows of a table with another period and gives none; with another length, none go either way; both are said and shown"""
    pair = Pair(trial, changes=(('http_req_rate(10s)', 'http_req_rate(20s)'), ('string len 32', 'string len 40')))
    node, balancer = pair.node, pair.balancer
    differs_from(pair, ('k1', 'k2'), 'another period', 'length', ('period', 'length'), (
        ('http_req_rate(20s)', 'http_req_rate(10s)'), ('type string len 40 (key length 41)', 'type string len 32 (key length 33)')))
    time.sleep(11)
    equal([line for _, line in node.said if 'event=undefined' in line or 'event=unshared' in line], [], 'tables that only one side has')

    pair.configure()
    balancer.reload()
    pair.connected()
    wait(lambda: pair.line()['mismatched'] == '0', 8, 'no table differs after the reload', lambda: node.ask('show peers'))
    wait(lambda: balancer.count(2), 7, 'the HAProxy counts', pause=0.2)
    wait(lambda: node.rows().get(('ints', 2)) == balancer.rows().get(('ints', 2)), 5, 'the node has the row', node.rows)
    equal((balancer.faults()['proto_err'], pair.line()['faults']), (0, '0'), 'faults')


@check
def haproxy_that_differs_otherwise(trial):
    """a HAProxy takes the values of the data types that it has, and gives none; with another kind of keys, no row goes either way"""
    pair = Pair(trial, changes=(('store gpc0,http_req_rate(10s)', 'store gpc0'), ('stick-table type string len 32', 'stick-table type integer')))
    differs_from(pair, ('3', '4'), 'a further data type', 'kind', ('types', 'kind'), (
        ('store gpc0', 'store gpc0,http_req_rate(10s)'), ('type integer', 'type string')))
    equal((pair.balancer.faults()['proto_err'], pair.line()['faults']), (0, '0'), 'faults')
