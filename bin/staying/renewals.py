"""Tables whose numbers are used up, which get new ones. To use them up takes 2^31 changes, some hours of them; so these checks run a copy of
the program in which that number is a lower one, at the one place where its code has it."""

import os
import re
import socket
import struct
import time

from checks.refusing import symbols
from harness.far import Door, Far, connected, speaks, status_of
from harness.node import T1, Node, address
from harness.trial import PATIENCE, Folder, Skipped, between, check, equal, require, wait
from harness.wire import REQUEST, definition, hello, table
from staying.clocks import SOON, Clocked, brings_on
from staying.lacking import SEVEN, Refuser, at_rest, attempted
from staying.resyncs import T2, tracked
from staying.sessions import up_to_date

# The next number of a table from which on it gets new ones, as the program has it, and as its copy does.
MANY, FEW = 1 << 31, 1 << 10
# How many rows the table has.
ROWS = 300
# The function that looks at it, if the program has that by itself; the one that it is a part of otherwise calls the other one.
LOOKS, RENUMBERS = b'staying_node::tables::is_spent', b'table_cell::cell::TableCell::renumber'
# A shift of a register to the right by 31 bits, and the last of its bytes.
SHIFT, BITS = re.compile(rb'[\x48\x49]\xc1[\xe8-\xef]\x1f'), 3


def place_in_file(data, address):
    """Returns where in a program's file an address is."""
    headers, size, count = struct.unpack_from('<Q', data, 32)[0], *struct.unpack_from('<HH', data, 54)
    for at in range(headers, headers + size * count, size):
        kind, _, offset, begins, _, length = struct.unpack_from('<IIQQQQ', data, at)
        if kind == 1 and begins <= address < begins + length:
            return address - begins + offset
    return None


def calls(code, begin, target):
    """Whether code at an address calls a function at another."""
    return any(begin + at + 5 + struct.unpack_from('<i', code, at + 1)[0] == target for at in range(len(code) - 4) if code[at] == 0xe8)


def places_of_number(data):
    """Returns where a program has the number, each with the bytes to put there."""
    functions = {name: (begin, size) for name, begin, size in symbols(data) if size}
    found = []
    for name, (begin, size) in functions.items():
        at = place_in_file(data, begin) if name == LOOKS or name.startswith(b'core::scope::entry') else None
        code = data[at:at + size] if at else b''
        if name == LOOKS:
            found += [(at + match.start(), struct.pack('<I', FEW)) for match in re.finditer(re.escape(struct.pack('<I', MANY)), code)]
        elif code and LOOKS not in functions and calls(code, begin, functions[RENUMBERS][0]):
            found += [(at + match.start() + BITS, bytes((FEW.bit_length() - 1,))) for match in SHIFT.finditer(code)]
    return found


def copied(trial):
    """Returns the path of a copy of the program, with the lower number."""
    with open(trial.program, 'rb') as file:
        data = file.read()
    places = places_of_number(data)
    if len(places) != 1:
        raise Skipped('the program has the number at %d places that are known' % len(places))
    (at, some), = places
    path = Folder(trial).path('peers_node')
    with open(path, 'wb', opener=lambda name, flags: os.open(name, flags, 0o700)) as file:
        file.write(data[:at] + some + data[at + len(some):])
    return path


def of_few_numbers(trial, of=Node, **other):
    """Returns such a node, whose peer b has connected."""
    node = of(trial, tables=(T1, T2), **other)
    node.program = copied(trial)
    node.start()
    far = connected(trial, node)
    up_to_date(node)
    return node, far


def next_number(node, name):
    return node.metric('digbaro_table_next_number{name="%s"}' % name)


def used_up_but_one(node, *peers):
    """Changes the rows of a table until it has one number left, and waits until these peers have acknowledged all."""
    tracked(node, 't1', [place % ROWS for place in range(FEW - 2)])
    for name in peers:
        wait(lambda name=name: node.shared(name, 't1')['acknowledged'] == str(FEW - 2), PATIENCE, 'all is acknowledged', lambda: node.ask('show peers'))


def has_all(far):
    """Waits until a far side has been taught all rows, by the numbers that they have once these are new."""
    wait(lambda: len(far.rows('t1')) == ROWS, PATIENCE, 'all rows again', far.shown)
    equal([update.number for update in far.updates('t1')], list(range(1, ROWS + 1)), 'the numbers of the rows')


@check
def renewal(trial):
    """a table whose numbers are used up gets new ones, for which all sessions end and begin again, and no row is lost"""
    door = Door(trial)
    node, far = of_few_numbers(trial, peers=('b', 'c ' + address(door.port)))
    other = door.far()
    tracked(node, 't2', range(3))
    used_up_but_one(node, 'b', 'c')
    time.sleep(1)
    equal((node.logged('renewed'), node.logged('ended')), ([], []), 'lines one number before')
    far.stands()
    tracked(node, 't1', [7])
    said, = node.logs('renewed', seconds=5)
    equal((said.level, said.keys), ('info', {'table': 't1'}), 'the line')
    far.ends(2)
    other.ends(2)
    node.logs('ended', peer='b', end='end')
    wait(lambda: (next_number(node, 't1'), next_number(node, 't2')) == (ROWS + 1, 4), 2, 'the next numbers', node.metrics)
    far, other = connected(trial, node), door.far(1, 8)
    for one in (far, other):
        has_all(one)
        wait(lambda one=one: len(one.rows('t2')) == 3, 2, 'the rows of the other table', one.shown)
        equal(one.rows('t1')[SEVEN], ((len(range(7, FEW - 2, ROWS)) + 1,), None), 'the row that changed last')
    node.ask('track t1 8 put gpc0 77')
    far.gets_row('t1', 8, (77,), 2)
    far.stands()
    equal(len(node.logged('renewed')), 1, 'lines about new numbers')


@check
def renewal_of_a_table_left_open(trial):
    """a table in which a session stayed open for want of memory gets new numbers all the same, and the peer is served again"""
    node, far = of_few_numbers(trial)
    used_up_but_one(node, 'b')
    before, refuser = at_rest(node), Refuser(trial, node)
    refuser.tell('refuse')
    far.close()
    time.sleep(1)
    refuser.tell('allow')
    equal(node.events(), before, 'events, of which the end of a session is one in each table')
    tracked(node, 't1', [7])
    node.logs('renewed', seconds=5, table='t1')
    far = attempted(trial, node)
    require(far, 'the hello is answered')
    has_all(far)
    far.stands()
    between(0, node.stop(), 5, 'seconds until it has ended')


def keeper(node):
    """Returns the thread that keeps the tables: the first one keeps the log."""
    return sorted(map(int, os.listdir('/proc/%d/task' % node.child.pid)))[2]


def stays_silent(peer, seconds):
    """Checks that nothing comes on a connection for a while."""
    peer.settimeout(seconds)
    try:
        require(False, 'what came:', peer.recv(100))
    except socket.timeout:
        pass


@check
def clock_of_renewals(trial):
    """a table that can't get new numbers keeps sessions out for 5,000 ms, and then lets them stand for 60,000 ms, not a ms more or less"""
    node, far = of_few_numbers(trial, of=Clocked)
    used_up_but_one(node)
    refuser = Refuser(trial, node)
    refuser.tell('refuse in %d' % keeper(node))
    tracked(node, 't1', [7])
    far.ends(SOON)
    peer = speaks(trial, node, hello('n', 'b'))
    node.at(4_999)
    stays_silent(peer, 1.5)
    node.at(5_000)
    equal(status_of(peer, SOON), b'200\n', 'the status')
    far, there = trial.closes(Far(peer)), table(9, 't2')
    far.send(definition(there))
    for number, moment in enumerate([*range(5_000, 64_999, 4_000), 64_999], 1):
        node.at(moment)
        brings_on(far, there, number)
    time.sleep(1.5)
    far.stands()
    node.at(65_000)
    far.ends(SOON)
    equal(node.logged('renewed'), [], 'lines about new numbers')
    refuser.tell('allow')
    node.logs('renewed', seconds=SOON, table='t1')
    far = attempted(trial, node)
    require(far, 'the hello is answered')
    far.send(REQUEST)
    has_all(far)
    equal(next_number(node, 't1'), ROWS + 1, 'the next number')
