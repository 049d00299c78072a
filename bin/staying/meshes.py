"""Nodes among themselves: two and three that connect to each other, that come to rest, that are killed and start again."""

import time

from harness.node import T1, fields, mesh
from harness.trial import PATIENCE, check, equal, require, wait
from staying.resyncs import answered

TABLES = (T1, 'table 2 st string 33 600000 gpc0 http_req_rate:60000 server_key')
KEYS = 100


def mesh_of(trial, count):
    """Returns nodes that all know each other, once each has loaded keys of its own and they are at rest."""
    nodes = mesh(trial, ['n%d' % (place + 1) for place in range(count)], TABLES)
    connected_all(nodes)
    for place, node in enumerate(nodes):
        load(node, place * KEYS)
    at_rest(nodes, 2 * count * KEYS)
    return nodes


def connected_all(nodes):
    """Waits until each of the nodes has a session with each other one, and is up to date."""
    for node in nodes:
        wait(lambda: all(node.peer(other.name)['state'] in ('ready', 'teaching') for other in nodes if other is not node), PATIENCE,
             '%s is connected' % node.name, lambda: node.ask('show peers'))
        wait(node.is_up_to_date, PATIENCE, '%s is up to date' % node.name)


def load(node, first):
    """Tracks keys of both tables, in one go."""
    requests = []
    for key in range(first, first + KEYS):
        requests += ['track t1 %d add gpc0 %d' % (key, key + 1), 'track st =k%d add gpc0 %d' % (key, key + 1),
                     'track st =k%d rate http_req_rate 5' % key, 'track st =k%d name s%d' % (key, key % 7)]
    answered(node, [request.encode() for request in requests], 400)


def shown(node):
    """Returns the rows of a node without the moments, which are its own: the ends, and the beginnings of rates."""
    rows = {}
    for line in node.ask('show rows'):
        words = line.split(' ')
        rows[words[1], words[3]] = [word.split('/')[1:] if '/' in word else word for word in words[4:]]
    return rows


def at_rest(nodes, count):
    """Waits until all nodes have the same rows, so many of them, and checks that no table of theirs has an event after that."""
    wait(lambda: all(len(shown(node)) == count for node in nodes), PATIENCE, '%d rows each' % count,
         lambda: [(node.name, len(shown(node))) for node in nodes])
    wait(lambda: all(shown(node) == shown(nodes[0]) for node in nodes), PATIENCE, 'equal rows')
    time.sleep(1)
    before = [node.events() for node in nodes]
    time.sleep(3.5)
    equal([node.events() for node in nodes], before, 'events 1 s and 4.5 s later')


def lives(node):
    """Returns how long each row with an end lives on, in ms."""
    return {line.split(' ')[1]: int(fields(line)['exp']) for line in node.ask('show table st') if not line.startswith('#')}


@check
def two_nodes_in_a_mesh(trial):
    """two nodes have the same rows in the end, and come to rest"""
    nodes = mesh_of(trial, 2)
    one, other = [lives(node) for node in nodes]
    require(all(abs(one[key] - other[key]) < 1000 for key in one), 'the rows end at the same time', one, other)


@check
def three_nodes_in_a_mesh(trial):
    """three nodes have the same rows in the end, and come to rest; each has one session with each other"""
    nodes = mesh_of(trial, 3)
    for node in nodes:
        before = node.ask('show peers')
        equal(sum(' state=ready ' in line for line in before), 2, 'sessions that stand')


@check
def killed_and_started_again(trial):
    """a node that is killed and starts again has all rows again, its own too, and what is tracked at once is kept"""
    nodes = mesh_of(trial, 2)
    nodes[0].kill()
    nodes[1].ask('track t1 5000 add gpc0 7')
    nodes[0].again()
    nodes[0].admins.send('track t1 0 add gpc0 5\n')
    line = nodes[0].admins.line()
    require(line.endswith(' - 0 6 local'), 'a track right after the start, of a row with 1:', line)
    connected_all(nodes)
    at_rest(nodes, 4 * KEYS + 1)
    equal(nodes[1].ask('get t1 0'), 'row 1 - 0 6', 'the row at the other node')


@check
def two_of_three_killed(trial):
    """two of three nodes that are killed at once and start again learn all rows, and the mesh comes to rest"""
    nodes = mesh_of(trial, 3)
    for node in nodes[:2]:
        node.kill()
    for node in nodes[:2]:
        node.again()
    connected_all(nodes)
    at_rest(nodes, 6 * KEYS)


@check
def stopped_and_started_again(trial):
    """a node that is stopped and starts again has all rows again"""
    nodes = mesh(trial, ('n1', 'n2'), TABLES)
    connected_all(nodes)
    load(nodes[0], 0)
    at_rest(nodes, 2 * KEYS)
    nodes[0].stop()
    nodes[0].again()
    connected_all(nodes)
    at_rest(nodes, 2 * KEYS)
