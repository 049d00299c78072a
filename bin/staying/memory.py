"""What a node that stays takes of memory, and how level that is. A program that is built with a sanitizer keeps what is freed, so these
checks are skipped with it."""

import random
import threading

from harness.node import AS_THE_UNIT, Node, mesh
from harness.trial import between, check, require, wait
from staying.meshes import connected_all

MEGABYTE = 1_000_000


def megabytes(node):
    """Returns its resident memory in MB."""
    return node.memory() * 2 ** 20 / MEGABYTE


def changed(client, requests):
    """Makes changes, in one go, and waits until all are answered."""
    client.send(''.join(request + '\n' for request in requests))
    client.peer.settimeout(60)
    came = b''
    while came.count(b'\n') < len(requests):
        more = client.peer.recv(1 << 16)
        require(more, 'the connection is over behind', came[-100:])
        came += more
    require(came.count(b'reply ') == len(requests), 'answers to %d changes:' % len(requests), came[-400:])


@check
def memory_of_many_clients(trial):
    """30 clients that change 1,000 rows of each of 64 tables take at most 16 MB more than the first of them"""
    trial.measures_memory()
    numbers, rows = range(1, 65), range(1000)
    node = Node(trial, peers=(), tables=['table %d t%d integer 4 0 gpc0' % (number, number) for number in numbers])
    node.environment = AS_THE_UNIT
    node.start()
    clients = []
    for place in range(30):
        clients.append(node.admin())
        for number in numbers:
            changed(clients[-1], ['track t%d %d add gpc0 1' % (number, key) for key in rows])
        if place == 0:
            before = megabytes(node)
    require(not any(client.is_over() for client in clients), 'a client is over')
    require(node.ask('get t64 999') == 'row 64 - 999 30', 'the last row:', node.ask('get t64 999'))
    between(0, max(0, megabytes(node) - before), 16, 'MB more than after the first client')


# --- A soak

TABLES = ('table 1 ints integer 4 600000 gpc0 http_req_rate:10000', 'table 2 names string 33 600000 gpc0 server_key')
# How many keys each of two clients of either node writes, in both tables.
KEYS = 2_500
# How often it changes each of them in one load: some 480,000 changes in all.
TURNS = 20
# How many loads there may be until one takes no more memory. A queue that chance makes longer than any before takes some once; what each
# change takes, all of them do.
LOADS = 4


def some_changes(chances, keys):
    """Returns changes of both rows of each key, in any order."""
    changes = []
    for key in keys:
        changes += ['track ints %d add gpc0 1' % key, 'track names =k%d name s%d' % (key, chances.randrange(5))]
        if chances.random() < 0.2:
            changes += ['track ints %d rate http_req_rate 1' % key, 'track names =k%d add gpc0 1' % key]
    chances.shuffle(changes)
    return changes


def loads(node, client, keys, failed):
    """Has a client change all these keys of a node again and again, looks at the node meanwhile, and notes why that fails."""
    chances = random.Random(keys[0])
    try:
        for _ in range(TURNS):
            changes = some_changes(chances, keys)
            for begin in range(0, len(changes), 500):
                changed(client, changes[begin:begin + 500])
            client.ask('show peers')
            node.get('/metrics')
    except Exception as error:  # The thread that started this one says it.
        failed.append(error)


def loaded(nodes, clients):
    """Has two clients load each of the nodes, and returns the memory of each once all is acknowledged."""
    failed: list[Exception] = []
    threads = [threading.Thread(target=loads, args=(node, client, range(place * KEYS, (place + 1) * KEYS), failed))
               for place, (node, client) in enumerate(zip(nodes * 2, clients))]
    for thread in threads:
        thread.start()
    for thread in threads:
        thread.join()
    require(not failed, 'the load fails:', *failed[:1])
    for node, other in zip(nodes, nodes[::-1]):
        wait(lambda node=node, other=other: node.peer(other.name)['lag'] == '0', 30, 'all is acknowledged', lambda node=node: node.ask('show peers'))
    return [megabytes(node) for node in nodes]


@check
def soak(trial):
    """two nodes of which 20,000 rows are changed take at most 5 % more memory after one load than after the load before, by the fourth at the latest"""
    trial.measures_memory()
    nodes = mesh(trial, ('n1', 'n2'), TABLES, AS_THE_UNIT)
    connected_all(nodes)
    for node in nodes * 200:  # So that each of the threads that answer clients has had its first page.
        node.get('/metrics')
    clients = [node.admin() for node in nodes * 2]
    found = [loaded(nodes, clients)]
    while len(found) < 2 or max(grown(found)) > 1.05:
        require(len(found) < LOADS, 'the memory of both nodes in MB, after each load:', found)
        found.append(loaded(nodes, clients))


def grown(found):
    """Returns how many times as much memory each node took after the last load as after the one before."""
    return [after / before for before, after in zip(*found[-2:])]
