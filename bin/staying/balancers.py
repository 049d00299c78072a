"""A node beside a real HAProxy, if one is installed."""

import time

from harness.far import kept_open, status_of
from harness.haproxy import HAProxy, installed
from harness.members import NodeMember
from harness.node import fields
from harness.trial import Folder, Skipped, check, equal, require, wait
from harness.wire import OLDER_VERSION, hello


class Pair:
    """A HAProxy and a node. Either of them, or both, know where the other listens. `changes` are texts of the HAProxy's configuration,
    each with the one that stands there instead."""

    def __init__(self, trial, to_node=True, to_balancer=True, changes=()):
        binary = installed()
        if binary is None:
            raise Skipped('no haproxy')
        folder = Folder(trial).name
        self.balancer = trial.closes(HAProxy('h', folder, trial.ports, binary))
        self.node = trial.closes(NodeMember('n', folder, trial))
        nowhere = trial.ports.next()
        self.known = (('h', self.balancer.port), ('n', self.node.port if to_node else nowhere))
        self.configure(changes)
        self.node.configure((('h', self.balancer.port if to_balancer else nowhere), ('n', self.node.port)))
        self.balancer.start()
        self.node.start()

    def configure(self, changes=()):
        """Writes the HAProxy's configuration."""
        self.balancer.configure(self.known)
        with open(self.balancer.file('.cfg'), 'r+') as file:
            text = file.read()
            for old, new in changes:
                require(old in text, 'the configuration of HAProxy has', old)
                text = text.replace(old, new)
            file.seek(0)
            file.truncate()
            file.write(text)

    def line(self):
        """Returns what the node says of its peer."""
        return next(fields(line) for line in self.node.ask('show peers') if line.startswith('peer h '))

    def connected(self):
        wait(lambda: self.node.connected_to() == {'h'}, 12, 'the node is connected', lambda: self.node.ask('show peers'))
        wait(lambda: self.balancer.connected_to() == {'n'}, 12, 'the HAProxy is connected')

    def brings_to_version_2_0(self):
        """Has the HAProxy take the node for a peer of version 2.0, until one of 2.1 comes: so it does after a hello of 2.0 in one piece."""
        peer = kept_open(('127.0.0.1', self.balancer.port))
        peer.sendall(hello('h', 'n', OLDER_VERSION))
        equal(status_of(peer), b'200\n', 'the answer of the HAProxy to a hello of version 2.0')
        peer.close()

    def counts(self, member, key, times):
        """Lets a member count a key, and waits until both have the row."""
        for _ in range(times):
            wait(lambda: member.count(key), 7, '%s counts' % member.name, pause=0.2)
        wait(lambda: self.balancer.rows().get(('ints', key)) == self.node.rows().get(('ints', key)) == times, 5,
             'both have the row of %d' % key, lambda: (self.balancer.rows(), self.node.rows()))

    def sticks(self, key):
        """Lets the HAProxy choose a server for a key, and waits until both have its name."""
        require(self.balancer.stick(key), 'a request is answered')
        wait(lambda: self.node.rows().get(('names', key)) == self.balancer.rows().get(('names', key)), 5, 'both have the server of %s' % key,
             lambda: (self.balancer.rows(), self.node.rows()))

    def has_rows(self, count, after):
        """Waits until both have the same rows, so many of them."""
        wait(lambda: self.balancer.rows() == self.node.rows() and len(self.node.rows()) == count, 12, 'both have all rows after ' + after,
             lambda: (self.balancer.rows(), self.node.rows()))


def stands_idle(pair):
    """Checks that a session lasts while nothing is said, and that rows then go both ways."""
    pair.connected()
    time.sleep(1)
    before = pair.line()
    time.sleep(13)
    after = pair.line()
    equal((after['sessions'], after['state']), (before['sessions'], 'ready'), 'sessions and state after 13 s')
    require(int(after['heartbeats_sent']) - int(before['heartbeats_sent']) in (3, 4, 5), 'heartbeats sent', before, after)
    pair.counts(pair.node, 1, 3)
    pair.counts(pair.balancer, 2, 3)
    pair.sticks('k1')
    equal(pair.balancer.faults()['proto_err'], 0, 'protocol errors at the HAProxy')
    equal(pair.line()['faults'], '0', 'faults at the node')


@check
def haproxy_that_is_connected_to(trial):
    """a session that the node opened lasts at a HAProxy that has nothing to say, and rows go both ways"""
    stands_idle(Pair(trial, to_node=False))


@check
def haproxy_that_connects(trial):
    """a session that a HAProxy opened lasts while it has nothing to say, and rows go both ways"""
    stands_idle(Pair(trial, to_balancer=False))


@check
def haproxy_of_version_2_0(trial):
    """a session that a HAProxy opened in version 2.0 lasts while it has nothing to say, rows go both ways, and a node asks it for all"""
    pair = Pair(trial, to_balancer=False)
    pair.connected()
    equal(pair.line()['version'], '2.1', 'the version at first')
    pair.brings_to_version_2_0()
    wait(lambda: pair.line()['version'] == '2.0', 20, 'the HAProxy connects with version 2.0', pair.line)
    stands_idle(pair)
    pair.node.kill()
    pair.node.start()
    pair.connected()
    equal(pair.line()['version'], '2.0', 'the version after the node was killed')
    pair.has_rows(3, 'the node was killed')
    pair.counts(pair.node, 3, 2)
    pair.counts(pair.balancer, 4, 2)


@check
def haproxy_starts_again(trial):
    """a HAProxy and a node that are killed in turn, and one that reloads, have all rows again"""
    pair = Pair(trial)
    pair.connected()
    pair.counts(pair.node, 1, 2)
    pair.counts(pair.balancer, 2, 2)
    pair.sticks('k1')
    for member in (pair.balancer, pair.node):
        member.kill()
        member.start()
        pair.connected()
        pair.has_rows(3, '%s was killed' % member.name)
    pair.balancer.reload()
    pair.connected()
    pair.has_rows(3, 'the reload')
    pair.counts(pair.node, 3, 2)
    pair.counts(pair.balancer, 4, 2)
