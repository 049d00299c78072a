"""A HAProxy: its configuration with two tables, its start, and its stats socket."""

import re
import shutil
import socket
import subprocess
import time

from harness.members import EXPIRE, SERVERS, Member
from harness.node import fields
from harness.trial import require, wait

CONFIGURATION = '''global
    stats socket {folder}/{name}.sock mode 600 level admin
    nbthread 1
    localpeer {name}
defaults
    mode http
    timeout connect 2s
    timeout client 1h
    timeout server 10s
    timeout http-keep-alive 1h
peers mesh
{peers}
    table ints type integer size 100k expire {expire}s store gpc0,http_req_rate(10s)
frontend load
    bind 127.0.0.1:{load}
    http-request track-sc0 req.fhdr(x-key) table mesh/ints if {{ path /count }}
    http-request sc-inc-gpc0(0) if {{ path /count }}
    http-request return status 200 hdr x-count %[sc0_get_gpc0] if {{ path /count }}
    default_backend names
backend names
    stick-table type string len 32 size 100k expire {expire}s peers mesh
    stick on req.fhdr(x-key)
    balance roundrobin
{servers}
frontend servers
    bind 127.0.0.1:{answering}
    http-request return status 200
'''


def installed():
    """Returns the path of the HAProxy that is installed, or None."""
    return shutil.which('haproxy') or shutil.which('haproxy', path='/usr/sbin:/usr/local/sbin')


class HAProxy(Member):
    """A HAProxy. Requests to it count a key, or stick one to a server. What it says isn't noted."""

    kind = 'HAProxy'
    other_blow = 'reload'
    faults_counted = ('no_hbt', 'new_conn', 'proto_err', 'coll')

    def __init__(self, name, folder, ports, binary):
        super().__init__(name, folder, ports.next())
        self.binary = binary
        self.load, self.answering = ports.next(), ports.next()

    def configure(self, peers):
        """Writes its configuration. `peers` are the names and ports of all members, its own among them."""
        with open(self.file('.cfg'), 'w') as file:
            file.write(CONFIGURATION.format(
                folder=self.folder, name=self.name, load=self.load, answering=self.answering, expire=EXPIRE,
                peers='\n'.join('    peer %s 127.0.0.1:%d' % peer for peer in peers),
                servers='\n'.join('    server s%d 127.0.0.1:%d' % (place, self.answering) for place in range(1, SERVERS + 1))))

    def version(self):
        return subprocess.run([self.binary, '-v'], capture_output=True, text=True, check=True).stdout.split('\n')[0]

    def start(self, *words):
        """Starts a process, and waits until it answers over its stats socket."""
        self.starts.append(time.monotonic())
        with open(self.file('.log'), 'a') as log:
            self.child = subprocess.Popen([self.binary, '-db', '-f', self.file('.cfg'), *words],
                                          stdin=subprocess.DEVNULL, stdout=log, stderr=log)
        wait(self.answers, 10, '%s answers' % self.name)

    def answers(self):
        require(self.runs(), '%s has ended with status %s, see %s' % (self.name, self.child.poll(), self.file('.log')))
        peer = self.opened()
        if peer is not None:
            peer.close()
        return peer is not None

    def reload(self, then=lambda: None):
        """Starts a new process, which the old one teaches before it ends; once it has ended, something else is done."""
        self.has_to_run()
        old = self.child
        self.start('-sf', str(old.pid))
        self.is_stale = True
        try:
            if old.wait(15) != 0:
                self.wrongs.append('a process that was reloaded ended with status %d' % old.returncode)
        except subprocess.TimeoutExpired:
            old.kill()
            old.wait()
        then()

    other = reload

    def ask(self, command):
        """Returns what it answers over its stats socket, line by line."""
        with wait(self.opened, 3, '%s answers' % self.name) as peer:
            peer.sendall(command.encode() + b'\n')
            came = b''
            while data := peer.recv(1 << 16):
                came += data
        return [line for line in came.decode().split('\n') if line]

    def opened(self):
        """Returns a connection to its stats socket, once it is there."""
        peer = socket.socket(socket.AF_UNIX)
        peer.settimeout(5)
        try:
            peer.connect(self.file('.sock'))
            return peer
        except OSError:
            peer.close()
            return None

    def state(self):
        text = '\n'.join(self.ask('show peers'))
        faults = {name: sum(map(int, re.findall(r' %s=([0-9]+)' % name, text))) for name in self.faults_counted}
        return set(re.findall(r'id=(\S+)\(remote,active\) [^\n]*last_status=ESTA', text)), faults, re.search(r' flags=(\S+)', text)[1]

    def is_up_to_date(self, sighting):
        """Neither is a resync from its former process pending, nor one from a peer."""
        return sighting.resync is not None and int(sighting.resync, 16) & 3 == 3

    def lesson(self, process):
        """Returns nothing: it doesn't say who taught it."""

    def has_left(self, peer, table, moment):
        """Returns nothing: it leaves no table."""

    def server(self, key):
        """Returns nothing: which server it chooses for a key isn't known before."""

    def rows(self):
        """Returns what the tables have: the count of each key, and the server's name."""
        found = {}
        for line in self.ask('show table mesh/ints')[1:]:
            found['ints', int(fields(line)['key'])] = int(fields(line)['gpc0'])
        for line in self.ask('show table names')[1:]:
            found['names', fields(line)['key']] = fields(line)['server_key']
        return found

    def get(self, path, key):
        """Makes a request, and returns the head of its answer, or nothing if it wasn't answered with 200."""
        if self.is_stale:
            self.drop()
        try:
            if self.client is None:
                self.client = socket.create_connection(('127.0.0.1', self.load), timeout=2)
                self.client.setsockopt(socket.IPPROTO_TCP, socket.TCP_NODELAY, 1)
            self.client.sendall(b'GET %s HTTP/1.1\r\nHost: x\r\nx-key: %s\r\n\r\n' % (path, key))
            came = b''
            while b'\r\n\r\n' not in came:
                data = self.client.recv(4096)
                if not data:
                    raise ConnectionError
                came += data
            return came if b' 200 ' in came.split(b'\r\n')[0] else b''
        except OSError:
            self.drop()
            return b''

    def count(self, key):
        """Counts a key, and returns the value answered, or None."""
        found = re.search(rb'\r\nx-count: ([0-9]+)\r\n', self.get(b'/count', b'%d' % key))
        return found and int(found[1])

    def stick(self, key):
        """Lets a request stick to a server, and returns whether it was answered."""
        return bool(self.get(b'/stick', key.encode()))

    def faults(self):
        """Returns the counts of faults of its present process."""
        return self.state()[1]
