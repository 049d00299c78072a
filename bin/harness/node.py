"""A node that stays, as `run` starts it, its admin port, and its log."""

import collections
import os
import re
import socket
import subprocess
import tempfile
import time
from collections import namedtuple
from typing import Any

from harness.tables import FIRST_MOMENT
from harness.trial import PATIENCE, Late, equal, matches, require, wait

T1 = 'table 1 t1 integer 4 0 gpc0'
# The environment that digbaro.service gives the node.
AS_THE_UNIT = {**os.environ, 'MALLOC_ARENA_MAX': '2'}


def address(port):
    return '127.0.0.1:%d' % port


class Admin:
    """A connection to an admin port, or to a socket at a file, whose path is given in place of the port."""

    def __init__(self, port, host='127.0.0.1'):
        if isinstance(port, str):
            self.peer = socket.socket(socket.AF_UNIX)
            self.peer.settimeout(PATIENCE)
            self.peer.connect(port)
        else:
            self.peer = socket.create_connection((host, port), timeout=PATIENCE)
            self.peer.setsockopt(socket.IPPROTO_TCP, socket.TCP_NODELAY, 1)
        self.whole: collections.deque[bytes] = collections.deque()
        self.left, self.ended = b'', False

    def send(self, text):
        self.peer.sendall(text if isinstance(text, bytes) else text.encode())

    def more(self, seconds):
        """Reads what comes. Returns whether something did in time, or the connection is over."""
        self.peer.settimeout(max(0.001, seconds))
        try:
            came = self.peer.recv(1 << 16)
        except socket.timeout:
            return False
        except OSError:
            came = b''
        self.ended = not came
        *whole, self.left = (self.left + came).split(b'\n')
        self.whole.extend(whole)
        return True

    def unread(self):
        """Returns all that came and wasn't read as lines yet."""
        return b''.join(line + b'\n' for line in self.whole) + self.left

    def line(self, seconds=PATIENCE):
        """Returns the next line that comes, without its end; None once the connection is over."""
        while not self.whole:
            require(self.more(seconds), 'the admin port does not answer in %g s' % seconds, self.left, wrong=Late)
            if self.ended:
                require(not self.left, 'half a line of the admin port:', self.left)
                return None
        return self.whole.popleft().decode('ascii')

    def lines(self):
        """Returns the lines of an answer that ends with a full stop, without that."""
        found = []
        while (line := self.line()) != '.':
            require(line is not None, 'the connection is over before the end of an answer')
            found.append(line)
        return found

    def ask(self, request):
        """Returns the answer to a request: a line, or the lines of one that begins with `show`."""
        self.send(request + '\n')
        return self.lines() if request.split(' ')[0] == 'show' else self.line()

    def rest(self, seconds=PATIENCE):
        """Returns all that comes until the connection is over."""
        while not self.ended:
            require(self.more(seconds), 'the admin port keeps the connection open after', self.unread(), wrong=Late)
        return self.unread()

    def answer(self, *pieces):
        """Sends pieces of bytes, with a pause between two, and returns all that comes until the node closes the connection."""
        for place, piece in enumerate(pieces):
            time.sleep(0.1 if place else 0)
            self.send(piece)
        came = self.rest()
        self.close()
        return came

    def is_over(self):
        """Whether the node has closed it, as it closes one that is idle for a minute, or idle longest when another comes."""
        if self.whole or self.left:
            return False
        self.peer.settimeout(0)
        try:
            return not self.peer.recv(1, socket.MSG_PEEK)
        except BlockingIOError:
            return False
        except ConnectionError:
            return True
        finally:
            self.peer.settimeout(PATIENCE)

    def close(self):
        self.peer.close()


class Node:
    """A run of the program. It listens at `port`, and takes requests at `admin_port`."""

    def __init__(self, trial, name='n', peers=('b',), tables=(T1,), more=(), port=None, host='127.0.0.1', admin=True):
        self.trial = trial
        self.program = trial.program
        self.name = name
        self.host = host
        self.port = port or trial.ports.next()
        self.admin_port = trial.ports.next() if admin else None
        self.configure(peers, (*tables, *more))
        self.within: tuple = ()  # The words of a command line before those of the program.
        self.environment: Any = None  # Its environment, if that isn't this process's.
        self.told: Any = None  # Its standard error, if that isn't a file of its own.
        self.may_end = False
        self.admins: Any = None
        self.child: Any = None
        trial.nodes.append(self)

    def configure(self, peers, more):
        """Makes its configuration, of its peers and further lines."""
        at = '[%s]:%d' if ':' in self.host else '%s:%d'
        lines = ['node ' + self.name, 'listen ' + at % (self.host, self.port)]
        lines += ['admin ' + at % (self.host, self.admin_port)] if self.admin_port else []
        self.configuration = ''.join(line + '\n' for line in (*lines, *('peer ' + peer for peer in peers), *more))

    def start(self):
        """Starts it, waits until it listens, and returns it."""
        self.launch()
        if self.admin_port:
            self.admins = wait(self.opened, PATIENCE, 'the admin port is open', self.said)
        wait(self.listens, PATIENCE, 'the node listens', self.said, pause=0.1)
        return self

    def launch(self):
        """Starts it."""
        self.output, self.errors = tempfile.TemporaryFile(), tempfile.TemporaryFile()
        self.started = time.monotonic()
        self.child = subprocess.Popen([*self.within, self.program, 'run'], stdin=subprocess.PIPE, stdout=self.output,
                                      stderr=self.told or self.errors, env=self.environment)
        try:
            self.child.stdin.write(self.configuration.encode())
            self.child.stdin.close()
        except BrokenPipeError:
            pass
        self.admins = None

    def opened(self):
        """Returns a connection to its admin port, once it is open."""
        require(self.child.poll() is None, 'the node ended with status %s:' % self.child.poll(), self.said())
        try:
            return self.admin()
        except ConnectionRefusedError:
            return None

    def listens(self):
        """Whether it listens for peers."""
        require(self.child.poll() is None, 'the node ended with status %s:' % self.child.poll(), self.said())
        return listening(self.port, self.host)

    def admin(self):
        """Returns a new connection to its admin port."""
        return self.trial.closes(Admin(self.admin_port, self.host))

    def ask(self, request):
        """Returns the answer to a request, over the connection that was used before if it is still there."""
        if self.admins.is_over():
            self.admins = self.admin()
        return self.admins.ask(request)

    # --- What it says of itself

    def moment(self):
        """Returns its moment by the clock that it started with, at the most."""
        return FIRST_MOMENT + 1000 * (time.monotonic() - self.started)

    def head(self):
        """Returns the first line of `show peers` as a dictionary."""
        return fields(self.ask('show peers')[0])

    def peer(self, name):
        """Returns the line of a peer in `show peers` as a dictionary."""
        return next(fields(line) for line in self.ask('show peers') if line.startswith('peer %s ' % name))

    def shared(self, peer, table):
        """Returns the line of a peer's table in `show peers` as a dictionary."""
        return next(fields(line) for line in self.ask('show peers') if line.startswith('table %s %s ' % (peer, table)))

    def is_up_to_date(self):
        return self.head()['up_to_date'] == 'yes'

    def metrics(self):
        """Returns the metrics, as a dictionary from a name with its labels to a value."""
        _, body = self.get('/metrics')
        return dict(line.rsplit(' ', 1) for line in body.splitlines() if not line.startswith('#'))

    def metric(self, name):
        """Returns a metric as a number, 0 if it isn't there."""
        return float(self.metrics().get(name, 0))

    def shows(self, name, value):
        """Waits until a metric has a value."""
        wait(lambda: self.metric(name) == value, 2, '%s is %g' % (name, value), self.metrics)

    def get(self, path, method='GET'):
        """Returns the head and the body of what it answers to a GET, or by another method."""
        admin = self.admin()
        admin.send('%s %s HTTP/1.1\r\nHost: localhost\r\n\r\n' % (method, path))
        head, _, body = admin.rest().partition(b'\r\n\r\n')
        admin.close()
        return head.decode('ascii'), body.decode('ascii')

    def events(self):
        """Returns the number of events of its tables."""
        return sum(float(value) for name, value in self.metrics().items() if name.startswith('digbaro_table_events_total{'))

    def memory(self):
        """Returns its resident memory in MiB."""
        with open('/proc/%d/status' % self.child.pid) as file:
            return next(int(line.split()[1]) / 1024 for line in file if line.startswith('VmRSS:'))

    def said(self):
        """Returns what it wrote on standard error."""
        return os.pread(self.errors.fileno(), 1 << 24, 0)

    def logged(self, event=None, **keys):
        """Returns what its log says: of all events or of one, with these values of keys."""
        return chosen(all_said(self.said()), event, keys)

    def logs(self, event, times=1, seconds=2, **keys):
        """Waits until its log says an event with these values of keys so often, and returns what it says of it then."""
        return wait(lambda: len(found := self.logged(event, **keys)) >= times and found, seconds, 'the log says %s' % event, self.said)

    # --- Its end

    def kill(self):
        """Ends it at once."""
        self.child.kill()
        self.child.wait()

    def end(self):
        """Ends it if it runs, whatever becomes of the check."""
        if self.child is not None and self.child.poll() is None:
            self.child.kill()

    def again(self):
        """Starts it again after its end."""
        for wrong in self.ended():
            require(False, wrong)
        return self.start()

    def stop(self):
        """Stops it by a request, and returns how long that took."""
        begun = time.monotonic()
        equal(self.ask('stop'), 'ok', 'the answer to stop')
        try:
            status = self.child.wait(PATIENCE)
        except subprocess.TimeoutExpired:
            status = 'none'
        equal(status, 0, 'the status after stop')
        return time.monotonic() - begun

    def ended(self):
        """Ends it if it runs, and returns what is wrong with its end and its output."""
        if self.child is None:
            return []
        wrongs = []
        if self.child.poll() is None:
            self.child.kill()
        elif self.child.returncode not in (0, -9) and not self.may_end:
            wrongs.append('%s: the node ended with status %d: %r' % (self.name, self.child.returncode, self.said()[-300:]))
        self.child.wait()
        written = os.pread(self.output.fileno(), 1000, 0)
        if written:
            wrongs.append('%s: standard output: %r' % (self.name, written))
        errors = self.said()
        if not re.fullmatch(rb'(?:[ -~]*\n)*', errors):
            wrongs.append('%s: standard error: %r' % (self.name, errors[-1000:]))
        self.output.close()
        self.errors.close()
        self.child = None
        return wrongs


def mesh(trial, names, tables=(T1,), environment=None):
    """Returns nodes that all know each other, started."""
    ports = {name: trial.ports.next() for name in names}
    nodes = [Node(trial, name, ['%s %s' % (other, address(ports[other])) for other in names if other != name], tables, port=ports[name])
             for name in names]
    for node in nodes:
        node.environment = environment
        node.start()
    return nodes


def listening(port, host='127.0.0.1'):
    """Whether somebody listens at a port. No connection is made, but the kernel takes some ms to say it."""
    wanted = ':%04X' % port
    with open('/proc/net/tcp6' if ':' in host else '/proc/net/tcp') as file:
        return any(words[1].endswith(wanted) and words[3] == '0A' for words in map(str.split, file))


def fields(line):
    """Returns the fields `NAME=VALUE` of a line."""
    return dict(word.split('=', 1) for word in line.split(' ') if '=' in word)


def reply(line, what='a reply'):
    """Returns the number, the end and the rest of a line `reply`."""
    match = matches(r'reply ([0-9]+) (-|[0-9]+) (.*)', line, what)
    return int(match[1]), match[2], match[3]


# --- Its log

LEVELS = {'3': 'error', '4': 'warn', '6': 'info', '7': 'debug'}
# With a time and a level, or with the level's number as systemd's journal reads it; then the event, its keys, and a sentence.
LINE = re.compile(r'(?:(?P<time>[0-9]{4}-[01][0-9]-[0-3][0-9]T[0-2][0-9]:[0-5][0-9]:[0-5][0-9]\.[0-9]{3}Z) (?P<level>error|warn|info|debug) '
                  r'|<(?P<number>[3467])>)event=(?P<event>[a-z-]+)(?P<keys>(?: [a-z_]+=[!-~]+)*): (?P<sentence>[ -~]+)')

# What a line says: its time, if it has one, its level, its event, the values of its keys, and its sentence.
Said = namedtuple('Said', 'time level event keys sentence')


def said_by(line):
    """Returns what a line says, or None if it has another form."""
    match = LINE.fullmatch(line)
    if match is None or ': ' in line[:match.start('sentence') - 2]:
        return None
    keys = dict(word.split('=', 1) for word in match['keys'].split(' ')[1:])
    return Said(match['time'], match['level'] or LEVELS[match['number']], match['event'], keys, match['sentence'])


def all_said(text):
    """Returns what the lines of a log say. Each has to have the form of one; a last line without its end isn't looked at."""
    lines = [(line, said_by(line)) for line in text.decode('latin-1').split('\n')[:-1]]
    for line, said in lines:
        require(said is not None, 'a line of the log has another form:', line)
    return [said for _, said in lines]


def chosen(lines, event, keys):
    """Returns those that say an event, if one is given, with these values of keys."""
    return [said for said in lines
            if event in (None, said.event) and all(said.keys.get(key) == str(value) for key, value in keys.items())]
