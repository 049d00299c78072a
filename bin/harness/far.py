"""Far sides that speak the peers protocol: scripted ones, which keep to it as they are told to (docs/FORMATS.md, sections 1 to 9).

A far side has a thread of its own, which notes each message and when it came, and which answers by the far side's manners:

  beats       whether it sends a heartbeat every 3 s
  acks        which updates it acknowledges: `all`, `new` as HAProxy does, which never acknowledges a table's number again, or `none`
  passed      the names of tables of which it acknowledges nothing
  answer      what it sends when it is asked for a resync, or nothing
"""

import socket
import struct
import threading
import time
from collections import namedtuple

from harness.trial import PATIENCE, Late, require, wait
from harness.wire import FINISHED, HEARTBEAT, TABLE_CLASS, VERSION, Heard, Misread, Update, acknowledgement, hello

# How the kernel says when bytes came, by its own clock, however late they are read.
STAMPS = 35

Manners = namedtuple('Manners', 'beats acks passed answer', defaults=(True, 'all', (), FINISHED))
# A message, and the moment at which it came.
Came = namedtuple('Came', 'moment kind data')


def kept_open(address, buffer=None):
    """Returns a connection to an address; `buffer` is how much of what comes the kernel keeps for it, at the least."""
    peer = socket.socket(socket.AF_INET6 if ':' in address[0] else socket.AF_INET)
    if buffer:
        peer.setsockopt(socket.SOL_SOCKET, socket.SO_RCVBUF, buffer)
    peer.settimeout(PATIENCE)
    peer.connect(address)
    peer.setsockopt(socket.IPPROTO_TCP, socket.TCP_NODELAY, 1)
    return peer


def stamped(peer):
    """Returns what comes next on a connection with stamps, and when it came, as the kernel says it, however late this thread runs."""
    data, notes, _, _ = peer.recvmsg(1 << 16, 64)
    moment = time.monotonic()
    for level, kind, stamp in notes:
        if (level, kind) == (socket.SOL_SOCKET, STAMPS):
            seconds, nanoseconds = struct.unpack('qq', stamp[:16])
            moment = min(moment, seconds + nanoseconds / 1e9 - time.time() + time.monotonic())
    return data, moment


def speaks(trial, node, data, buffer=None, port=None):
    """Returns a connection to a node's port for peers, or to another port of it, that has said something; `buffer` is as in `kept_open`."""
    peer = trial.closes(kept_open((node.host, port or node.port), buffer))
    peer.sendall(data)
    return peer


def status_of(peer, seconds=PATIENCE):
    """Returns the line that answers a hello, with its end, or nothing if the connection ends. What follows it stays unread."""
    peer.settimeout(seconds)
    line = b''
    try:
        while not line.endswith(b'\n'):
            came = peer.recv(1)
            if not came:
                break
            line += came
    except ConnectionError:
        pass
    except socket.timeout:
        require(False, 'a hello is not answered in %g s' % seconds, line, wrong=Late)
    return line


def is_closed(peer, seconds):
    """Whether the other side closes a connection in time. What comes before is dropped."""
    latest = time.monotonic() + seconds
    try:
        while time.monotonic() < latest:
            peer.settimeout(max(0.001, latest - time.monotonic()))
            if not peer.recv(1 << 16):
                return True
    except socket.timeout:
        return False
    except OSError:
        return True
    return False


class Far(Heard):
    """One end of a connection whose hello was answered with 200. `came` is what came since then, message by message. `asked` is when the
    hello was sent, or had come."""

    def __init__(self, peer, manners=Manners(), asked=None):
        super().__init__()
        self.peer = peer
        self.peer.setsockopt(socket.SOL_SOCKET, STAMPS, 1)
        self.manners = manners
        self.begun = time.monotonic()
        self.asked = asked or self.begun
        self.came: list[Came] = []
        self.taught: list[Update] = []
        self.acknowledged: dict[int, int] = {}
        self.owing: dict[int, Update] = {}
        self.wrong: str | None = None
        self.over: float | None = None
        self.sent = self.begun
        self.lock = threading.Lock()
        self.thread = threading.Thread(target=self.play, daemon=True)
        self.thread.start()

    # --- Its thread

    def play(self):
        while self.over is None:
            try:
                self.peer.settimeout(max(0.001, self.sent + 3 - time.monotonic()) if self.manners.beats else 0.5)
                data, self.moment = stamped(self.peer)
            except socket.timeout:
                if self.manners.beats and time.monotonic() >= self.sent + 3:
                    self.send(HEARTBEAT)
                continue
            except OSError:
                data = b''
            if not data:
                self.over = time.monotonic()
                return
            try:
                self.hear(data)
            except Misread as error:
                self.wrong = self.wrong or str(error)
            self.acknowledge()

    def look_at(self, class_byte, type_byte, data):
        self.came.append(Came(self.moment, (class_byte, type_byte), data))
        if (class_byte, type_byte) == (0, 0) and self.manners.answer:
            self.send(self.manners.answer)
        elif class_byte == TABLE_CLASS and (update := self.lessons.take(type_byte, data)):
            self.taught.append(update)
            self.owing[update.id] = update

    def acknowledge(self):
        """Acknowledges the updates that came, by its manners."""
        owing, self.owing = self.owing, {}
        for update in owing.values():
            if self.manners.acks == 'none' or update.table.name.decode() in self.manners.passed:
                continue
            if self.manners.acks == 'new' and self.acknowledged.get(update.id) == update.number:
                continue
            self.acknowledged[update.id] = update.number
            self.send(acknowledgement(update.id, update.number))

    def send(self, data):
        """Sends bytes. That the other side has closed is no fault."""
        with self.lock:
            self.sent = time.monotonic()
            try:
                self.peer.settimeout(PATIENCE)
                self.peer.sendall(data)
            except OSError:
                pass

    # --- What came

    def controls(self, message):
        """Returns the moments at which a control or an error message came."""
        return [one.moment for one in list(self.came) if one.kind == tuple(message)]

    def count(self, message):
        return len(self.controls(message))

    def updates(self, name=None):
        """Returns the updates that came, of a table or of all."""
        return [one for one in list(self.taught) if name is None or one.table.name == name.encode()]

    def rows(self, name):
        """Returns the latest values and name of each key of a table."""
        return {one.key: (one.values, one.name) for one in self.updates(name)}

    def gets(self, message, seconds=PATIENCE, times=1):
        """Waits for a control or an error message, and returns when it came."""
        wait(lambda: self.count(message) >= times, seconds, 'the message %s' % message.hex(' '), self.shown)
        return self.controls(message)[times - 1]

    def gets_row(self, name, key, values, seconds=PATIENCE):
        """Waits for an update of a key with these values."""
        key = key.to_bytes(4, 'big') if isinstance(key, int) else key
        wait(lambda: self.rows(name).get(key, (None,))[0] == values, seconds, 'an update of %s' % name, self.shown)

    def gets_ack(self, identifier, number, seconds=PATIENCE):
        wait(lambda: (identifier, number) in self.acks, seconds, 'an acknowledgement of %d' % number, self.shown)

    def shown(self):
        text = ' '.join('%d.%d' % one.kind for one in self.came[-20:])
        return '%d messages: .. %s; the connection is %s' % (len(self.came), text, 'open' if self.over is None else 'over')

    def stands(self):
        require(self.over is None, 'the connection is over:', self.shown())
        require(self.wrong is None, 'a lesson is wrong:', self.wrong)

    def ends(self, seconds=PATIENCE):
        """Waits until the other side has closed the connection, and returns when."""
        wait(lambda: self.over, seconds, 'the connection ends', self.shown)
        return self.over

    # --- Its end

    def reset(self):
        """Ends the connection by a reset. Its thread has to leave it first, or the kernel would keep it."""
        self.peer.setsockopt(socket.SOL_SOCKET, socket.SO_LINGER, struct.pack('ii', 1, 0))
        self.close(socket.SHUT_RD)

    def close(self, how=socket.SHUT_RDWR):
        try:
            self.peer.shutdown(how)
        except OSError:
            pass
        if threading.current_thread() is not self.thread:
            self.thread.join(1)
        self.peer.close()


def connected(trial, node, name='b', manners=Manners(), behind=b'', version=VERSION, pid=1):
    """Returns a far side that connected to a node under a name. `behind` goes out right behind its hello, of which `version` is the
    first line, and which says `pid`."""
    asked = time.monotonic()
    peer = speaks(trial, node, hello(node.name, name, version, pid) + behind)
    require((status := status_of(peer)) == b'200\n', 'the hello of %s:' % name, status)
    return trial.closes(Far(peer, manners, asked))


class Door:
    """Listens for connections of a node. `status` answers each hello, or returns what does if it is a function of the hello. `tries` has
    the moment and the hello of each; `fars` are those that were answered with 200, and `kept` those that got no status at all."""

    def __init__(self, trial, manners=Manners(), status=b'200\n'):
        self.trial = trial
        self.manners = manners
        self.status = status
        self.tries = []
        self.fars = []
        self.kept = []
        self.port = trial.ports.next()
        self.listener = socket.create_server(('127.0.0.1', self.port), backlog=64)
        self.thread = threading.Thread(target=self.play, daemon=True)
        self.thread.start()
        trial.closes(self)

    def play(self):
        while True:
            try:
                peer, _ = self.listener.accept()
            except OSError:
                return
            peer.setsockopt(socket.IPPROTO_TCP, socket.TCP_NODELAY, 1)
            self.answer(peer)

    def answer(self, peer):
        """Reads a hello and answers it."""
        peer.settimeout(PATIENCE)
        moment, read = time.monotonic(), b''
        try:
            while read.count(b'\n') < 3:
                came = peer.recv(1)
                if not came:
                    break
                read += came
        except OSError:
            pass
        status = self.status(read) if callable(self.status) else self.status
        try:
            peer.sendall(status)
        except OSError:
            pass
        if status == b'200\n':
            self.fars.append(self.trial.closes(Far(peer, self.manners)))
        elif status:
            peer.close()
        else:
            self.kept.append(self.trial.closes(peer))
        self.tries.append((moment, read))

    def far(self, place=0, seconds=PATIENCE):
        """Waits for the node's connection number `place`, from 0, and returns the far side that answered it."""
        return wait(lambda: len(self.fars) > place and self.fars[place], seconds, 'the node connects')

    def tried(self, times, seconds=PATIENCE):
        """Waits until the node has connected so many times, and returns when each was."""
        wait(lambda: len(self.tries) >= times, seconds, 'the node connects %d times' % times, lambda: self.tries)
        return [moment for moment, _ in self.tries]

    def close(self):
        try:
            self.listener.shutdown(socket.SHUT_RDWR)
        except OSError:
            pass
        self.listener.close()


# --- A far side that follows words

def read(peer, count):
    """Returns what comes, up to so many bytes, or the end of the connection."""
    came = b''
    while len(came) < count and (part := peer.recv(count - len(came))):
        came += part
    return came


def played(peer, words, seconds=PATIENCE):
    """Follows words on a connection in turn, and returns in hexadecimal all that came over it: it sends hexadecimal; `<N` reads N bytes, and
    `~N` reads N that aren't returned; `end` sends no more; `pause` waits a little; `narrow` has the kernel keep little; `leave` closes the
    connection, and `reset` resets it. At the end it reads until nothing comes. If the connection fails, the error's name stands at the end."""
    came = b''
    try:
        with peer:
            peer.settimeout(seconds)
            for word in words.split():
                if word[0] in '<~':
                    part = read(peer, int(word[1:]))
                    came += part if word[0] == '<' else b''
                elif word == 'end':
                    peer.shutdown(socket.SHUT_WR)
                elif word == 'pause':
                    time.sleep(0.1)
                elif word == 'narrow':
                    peer.setsockopt(socket.SOL_SOCKET, socket.SO_RCVBUF, 4096)
                elif word in ('leave', 'reset'):
                    if word == 'reset':
                        peer.setsockopt(socket.SOL_SOCKET, socket.SO_LINGER, struct.pack('ii', 1, 0))
                    return came.hex().upper()
                else:
                    peer.sendall(bytes.fromhex(word))
            return (came + read(peer, 1 << 20)).hex().upper()
    except OSError as error:
        return came.hex().upper() + ' ' + type(error).__name__


class Player(threading.Thread):
    """A far side that follows words over one connection or, behind each word `again`, over another one. It connects to a port, as soon as
    somebody listens there and until it is told to give up, or else listens at a port of its own until it has the last connection."""

    def __init__(self, words, port=None):
        super().__init__(daemon=True)
        self.parts, self.to = words.split('again'), port
        self.came: list[str] = []
        self.gives_up = threading.Event()
        if port is None:
            self.listener = socket.create_server(('127.0.0.1', 0))
            self.listener.settimeout(PATIENCE)
            self.port = self.listener.getsockname()[1]
        self.start()

    def run(self):
        for part in self.parts:
            try:
                peer = self.accepted() if self.to is None else self.connected()
            except OSError as error:
                self.came = [type(error).__name__]
                return
            self.came.append(played(peer, part))

    def accepted(self):
        """Returns the next connection. After the last one it listens no more."""
        peer, _ = self.listener.accept()
        if len(self.came) + 1 == len(self.parts):
            self.listener.close()
        return peer

    def connected(self):
        for _ in range(1000):
            try:
                return socket.create_connection(('127.0.0.1', self.to))
            except ConnectionRefusedError:
                if self.gives_up.wait(0.01):
                    break
        raise TimeoutError

    def result(self):
        """Returns what came over all connections, joined by `/`."""
        self.join(2 * PATIENCE)
        return '/'.join(self.came)
