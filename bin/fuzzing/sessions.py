"""Sessions over TCP: a far side that keeps to the protocol or doesn't, against a node that serves or joins (docs/FORMATS.md, section 9).

A far side is given as a list of acts:

  say MESSAGE                 a message that goes out with the next `sync`
  sync PIECES                 sends what was said, in pieces, and waits for the acknowledgements that are due then
  send BYTES; slow BYTES      at once; in pieces with a short wait between
  ask                         asks for a resync, acknowledges what it is taught, and waits for its end
  flood BYTES TIMES           the same bytes again and again
  define COUNT                definitions under ids and names of their own
  ahead                       asks for a resync, and acknowledges more than it was taught
  deaf                        reads nothing from now on
  wait                        does nothing for a while
"""

import re
import select
import socket
import struct
import subprocess
import time

from fuzzing.received import spelled
from fuzzing.rows import read_rows, without_moments
from fuzzing.streams import OVER, Talk, spoilt
from harness.program import FAULT_LINE, Complaint, node_words, require
from harness.tables import FIRST_MOMENT, GREATEST, RATES, Table, counted, edge, shape
from harness.wire import (ACKNOWLEDGEMENT, DEFINITION, SWITCH, TABLE_CLASS, UPDATES, Heard, Misread, acknowledgement,
                          definition, encoded, framed, message, read_definition)

HELLOS = b'HAProxyS 2.1\nb\na 1 1\n', b'HAProxyS 2.0\nb\na 1 1\n'
ITS_HELLO = re.compile(rb'HAProxyS 2\.1\nb\na [0-9]+ [0-9]+\n')
ACCEPTED = b'200\n'
IMPATIENT = 0.05
STATUS = re.compile(rb'(?:200|50[1-4])\n')
REQUEST = b'\0\0'
# The messages that ask a session for more than to learn.
ASKING = [('other', 0, 0), ('other', 0, 1), ('other', 0, 2), ('other', 1, 0), ('other', 1, 1), ('other', TABLE_CLASS, 132)]


# --- Random sessions

def sound_acts(random, talk):
    """Returns acts that keep to the protocol: updates, each table's acknowledged before the next ones are sent, and a resync."""
    acts: list[tuple] = []
    for _ in range(random.choice((1, 1, 3, 10))):
        before = len(talk.messages)
        talk.grow(before + random.choice((1, 3, 20, 60)))
        pieces = random.choice((1, 1, 3, 7))
        if pieces == 1:
            talk.tour()
        acts += [('say', said) for said in talk.messages[before:] if said[:3] not in ASKING]
        acts.append(('sync', pieces))
        if random.random() < 0.2:
            acts.append(('ask',))
    return acts + [('ask',)] if random.random() < 0.7 else acts


def hostile_act(random, talk):
    """Returns an act that no peer does."""
    what = random.randrange(9)
    if what == 0:
        return 'send', bytes(random.getrandbits(8) for _ in range(random.choice((1, 20, 300, 5000))))
    if what == 1:
        return 'flood', REQUEST, random.choice((1, 10, 1000, 10000))
    if what == 2:
        return 'define', random.choice((3, 300, 3000))
    if what == 3:
        return 'send', acknowledgement(random.choice(talk.ids + [0, 9, 2 ** 64 - 1]), edge(random, GREATEST))
    if what == 4:
        return ('ahead',)
    if what == 5:
        return 'flood', random.choice((b'\0\4', b'\0\3', b'\1\0', b'\0\1', b'\xFF', b'\x0A', b'\x05\x80\x00')), random.choice((1, 3, 3000))
    if what == 6:
        return 'send', random.choice((b'\x0A\x85' + OVER, b'\x0A\x85\xF1\xF1\x06', message(TABLE_CLASS, SWITCH, encoded(99)), b'\x0A\x82\x00'))
    if what == 7:
        return random.choice((('wait',), ('deaf',)))
    pieces = [spelled(said, talk.tables) for said in talk.grow(len(talk.messages) + random.choice((1, 5, 50))).messages] or [b'\0\4']
    return random.choice(('send', 'slow')), b''.join(spoilt(random, pieces)[0])


def random_hello(random, node):
    """Returns a hello, or for a node that joins a status, that a node doesn't accept, or the beginning of one."""
    good = random.choice(HELLOS) if node == 'serve' else ACCEPTED
    what = random.randrange(5)
    if what == 0:
        return good[:random.randrange(len(good))]
    if what == 1:
        return bytes(random.getrandbits(8) for _ in range(random.choice((1, 50, 600))))
    if what == 2:
        return b'H' * random.choice((512, 513, 5000))
    if what == 3:
        return random.choice((b'HAProxyS 2.2\nb\na 1 1\n', b'HAProxyS 2.1\nc\na 1 1\n', b'HAProxyS 2.1\nb\nz 1 1\n', b'300\n', b'501\n', b'504\n', b'\n\n\n'))
    spoilt_hello = bytearray(good)
    spoilt_hello[random.randrange(len(good))] = random.getrandbits(8)
    return bytes(spoilt_hello)


def random_session(random, roster, updates):
    """Returns the session of a far side, as plain data."""
    node = random.choice(('serve', 'join'))
    hostile = random.random() < 0.6
    talk = Talk(random, roster)
    hello = random.choice(HELLOS) if node == 'serve' else ACCEPTED
    if hostile and random.random() < 0.15:
        hello = random_hello(random, node)
    acts = sound_acts(random, talk) if not hostile or random.random() < 0.5 else []
    if hostile:
        acts += [hostile_act(random, talk) for _ in range(random.choice((1, 1, 2, 5)))]
        if random.random() < 0.3:
            acts.insert(random.randrange(len(acts)), acts.pop())
    ending = random.choice(('end', 'end', 'end', 'leave', 'reset')) if hostile else 'end'
    turns = random.choice((1, 2, 5)) if hostile and random.random() < 0.05 else 1000000
    return {'node': node, 'tables': talk.tables, 'roster': len(roster), 'updates': updates, 'hello': hello, 'acts': acts, 'ending': ending,
            'turns': turns, 'sound': not hostile}


# --- The far side

class Far(Heard):
    """One end of a connection. `came` is all that was read, and `sent` what was sent after the hello. `learner` knows what a learner has of
    the messages said. `limit` is how long the other end may take, in seconds, and `patience` how long the far side waits for what may
    not come. `is_behind` is whether the other end may not have read yet what was sent, since nobody waited for an acknowledgement."""

    def __init__(self, peer, limit, learner):
        super().__init__()
        peer.setblocking(False)
        peer.setsockopt(socket.IPPROTO_TCP, socket.TCP_NODELAY, 1)
        self.peer = peer
        self.learner = learner
        self.came = bytearray()
        self.sent = bytearray()
        self.said = b''
        self.is_over = self.is_reset = self.is_deaf = False
        self.begun = 0
        self.replaced: set[int] = set()
        self.is_behind = False
        self.taught = bytearray()
        self.updates: dict[int, int] = {}
        self.ends = 0
        self.errors = 0
        self.limit = self.patience = limit

    def pump(self, data=b'', until=None, seconds=None):
        """Sends bytes and reads what comes, until all is sent and `until` holds, or the connection is over. Returns whether that came in time."""
        left = memoryview(data)
        latest = time.monotonic() + (self.limit if seconds is None else seconds)
        while not self.is_over:
            if not left and (until is None or until()):
                return True
            wait = latest - time.monotonic()
            if wait <= 0:
                return False
            readers = [] if self.is_deaf else [self.peer]
            readable, writable, _ = select.select(readers, [self.peer] if left else [], [], min(wait, 0.5) if readers or left else 0.001)
            try:
                if readable:
                    self.take(self.peer.recv(1 << 16))
                if writable:
                    sent = self.peer.send(left[:1 << 16])
                    self.sent += left[:sent]
                    left = left[sent:]
            except BlockingIOError:
                continue
            except OSError:
                self.is_over = self.is_reset = True
            if self.is_deaf and not left:
                return True
        return until is None or until()

    def take(self, data):
        """Keeps what was read, and looks at the messages in it."""
        self.is_over = self.is_over or not data
        self.came += data
        if self.begun:
            self.hear(data)

    def hear(self, data):
        try:
            super().hear(data)
        except Misread as error:
            raise Complaint('a lesson', str(error)) from None

    def look_at(self, class_byte, type_byte, data):
        require(self.errors == 0, 'a message', 'after an error message', type_byte)
        if class_byte == TABLE_CLASS and type_byte != ACKNOWLEDGEMENT:
            require(type_byte in UPDATES or type_byte in (DEFINITION, SWITCH), 'a message', 'of no type', type_byte)
            self.taught += message(class_byte, type_byte, data)
            update = self.lessons.take(type_byte, data)
            if update is not None:
                self.updates[update.id] = update.number
        elif class_byte == 0:
            require(type_byte < 4, 'a message', 'of no type', type_byte)
            self.ends += type_byte in (1, 2)
        elif class_byte != TABLE_CLASS:
            require((class_byte, type_byte) in ((1, 0), (1, 1)), 'a message', 'of no type', (class_byte, type_byte))
            self.errors += 1

    def expect_messages(self, place=None):
        """From here on, or from a place in what came, all is messages."""
        self.begun = len(self.came) if place is None else place
        self.hear(bytes(self.came[self.begun:]))

    # --- Acts

    def send(self, data):
        self.pump(data)

    def slow(self, data, pieces=7):
        """Sends bytes in pieces of equal length."""
        for at in range(pieces):
            self.pump(data[at * len(data) // pieces:(at + 1) * len(data) // pieces])
            self.pump(until=lambda: False, seconds=0.002)

    def flood(self, data, times):
        self.pump(data * times)

    def define(self, count):
        """Defines so many tables that nobody has."""
        self.pump(b''.join(definition(Table(100 + number, b'd%d' % number, 'integer', 4, 0, (), ())) for number in range(count)))

    def wait(self):
        self.pump(until=lambda: False, seconds=0.02)

    def deaf(self):
        self.is_deaf = True

    def in_time(self, until, what, shown=lambda: ''):
        """Waits for what a node has to do. Only if all before was sound, it is a complaint that it doesn't come."""
        came = self.pump(until=until, seconds=self.patience)
        require(came or self.patience == IMPATIENT, what, 'does not come, and the connection is %s:' % ('over' if self.is_over else 'open'), shown())
        return came

    def note_replaced(self, at, identifier):
        """Notes the ids of which a definition takes the table. What is acknowledged of them depends on how the stream is cut into reads."""
        held, holder = self.learner.defined.get(identifier), self.learner.ids.get(self.learner.tables[at].name)
        self.replaced.update({identifier} if held not in (None, at) else (), {holder} - {None, identifier})

    def say(self, said):
        if said[0] == 'define':
            self.note_replaced(said[1], said[2])
        self.said += spelled(said, self.learner.tables)
        self.learner.take(said)
        if self.learner.fault is not None or not self.learner.sure:
            self.patience = min(self.patience, IMPATIENT)

    def sync(self, pieces):
        """Sends what was said. The last number of each table with an update among it is acknowledged, if the table is a local
        one, and no definition among it took it away."""
        before, data = len(self.acks), self.said
        self.said = b''
        if pieces <= 1:
            self.pump(data)
        else:
            self.slow(data, pieces)
        due = self.learner.acks()
        self.learner.owing.difference_update(at for at, _ in due)
        awaited = [ack for ack in due if ack[0] not in self.replaced]
        self.in_time(lambda: set(awaited) <= set(self.acks[before:]), 'an acknowledgement', lambda: (awaited, self.acks[before:]))
        self.is_behind = bool(self.replaced) or self.is_behind and not awaited
        self.replaced.clear()

    def ask(self):
        """Asks for a resync and acknowledges what comes."""
        ends = self.ends
        self.pump(REQUEST)
        while self.ends == ends and not self.is_over and self.in_time(lambda: self.updates or self.ends > ends, 'the end of a resync'):
            self.acknowledge()

    def acknowledge(self):
        owing = b''.join(acknowledgement(at, number) for at, number in self.updates.items())
        self.updates = {}
        self.pump(owing)

    def ahead(self):
        """Acknowledges one number more than the greatest that it saw of a table in a resync."""
        self.pump(REQUEST)
        self.pump(until=lambda: self.updates or self.ends, seconds=0.05)
        for at in list(self.updates):
            self.pump(acknowledgement(at, GREATEST))

    def act(self, act):
        if not self.is_over and not (self.is_deaf and act[0] in ('sync', 'ask', 'ahead')):
            getattr(self, act[0])(*act[1:])

    def end(self, how):
        """Ends the connection: sends no more and reads the rest, leaves, or resets it."""
        if how == 'end' and not self.is_deaf:
            try:
                self.peer.shutdown(socket.SHUT_WR)
            except OSError:
                self.is_reset = True
            require(self.pump(until=lambda: self.is_over), 'slow', 'the connection is open %g s after the far side ended' % self.limit)
        elif how == 'reset':
            self.peer.setsockopt(socket.SOL_SOCKET, socket.SO_LINGER, struct.pack('ii', 1, 0))
        self.peer.close()


# --- Sessions with a node

def free_port():
    with socket.socket() as made:
        made.bind(('127.0.0.1', 0))
        return made.getsockname()[1]


def connected(child, port, limit):
    """Returns a connection to a node that serves, once it listens, or None if it ended."""
    latest = time.monotonic() + limit
    while time.monotonic() < latest:
        try:
            return socket.create_connection(('127.0.0.1', port), timeout=limit)
        except ConnectionRefusedError:
            if child.poll() is not None:
                return None
            time.sleep(0.001)
    raise Complaint('slow', 'nobody listens at the port of serve')


def started(program, node, turns, text, learner):
    """Starts a node and returns it with its end of the connection."""
    for _ in range(3):
        with socket.socket() as listener:
            if node == 'join':
                listener.bind(('127.0.0.1', 0))
                listener.listen()
                listener.settimeout(program.patience)
            port = listener.getsockname()[1] if node == 'join' else free_port()
            words = node_words(node, port, turns)
            program.note(words, text)
            child = program.start(*words)
            child.stdin.write(text)
            child.stdin.close()
            child.stdin = None
            try:
                peer = connected(child, port, program.patience) if node == 'serve' else listener.accept()[0]
            except (OSError, Complaint):
                child.kill()
                child.communicate()
                raise Complaint('slow', '%s does not connect' % node) from None
        if peer is not None:
            return child, words, Far(peer, program.patience, learner)
        program.finished(child, words)
    raise Complaint('status', 'serve ends before anybody connected')


def held(program, session, text, learner):
    """Holds a session. Returns how the node ended, and the far side."""
    child, words, far = started(program, session['node'], session['turns'], text, learner)
    program.sessions += 1
    try:
        hello = session['hello']
        if session['node'] == 'join':
            require(far.pump(until=lambda: far.came.count(b'\n') >= 3), 'slow', 'no hello of join')
            require(ITS_HELLO.fullmatch(bytes(far.came)), 'a hello', '', bytes(far.came))
            far.expect_messages()
            far.pump(hello)
        else:
            far.pump(hello)
            if hello in HELLOS:
                require(far.pump(until=lambda: b'\n' in far.came), 'slow', 'no status of serve')
                require(bytes(far.came) == ACCEPTED, 'a status', '', bytes(far.came))
                far.expect_messages()
        far.sent.clear()
        far.patience = far.limit if session['sound'] else IMPATIENT
        for act in session['acts']:
            far.act(act)
        far.pump(far.said)
        far.end(session['ending'])
        return program.finished(child, words), far
    except BaseException as error:
        stop(child, error)
        raise
    finally:
        far.peer.close()


def stop(child, error):
    """Stops a node whose session went wrong. If a signal ended it before, that is the complaint."""
    try:
        child.wait(0.2 if isinstance(error, Complaint) else 0)
    except subprocess.TimeoutExpired:
        child.kill()
        child.communicate()
        return
    child.communicate()
    require(child.returncode >= 0, 'signal', 'of a node, %d, and then: %s' % (-child.returncode, error))


def moved_ids(stream):
    """Returns the ids whose table a definition takes, or replaces by another. What is acknowledged of them depends on how the stream is cut
    into reads."""
    tables: dict = {}
    holders: dict = {}
    moved: set[int] = set()
    for _, class_byte, type_byte, data in framed(stream):
        if (class_byte, type_byte) != (TABLE_CLASS, DEFINITION):
            continue
        try:
            table = read_definition(data)
        except Misread:  # A fault ends the session.
            break
        if tables.get(table.id, shape(table)) != shape(table):
            moved.add(table.id)
        moved |= {holders.get(table.name, table.id)} - {table.id}
        tables[table.id], holders[table.name] = shape(table), table.id
    return moved


def judge_ending(session, ending, far, roster):
    """What holds of every session: documented statuses and lines, whole messages, and rows in order. Returns the rows."""
    require(ending.status in (0, 1, 4), 'status', '', ending)
    require(ending.output[-1:] in (b'', b'\n'), 'half a line', '', ending.output)
    seen = not far.is_reset and session['ending'] == 'end' and not far.is_deaf
    if ending.status == 4:
        require((ending.output, ending.errors) == (b'', b'device\n'), 'a failed device', '', ending)
        require(not seen, 'a failed device', 'although the far side read all', ending)
        return None
    if ending.status == 0:
        require(not ending.errors, 'standard error', '', ending.errors)
    else:
        require(FAULT_LINE.fullmatch(ending.errors), 'standard error', '', ending.errors)
    if seen and far.begun:
        require(not far.left, 'half a message', '', bytes(far.came[-60:]))
        require(ending.status == 0 or far.errors, 'a fault', 'without an error message', ending.errors)
        if ending.status == 1:
            kind = b'\1\1' if b'SizeLimit' in ending.errors else b'\1\0'
            require(far.came.endswith(kind), 'an error message', 'of another kind', ending.errors, bytes(far.came[-4:]))
    elif seen and session['node'] == 'serve':
        status = STATUS.match(bytes(far.came))
        require(status[0] in (ACCEPTED, far.came) if status else not far.came, 'a status', '', bytes(far.came))
    lines = ending.output.split(b'\n')[:-1]
    turns = re.fullmatch(b'turns ([1-9][0-9]*)', lines[0] if lines else b'')
    require(turns and int(turns[1]) <= session['turns'], 'turns', '', lines[:1])
    return read_rows(lines[1:], roster, FIRST_MOMENT + int(turns[1])), int(turns[1])


def is_plain(session, far):
    """Whether the node read all that was sent, and each message as a learner does: nothing ended the session before."""
    if far.is_deaf or session['turns'] < 1000 or session['ending'] == 'reset' or not far.begun:
        return False
    if session['hello'] not in (HELLOS if session['node'] == 'serve' else (ACCEPTED,)):
        return False
    return not any(class_byte == 1 and type_byte < 2 or class_byte == 0 and type_byte in (1, 2) and session['node'] == 'join'
                   or class_byte == TABLE_CLASS and type_byte == 132 for _, class_byte, type_byte, _ in framed(bytes(far.sent)))


def without_rates(rows, roster):
    """Returns rows without ends and rates."""
    tables = {table.id: table for table in roster}
    shown = without_moments(rows, roster)
    return {place: [row[0]] + [word for kind, word in zip(counted(tables[place[0]]) + [None], row[1:]) if kind not in RATES]
            for place, row in shown.items()}
