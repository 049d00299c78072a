"""A node that stays, for the kinds of cases that disturb it: what stands beside the disturbance, and what has to hold however it goes.

Its peer `b` keeps to the protocol. A client makes a change every 20 ms. Peers `c` and `d`, strangers and other clients do what a case
says: an actor plays the case's acts, as often as the case has rounds."""

import glob
import re
import socket
import subprocess
import threading
import time

from harness.far import STAMPS, Manners, connected, kept_open, stamped
from harness.node import Node, address, all_said
from harness.ports import Ports
from harness.program import Complaint, require
from harness.tables import GREATEST, Table, random_roster, table_line
from harness.trial import Trial, Wrong, wait

NAME = b'n'
# What is in all that a peer, a stranger or a client may choose, so that it can be looked for in the log.
MARK = b'ZqMarkqZ'
SPELLINGS = (MARK, MARK.hex().encode(), MARK.hex().upper().encode())
# The table that the client of every case changes. A peer that the fuzzer plays sends nothing of it.
WATCHED = Table(77, b'watched', 'integer', 4, 0, (2,), ())
KEYS = 20
# How long the client waits between two changes.
PAUSE = 0.02
# How long the answer to a change may take; by how many MiB the resident memory may grow while the acts are played, and by how many in the
# second half of many rounds. With another patience than 5 s, which is for a program built without proof, each is as much more.
ANSWERED, MOST_GROWTH, MOST_LEVEL = 0.1, 64, 16
USUAL_PATIENCE = 5
# How many acts a case with several rounds plays at most, over all rounds.
MOST_ACTS = 30
# Where the log may say a name that a stranger chose.
CHOSEN = re.compile(rb'(event=hello-refused status=[0-9]+) peer=[!-~]+(?:( address=[!-~]+) (?:called|protocol)=[!-~]+)?|'
                    rb'(event=(?:unshared|passed-over) peer=[!-~]+ address=[!-~]+) table=[!-~]+|(event=wrong-port port=[a-z]+) peer=[!-~]+')

ports = None


def next_ports():
    """Returns this process's ports."""
    global ports
    ports = ports or Ports()
    return ports


def random_local_roster(random, most=4):
    """Returns tables as a configuration takes them."""
    return [table._replace(id=table.id % 2 ** 31 or 6) for table in random_roster(random, most)]


def kept_waiting(child):
    """Returns how many seconds each thread of a child has been kept from running, although it could have."""
    waited = {}
    for path in glob.glob('/proc/%d/task/*/schedstat' % child.pid):
        try:
            with open(path) as file:
                waited[path] = int(file.read().split()[1]) / 1e9
        except (OSError, IndexError):
            continue
    return waited


def held_up(before, after):
    """Returns how long the two threads that were kept from running longest were, in seconds."""
    return sum(sorted((after[path] - before.get(path, 0) for path in after), reverse=True)[:2])


class Watch:
    """A client that makes change after change. It notes the slowest answer, without the time that the kernel gave to others."""

    def __init__(self, node, patience):
        self.node, self.patience = node, patience
        self.connect()
        self.answers, self.slowest, self.wrong = 0, 0, None
        self.ends = threading.Event()
        self.thread = threading.Thread(target=self.play, daemon=True)
        self.thread.start()

    def play(self):
        while self.wrong is None and not self.ends.wait(PAUSE):
            try:
                self.ask()
            except OSError as error:
                self.wrong = 'the answer to a change: %s' % (error or type(error).__name__)

    def connect(self):
        """Opens a connection to the admin port."""
        self.peer = kept_open(('127.0.0.1', self.node.admin_port))
        self.peer.setsockopt(socket.SOL_SOCKET, STAMPS, 1)
        self.peer.settimeout(self.patience)

    def ask(self):
        """Makes a change, and reads the answer. The kernel's stamp says when it came, however late this thread runs. If the connection has
        gone for another, which a crowd may bring about, or if the port is busy, another one is opened, and the change made there."""
        latest = time.monotonic() + self.patience
        while True:
            try:
                if self.asked() != b'busy\n':
                    return
            except ConnectionError:
                pass
            if time.monotonic() >= latest:
                raise ConnectionError('the admin port has no room for a change')
            self.peer.close()
            time.sleep(PAUSE)
            self.connect()

    def asked(self):
        """Makes a change over the connection that there is. Returns the answer."""
        before = kept_waiting(self.node.child)
        self.peer.sendall(b'track watched %d add gpc0 1\n' % (self.answers % KEYS))
        begun, line = time.monotonic(), b''
        while not line.endswith(b'\n'):
            data, moment = stamped(self.peer)
            if not data:
                raise ConnectionError('the connection is over')
            line += data
        if line == b'busy\n':
            return line
        late = moment - begun
        if late > ANSWERED:
            late -= held_up(before, kept_waiting(self.node.child))
        self.slowest = max(self.slowest, late)
        self.answers += 1
        if not re.fullmatch(rb'reply [0-9]+ - [0-9]+ [0-9]+ local\n', line):
            self.wrong = 'the answer to a change: %r' % line
        return line

    def judge(self):
        """Ends the client after one more change, and says what was wrong with its answers."""
        self.ends.set()
        self.thread.join(self.patience + 1)
        if self.wrong is None:
            self.ask()
        require(self.wrong is None, 'a change', 'is not answered as one:', self.wrong)
        limit = ANSWERED * self.patience / USUAL_PATIENCE
        require(self.slowest <= limit, 'a change', 'is answered after more than %g s:' % limit, round(self.slowest, 3))

    def close(self):
        self.ends.set()
        self.peer.close()


class Stand:
    """A node, its peer `b`, and the client. `trial` closes at the end what was opened meanwhile."""

    def __init__(self, program, tables, more=(), door=None):
        self.program, self.trial = program, Trial(program.path, next_ports())
        self.tables = tables + [WATCHED]
        peers = ('b', 'c', 'd') if door is None else ('b', 'c', 'd ' + address(door))
        lines = [table_line(table).decode() for table in self.tables]
        self.node = Node(self.trial, NAME.decode(), peers, lines, ['size 77 %d' % KEYS] + list(more))
        program.note(('run',), self.node.configuration.encode())

    def begin(self):
        """Starts the node, and brings it up to date."""
        self.node.launch()
        seconds = 2 * self.program.patience
        self.node.admins = wait(self.node.opened, seconds, 'the admin port is open', self.node.said)
        wait(self.node.listens, seconds, 'the node listens', self.node.said, pause=0.05)
        self.begun = time.monotonic()
        self.friend = connected(self.trial, self.node, 'b', Manners())
        wait(self.node.is_up_to_date, seconds, 'the node is up to date', self.node.said)
        self.watch = self.trial.closes(Watch(self.node, self.program.patience))
        self.memory = [self.node.memory()]

    def at(self):
        """Returns the address at which the node takes connections of peers."""
        return self.node.host, self.node.port

    def measure(self):
        self.memory.append(self.node.memory())

    def end(self):
        """Says what is wrong with the node after the acts, and stops it."""
        self.measure()
        self.watch.judge()
        self.judge_friend()
        self.judge_memory()
        seconds = self.node.stop()
        require(seconds <= self.program.patience, 'slow', 'a node that stops has ended after %.1f s' % seconds)
        self.friend.ends(self.program.patience)

    def judge_friend(self):
        """The session of `b` is the one with which it began, and a change reaches it."""
        self.friend.stands()
        line = self.node.peer('b')
        require((line['sessions'], line['faults'], line['last_end']) == ('1', '0', '-'), "a peer's session", 'does not last:', line)
        self.node.ask('track watched 0 put gpc0 %d' % GREATEST)
        self.friend.gets_row('watched', 0, (GREATEST,), self.program.patience)

    def judge_memory(self):
        first, half, last = self.memory[0], self.memory[len(self.memory) // 2], self.memory[-1]
        times = self.program.patience / USUAL_PATIENCE
        require(last - first <= MOST_GROWTH * times, 'memory', 'grows from %d to %d MiB' % (first, last))
        is_level = len(self.memory) < 6 or last - half <= MOST_LEVEL * times
        require(is_level, 'memory', 'is not level:', [round(each) for each in self.memory])

    def judge_log(self, log):
        """The log has whole lines, and nothing that a peer chose but names where it may say them."""
        all_said(log)
        log = CHOSEN.sub(rb'\1\2\3\4', log)
        for spelling in SPELLINGS:
            require(spelling not in log, 'the log', 'has what a peer chose:', log[max(0, log.find(spelling) - 100):][:300])

    def judge_end(self, complaint):
        """Closes all. Raises what is wrong: the end of the node if a signal or a fault of its own ended it, or the complaint."""
        status, log = self.status(complaint), self.node.said() if self.node.child is not None else b''
        wrongs = self.trial.finish()
        if status is not None and status != 0:
            raise Complaint('signal' if status < 0 else 'status', 'of a node, %d: %r; %s' % (status, log[-600:], complaint))
        if complaint is not None:
            raise complaint
        require(not wrongs, 'a node', 'has ended wrongly:', '; '.join(wrongs))
        self.judge_log(log)

    def status(self, complaint):
        """Returns the status with which the node has ended, if it has. One of whom something is complained gets a moment to end."""
        if self.node.child is None:
            return None
        try:
            return self.node.child.wait(0.2 if complaint else 0)
        except subprocess.TimeoutExpired:
            return None


def as_complaint(wrong):
    """Returns the complaint that a wrong of a trial is. Its kind is the text up to what is shown."""
    text = str(wrong)
    return Complaint(re.sub(r'[^A-Za-z ]+', '', text.split(':')[0].split("'")[0])[:60].strip(), text)


def stood(stand, actor, case):
    """Plays the acts of a case beside a node that stays, and says what is wrong."""
    complaint = None
    try:
        stand.begin()
        for _ in range(case['rounds']):
            for act in case['acts']:
                actor.act(act)
            stand.measure()
        actor.end()
        stand.end()
    except Complaint as found:
        complaint = found
    except Wrong as wrong:
        complaint = as_complaint(wrong)
    except OSError as error:
        complaint = Complaint('a connection', 'fails: %r' % error)
    except BaseException:
        stand.trial.finish()
        raise
    stand.judge_end(complaint)


def random_rounds(random, acts):
    """Returns how often acts are played: mostly once, and now and then often enough to see whether the memory is level."""
    return min(random.choice((1,) * 12 + (6, 20)), max(1, MOST_ACTS // max(1, len(acts))))
