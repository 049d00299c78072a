"""Connections at the doors of a node that stays: hellos that are refused, cut, slow or many (docs/FORMATS.md, section 8).

  hello BYTES                 a connection, what it says, and the status that answers it
  leave BYTES                 says it and leaves at once
  hold COUNT BYTES            connections that say it and then nothing, and stay
  drip COUNT BYTES            connections that say it one byte after another
  burst COUNT BYTES           connections at once, all of which say it and wait for the status
  come                        the peer `c` comes, and is taken"""

import re
import socket
import time

from fuzzing.guests import HELLO
from fuzzing.sessions import ACCEPTED
from fuzzing.standing import MARK, NAME, Stand, random_local_roster, random_rounds, stood
from harness.far import kept_open
from harness.program import require
from harness.tables import Table
from harness.wire import OLDER_VERSION, VERSION, hello

PEERS = (b'b', b'c', b'd')
LONGEST_LINE = 512
THIRD = re.compile(rb'([^ \0]{1,255}) [0-9]+ [0-9]+', re.DOTALL)


def status_for(said):
    """Returns the status that answers the bytes of a hello, or nothing while it isn't whole."""
    lines: list[bytes] = []
    while len(lines) < 3:
        line, end, said = said.partition(b'\n')
        if len(line) > LONGEST_LINE:
            return b'501\n'
        if not end:
            return b''
        lines.append(line[:-1] if line.endswith(b'\r') else line)
    third = THIRD.fullmatch(lines[2])
    if not lines[0].startswith(b'HAProxyS ') or not third:
        return b'501\n'
    if lines[0] not in (VERSION, OLDER_VERSION):
        return b'502\n'
    if lines[1] != NAME:
        return b'503\n'
    return ACCEPTED if third[1] in PEERS else b'504\n'


def is_status(came, wanted):
    """Whether bytes are a status. Messages may follow the one of a hello that is accepted."""
    return bool(wanted) and (came == wanted or wanted == ACCEPTED and came.startswith(ACCEPTED))


def least_answered(wanted):
    """Returns how many of several connections at once that say the same hello have to be answered. A door closes its connection for another
    one while no door is free, as one that says its hello late under load finds out; but some connection always stays."""
    return 1 if wanted else 0


# --- Random cases

def hostile_hello(random):
    """Returns the bytes of a hello that no peer says, or says so."""
    what = random.randrange(8)
    if what == 0:
        return hello(NAME.decode(), (MARK + b'%d' % random.randrange(9)).decode())
    if what == 1:
        return random.choice((HELLO, HELLO.replace(b'\n', b'\r\n'), hello('n', 'n'), hello(MARK.decode(), 'c'), hello('n', 'c', OLDER_VERSION),
                              hello('n', 'c', b'HAProxyS 2.1 '), hello('n', 'c', b'HAProxyX 2.1'), b'HAProxyS 2.1\nn\nc 1\n',
                              b'HAProxyS 2.1\nn\nc  1 1\n', b'HAProxyS 2.1\nn\nc 1 1 1\n', b'HAProxyS 2.1\nn\nc %s 1\n' % (b'9' * 300)))
    if what == 2:
        return MARK + bytes(random.getrandbits(8) for _ in range(random.choice((0, 1, 50, 600))))
    if what == 3:
        return random.choice((MARK, MARK + b'\n', HELLO[:-1])) * random.choice((1, 60, 64, 65, 1000))
    if what == 4:
        return HELLO[:random.randrange(len(HELLO))]
    if what == 5:
        return random.choice((b'\n\n\n', b'\r\n\r\n\r\n', b'\0' * 600, b'GET /%s HTTP/1.1\r\nHost: n\r\n\r\n' % MARK, b'\x16\x03\x01\x02\x00' + MARK))
    if what == 6:
        return hello(NAME.decode(), random.choice(('n' * 255, 'n' * 256, '\x7f', 'c\r', '\xe9'))) + MARK
    spoilt = bytearray(HELLO)
    spoilt[random.randrange(len(HELLO))] = random.getrandbits(8)
    return bytes(spoilt)


def random_act(random):
    what = random.randrange(9)
    if what < 3:
        return 'hello', hostile_hello(random)
    if what == 3:
        return 'leave', random.choice((hello('n', 'b'), HELLO, hostile_hello(random)))
    if what == 4:
        return 'hold', random.choice((1, 4, 5, 20)), random.choice((b'', HELLO[:7], HELLO[:-1]))
    if what == 5:
        return 'drip', random.choice((1, 4, 8)), random.choice((HELLO, MARK * 5))[:random.choice((3, 30))]
    if what == 6:
        return ('come',)
    return 'burst', random.choice((2, 8, 40)), hostile_hello(random)


def make(random):
    acts = [random_act(random) for _ in range(random.choice((1, 3, 8)))]
    return {'tables': random_local_roster(random, 2), 'acts': acts, 'rounds': random_rounds(random, acts)}


# --- Those who come

class Stranger:
    """Whoever comes to the doors of a node."""

    def __init__(self, stand):
        self.stand, self.limit = stand, stand.program.patience

    def act(self, act):
        getattr(self, act[0])(*act[1:])

    def end(self):
        """However the doors were disturbed, the peer `c` is taken."""
        self.come()

    def come(self):
        self.hello(HELLO)

    def opened(self, said):
        """Returns a connection that has said something."""
        peer = self.stand.trial.closes(kept_open(self.stand.at()))
        try:
            peer.sendall(said)
        except OSError:
            pass
        return peer

    def answer(self, peer, seconds):
        """Returns what comes on a connection up to the end of a line, or of the connection, and whether that came in time."""
        came, latest = b'', time.monotonic() + seconds
        try:
            while b'\n' not in came:
                peer.settimeout(max(0.001, latest - time.monotonic()))
                data = peer.recv(1 << 16)
                if not data:
                    break
                came += data
        except socket.timeout:
            return came, False
        except OSError:
            pass
        return came, True

    def hello(self, said):
        """Says a hello. What isn't whole is left after a moment."""
        wanted = status_for(said)
        peer = self.opened(said)
        came, in_time = self.answer(peer, self.limit if wanted else 0.05)
        if wanted:
            require(in_time, 'slow', 'a hello is not answered in %g s:' % self.limit, said)
            self.judge(came, wanted, said)
        else:
            require(not came, 'a status', 'of a hello that is not whole:', came, said)
        peer.close()

    def judge(self, came, wanted, said):
        """The status is the right one, also if the connection is closed with bytes unread: the kernel keeps what came before the reset."""
        require(is_status(came, wanted), 'a status', 'is not %r:' % wanted, came, said)

    def leave(self, said):
        self.opened(said).close()

    def hold(self, count, said):
        for _ in range(count):
            self.opened(said)

    def drip(self, count, said):
        peers = [self.opened(b'') for _ in range(count)]
        for at in range(len(said)):
            for peer in peers:
                try:
                    peer.send(said[at:at + 1])
                except OSError:
                    continue
            time.sleep(0.02)
            if at == len(said) // 2:
                self.come()
        for peer in peers:
            peer.close()

    def burst(self, count, said):
        """Connections at once. Enough of them get their status; the others may be closed without one."""
        wanted = status_for(said)
        peers = [self.opened(said) for _ in range(count)]
        statuses = [self.burst_status(peer, wanted, said) for peer in peers]
        least = least_answered(wanted)
        require(len(statuses) - statuses.count(b'') >= least, 'statuses', 'of %d hellos at once are fewer than %d:' % (count, least), statuses, said)

    def burst_status(self, peer, wanted, said):
        """Returns the status of one of several hellos, or nothing if its connection is closed without one or the hello isn't whole."""
        came, in_time = self.answer(peer, self.limit if wanted else 0.001)
        peer.close()
        require(in_time or not wanted, 'slow', 'one of several hellos is not answered in %g s:' % self.limit, said)
        require(not came or is_status(came, wanted), 'a status', 'of one of several hellos is not %r:' % wanted, came, said)
        return came


def judge(program, case):
    stand = Stand(program, [Table(*table) for table in case['tables']])
    stood(stand, Stranger(stand), dict(case, acts=[tuple(act) for act in case['acts']]))
