"""Sessions with a node that stays: as the peer `c`, which connects to it, or as `d`, to which it connects (docs/FORMATS.md, section 9).

The acts are those of `sessions.py`, and these:

  away HOW       ends the connection; the next act begins another
  again          connects once more while the connection stands
  repeat         sends all that was sent once more
  echo           sends back what the node taught
  drip BYTES     one byte after another, with a wait behind each
  beat           a heartbeat"""

import re
import socket
import time

from fuzzing.received import Learner, spelled
from fuzzing.rows import learner_scene, read_learned, read_rows
from fuzzing.sessions import ACCEPTED, IMPATIENT, Far, hostile_act, random_hello, sound_acts, without_rates
from fuzzing.standing import MARK, NAME, WATCHED, Stand, random_local_roster, random_rounds, stood
from fuzzing.streams import Talk
from harness.far import kept_open
from harness.program import require
from harness.tables import FIRST_MOMENT, Table
from harness.wire import HEARTBEAT, UPDATES, framed, hello

HELLO = hello(NAME.decode(), 'c')
ITS_HELLO = re.compile(rb'HAProxyS 2\.1\nd\nn [0-9]+ [0-9]+\n')
MOST_BYTES = 1 << 20
# So many bytes of a stream are read at once, together with the numbers that are added to them.
AT_ONCE = 1000


# --- Random cases

def marked(talk):
    """Has a talk use names and keys that can be looked for."""
    own = {table.name for table in talk.tables[:talk.roster]}
    talk.tables = [table if table.name in own else table._replace(name=MARK + table.name) for table in talk.tables]
    talk.names += [MARK, MARK + b'\n' + MARK]
    for table, keys in zip(talk.tables, talk.keys):
        if table.kind == 'string' and table.length > len(MARK):
            keys.append(MARK)
        elif table.kind in ('binary', 'ipv6') and table.length >= len(MARK):
            keys.append(MARK.ljust(table.length, b'\n'))
    return talk.begin_again()


def sound_visits(random, talk, times):
    """Returns the acts of a peer that keeps to the protocol, over so many connections."""
    acts = []
    for _ in range(times):
        acts += sound_acts(random, talk.begin_again()) + [('away', 'end')]
    return acts[:-1]


def spliced(random, talk):
    """Returns the beginning of a stream, and behind it another one from anywhere on."""
    one, other = (b''.join(spelled(said, talk.tables) for said in talk.begin_again().grow(random.choice((3, 30))).messages) for _ in '12')
    return one[:random.randint(0, len(one))] + other[random.randint(0, len(other)):]


def disturbing_act(random, talk):
    """Returns an act that no peer of a node that stays does."""
    what = random.randrange(16)
    if what == 0:
        return 'away', random.choice(('end', 'leave', 'reset'))
    if what == 1:
        return random.choice((('again',), ('beat',), ('echo',)))
    if what == 2:
        return ('repeat',)
    if what == 3:
        return 'send', spliced(random, talk)
    if what == 4:
        stream = b''.join(spelled(said, talk.tables) for said in talk.begin_again().grow(random.choice((3, 30, 300))).messages)
        return 'flood', stream, min(random.choice((1, 20, 2000)), max(1, MOST_BYTES // (1 + len(stream))))
    if what == 5:
        return 'drip', spliced(random, talk)[:random.choice((1, 10, 60))]
    if what == 6:
        return 'send', MARK + bytes(random.getrandbits(8) for _ in range(random.choice((1, 300)))) + MARK
    return hostile_act(random, talk)


def make(random):
    sound = random.random() < 0.4
    talk = marked(Talk(random, random_local_roster(random)))
    role = random.choice(('accept', 'accept', 'connect'))
    acts, more = [], []
    if sound:
        acts = sound_visits(random, talk, 1 if role == 'connect' else random.choice((1, 1, 2, 3)))
    else:
        acts = sound_acts(random, talk) if random.random() < 0.3 else []
        acts += [disturbing_act(random, talk) for _ in range(random.choice((1, 2, 5, 10)))]
        more = ['size %d %d' % (table.id, random.choice((1, 10, 1000))) for table in talk.tables[:talk.roster]]
    status = random_hello(random, 'join') if role == 'connect' and not sound and random.random() < 0.2 else ACCEPTED
    return {'tables': talk.tables, 'roster': talk.roster, 'more': more, 'role': role, 'status': status, 'acts': acts, 'sound': sound,
            'rounds': 1 if sound or role == 'connect' else random_rounds(random, acts)}


# --- The peer

class Guest(Far):
    """One end of a connection with a node that stays."""

    def look_at(self, class_byte, type_byte, data):
        if (class_byte, type_byte) != (0, 4):
            super().look_at(class_byte, type_byte, data)
        else:
            require(self.errors == 0, 'a message', 'after an error message', type_byte)

    def greeted(self, status):
        """Waits for the status that answers its hello. Behind it messages begin."""
        require(self.pump(until=lambda: b'\n' in self.came), 'slow', 'no status of a node that stays')
        require(self.came.startswith(status), 'a status', '', bytes(self.came[:30]))
        self.expect_messages(len(status))
        self.sent.clear()

    def sync(self, pieces):
        """As a sync of any session does. What is read at once is acknowledged once for each table, in ascending order."""
        before, due = len(self.acks), self.learner.acks()
        is_small, is_sound = pieces == 1 and len(self.said) <= AT_ONCE and not self.is_behind, self.patience != IMPATIENT
        super().sync(pieces)
        if is_small and is_sound:
            self.in_time(lambda: len(self.acks) - before >= len(due), 'an acknowledgement', lambda: (due, self.acks[before:]))
            require(self.acks[before:] == due, 'acknowledgements', 'are other than one for each table:', self.acks[before:], due)
            self.is_behind = self.is_behind and not due
        self.acknowledge()

    def repeat(self):
        if len(self.sent) <= MOST_BYTES:
            self.pump(bytes(self.sent))

    def echo(self):
        self.pump(bytes(self.taught))

    def beat(self):
        self.pump(HEARTBEAT)

    def close(self):
        self.peer.close()

    def drip(self, data):
        for at in range(len(data)):
            self.pump(data[at:at + 1])
            self.pump(until=lambda: False, seconds=0.005)


class Visitor:
    """A peer of a node that stays: it connects, or is connected to, as often as its acts need it. `has_asked` is whether its last
    act asked for a resync."""

    def __init__(self, stand, case, listener):
        self.stand, self.case, self.listener = stand, case, listener
        self.tables = [Table(*table) for table in case['tables']]
        self.rows, self.guest, self.guests = {}, None, []
        self.has_asked = False

    def act(self, act):
        self.has_asked = False
        if act[0] == 'away':
            self.leave(act[1])
            return
        if act[0] == 'again':
            self.guest = None
        if self.guest is None or self.guest.is_over:
            self.visit()
        if self.guest is not None and act[0] != 'again':
            self.has_asked = act[0] == 'ask' and not self.guest.is_over
            self.guest.act(act)

    def visit(self):
        """Begins another connection. A node connects again too late for a case."""
        if self.listener is None:
            peer = kept_open(self.stand.at())
        elif self.guests:
            return
        else:
            peer = self.listener.accept()[0]
        learner = Learner(self.tables, self.case['roster'], FIRST_MOMENT)
        learner.rows = self.rows
        self.guest = self.stand.trial.closes(Guest(peer, self.stand.program.patience, learner))
        self.guests.append(self.guest)
        self.stand.program.sessions += 1
        self.greet()
        if not self.case['sound']:
            self.guest.patience = IMPATIENT

    def greet(self):
        guest = self.guest
        if self.listener is None:
            guest.pump(HELLO)
            guest.greeted(ACCEPTED)
        else:
            require(guest.pump(until=lambda: guest.came.count(b'\n') >= 3), 'slow', 'no hello of a node that stays')
            require(ITS_HELLO.match(bytes(guest.came)), 'a hello', '', bytes(guest.came))
            guest.expect_messages()
            guest.pump(self.case['status'])
            guest.sent.clear()

    def leave(self, how):
        """Ends the connection, if there is one."""
        if self.guest is not None and not self.guest.is_over:
            self.guest.pump(self.guest.said)
            self.guest.said = b''
            self.guest.end(how)
            self.guest.is_over = True

    def end(self):
        """Judges what sound sessions came to."""
        if all(guest.learner.fault is None and guest.learner.sure for guest in self.guests) and self.case['sound'] and self.guests:
            self.catch_up()
            self.judge_acks()
            self.judge_rows()
        if not self.case['sound'] and self.guest is not None and self.case['rounds'] > 1:
            self.leave('leave')

    def catch_up(self):
        """Waits until the node has read all, if it may not have: the end of a resync comes after that."""
        guest = self.guest
        if not guest.is_over and (guest.said or guest.is_behind):
            guest.pump(guest.said)
            guest.said = b''
            guest.ask()
            self.has_asked = True

    def judge_acks(self):
        for guest in self.guests:
            carried = sum(1 for _, class_byte, type_byte, _ in framed(bytes(guest.sent)) if class_byte == 10 and type_byte in UPDATES)
            require(len(guest.acks) <= carried, 'acknowledgements', 'are more than updates', len(guest.acks), carried)

    def judge_rows(self):
        """The node has the rows that the sessions taught it, and the last resync taught all of them. Rows may have ended."""
        stand = self.stand
        roster = self.tables[:self.case['roster']]
        latest = int(stand.node.head()['moment'])
        lines = [line.encode() for line in stand.node.ask('show rows')]
        shown = {place: row for place, row in read_rows(lines, roster + [WATCHED], latest).items() if place[0] != WATCHED.id}
        lived = 1000 * (time.monotonic() - stand.begun) + 100
        every = Learner(roster, len(roster), latest)
        every.rows = self.rows
        wanted = read_learned(every.printed(), roster, latest)[0]
        ended = self.ended(roster, lived)
        self.judge_same('rows', without_rates(shown, roster), without_rates(wanted, roster), ended)
        if self.has_asked:
            back = stand.program.read('learn', learner_scene(roster, FIRST_MOMENT, [bytes(self.guest.taught)]))
            taught = read_learned(back.output, roster, FIRST_MOMENT)[0]
            taught = {place: row for place, row in taught.items() if place not in ended}
            self.judge_same('a resync', without_rates(taught, roster), without_rates(wanted, roster), ended)

    def ended(self, roster, lived):
        """Returns the places of the rows that may have ended by now."""
        found = set()
        for (at, key), (life, _, _) in self.rows.items():
            table = next(table for table in roster if table.id == at)
            if table.expire and min(table.expire if life is None else life, table.expire) <= lived:
                word = Learner([table], 1, FIRST_MOMENT).row_line(table, key, life, self.rows[at, key][1], self.rows[at, key][2])
                found |= set(read_rows([word], [table], FIRST_MOMENT))
        return found

    def judge_same(self, what, shown, wanted, ended):
        """Requires two sets of rows to be the same but for those that may have ended."""
        missing = {place: row for place, row in wanted.items() if place not in ended and shown.get(place) != row}
        strange = {place: row for place, row in shown.items() if wanted.get(place) != row}
        require(not missing and not strange, what, 'of a node that stays are not those of its updates:', missing, strange)


def judge(program, case):
    roster = [Table(*table) for table in case['tables'][:case['roster']]]
    case = dict(case, acts=[tuple(act) for act in case['acts']])
    with socket.socket() as listener:
        if case['role'] == 'connect':
            listener.bind(('127.0.0.1', 0))
            listener.listen()
            listener.settimeout(program.patience)
        door = listener.getsockname()[1] if case['role'] == 'connect' else None
        stand = Stand(program, roster, case['more'], door)
        stood(stand, Visitor(stand, case, listener if door else None), case)
