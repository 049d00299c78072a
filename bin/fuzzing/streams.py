"""Random streams: valid ones, message by message, and spoilt ones."""

from fuzzing.received import Learner
from harness.tables import (FIRST_MOMENT, GREATEST, GREATEST_MOMENT, SERVER_KEY, edge, random_key, random_name, random_table,
                            random_values)
from harness.wire import (DEFINITION, LONGEST_DATA, TABLE_CLASS, UPDATE_TYPES, definition_data, encoded, message, name_field,
                          update_data, value_bytes)

LONG, MOST_WITH_LONG_KEYS = 1000, 100
OVER = bytes.fromhex('FFF0FEFEFEFEFEFEFE0F')


def strangers(random, roster):
    """Returns tables that a learner of the roster lacks: mostly like one of its own, but for one thing."""
    made = []
    for _ in range(random.choice((0, 1, 2, 4))):
        like = random.choice(roster)
        other = random_table(random, 0, bytes(random.choice(b'xyz\n ') for _ in range(random.randint(1, 3))))
        what = random.randrange(5)
        if what == 0:
            other = like._replace(name=other.name)
        elif what == 1:
            other = like._replace(kind=other.kind, length=other.length)
        elif what == 2 and like.periods:
            rate, period = like.periods[-1]
            other = like._replace(periods=like.periods[:-1] + ((rate, period - 1 or 2),))
        elif what == 3:
            other = like._replace(types=other.types, periods=other.periods)
        made.append(other)
    return made


def random_moment(random):
    return random.choice((FIRST_MOMENT, FIRST_MOMENT + 5, GREATEST_MOMENT, GREATEST_MOMENT - 40000, random.randint(FIRST_MOMENT, 2 ** 62)))


class Talk:
    """A stream that grows by random messages. Most are steps of the protocol; with `faults` some aren't."""

    def __init__(self, random, roster, faults=0.0):
        self.random = random
        self.tables = roster + strangers(random, roster)
        self.roster = len(roster)
        self.state = Learner(self.tables, self.roster, FIRST_MOMENT)
        self.faults = faults
        # How often the table changes: mostly seldom, and now and then so often that several are acknowledged at once.
        self.changes = random.choice((0.02, 0.02, 0.15))
        self.ids = [table.id for table in roster] + random.sample(range(1, 300), 3) + [GREATEST]
        many = random.random() < 0.1
        self.keys = [[random_key(random, table) for _ in range(2000 if many else 30)] for table in self.tables]
        self.values = [[random_values(random, table) for _ in range(30)] for table in self.tables]
        self.names = [random_name(random) if random.random() < 0.9 else bytes(random.randint(1, 255) for _ in range(random.randint(1, 9)))
                      for _ in range(random.choice((2, 20, 200)))]
        self.messages = []

    def begin_again(self):
        """Begins another stream of the same tables, keys and names."""
        self.state = Learner(self.tables, self.roster, FIRST_MOMENT)
        self.messages = []
        return self

    def grow(self, count):
        """Adds messages, up to `count` of them in all or a fault; fewer if keys may be very long."""
        most = count if all(table.length < LONG for table in self.tables) else min(count, MOST_WITH_LONG_KEYS)
        while len(self.messages) < most and self.goes_on():
            self.add(self.next())
        return self

    def goes_on(self):
        return self.state.fault is None and self.state.sure

    def add(self, said):
        self.messages.append(said)
        self.state.take(said)

    def tour(self):
        """Adds an update of each local table, so that several are acknowledged at once."""
        for at in self.random.sample(range(self.roster), self.roster):
            if self.goes_on():
                self.add(('define', at, self.tables[at].id, self.tables[at].expire))
                self.add(self.an_update())

    def next(self):
        chance = self.random.random()
        if self.state.selected is None or chance < self.changes:
            return self.a_definition()
        if chance > 1 - 2 * self.changes:
            return 'switch', self.random.choice(list(self.state.defined))
        if chance < self.changes + 0.03:
            return self.another()
        if chance < self.changes + 0.03 + self.faults:
            return self.a_fault()
        return self.an_update()

    def a_definition(self):
        at = self.random.randrange(len(self.tables))
        identifier = self.random.choice(self.ids)
        if at < self.roster and self.random.random() < 0.7:
            identifier = self.tables[at].id
        expire = self.tables[at].expire if self.random.random() < 0.5 else edge(self.random, GREATEST)
        return 'define', at, identifier, expire

    def another(self):
        random = self.random
        data = bytes(random.getrandbits(8) for _ in range(random.choice((0, 1, 3, 300)) if random.random() < 0.2 else 2))
        return random.choice((
            ('other', 0, random.randrange(5), b''), ('other', 1, random.randrange(2), b''), ('other', 0, random.randrange(5, 128), b''),
            ('other', random.choice((0, 1, 9, 11, 255)), random.randrange(128, 256), data),
            ('other', TABLE_CLASS, random.choice((0, 127, 135, 255)), data),
            ('other', TABLE_CLASS, 132, encoded(edge(random, 2 ** 64 - 1)) + edge(random, GREATEST).to_bytes(4, 'big'))))

    def an_update(self):
        random, state = self.random, self.state
        at = state.defined[state.selected]
        number = None
        if state.selected not in state.last or random.random() < 0.15:
            number = edge(random, GREATEST)
        life = None if random.random() < 0.1 else random.choice((30000, 30000, 20000, 0, 1, GREATEST)) if random.random() < 0.9 else edge(random, GREATEST)
        table = self.tables[at]
        name = self.a_name() if SERVER_KEY in table.types else None
        values = random.choice(self.values[at]) if random.random() < 0.8 else random_values(random, table)
        return 'update', at, number, life, random.choice(self.keys[at]), values, name

    def a_name(self):
        random = self.random
        chance = random.random()
        if chance < 0.1:
            return ('none',)
        if chance < 0.5 and self.state.slots:
            slot = random.randrange(1, 129)
            if slot in self.state.slots:
                return 'read', slot
        return 'write', random.choice((1, 2, 127, 128, random.randrange(1, 129))), random.choice(self.names)

    def a_fault(self):
        """Returns a message with a known fault, or bytes of which nothing is known that have the length they claim."""
        random, state = self.random, self.state
        what = random.randrange(8)
        at = state.defined[state.selected]
        table = self.tables[at]
        update = self.an_update()
        data = update_data(table, *update[2:])
        kind = UPDATE_TYPES[update[2] is not None, update[3] is not None]
        if what == 0:
            return 'switch', random.randrange(1, 2 ** 32)
        if what == 1:
            return 'update', at, None, 5, update[4], update[5], update[6] and ('read', random.randrange(1, 129))
        if what == 2:
            return 'breach', at, 'Trailing', message(TABLE_CLASS, kind, data + b'\0' * random.choice((1, 1, 5)))
        if what == 3 and data:
            head = len(data) - len(value_bytes(update[5])) - (len(name_field(update[6])) if update[6] else 0)
            cut = random.randrange(len(data))
            return 'breach', at, 'BadKey' if cut < head else 'BadValue', message(TABLE_CLASS, kind, data[:cut])
        if what == 4:
            return 'breach', None, 'SizeLimit', bytes((random.randrange(256), random.randrange(128, 256))) + encoded(
                random.choice((LONGEST_DATA + 1, 2 ** 32, 2 ** 64 - 1)))
        if what == 5:
            whole = definition_data(table, 5, 30000)
            return random.choice((
                ('breach', None, 'BadDefinition', message(TABLE_CLASS, DEFINITION, whole[:random.randrange(len(whole))])),
                ('breach', None, 'Trailing', message(TABLE_CLASS, DEFINITION, whole + b'\1')),
                ('breach', None, 'BadDefinition', message(TABLE_CLASS, DEFINITION, definition_data(table, 0, 30000)))))
        if what == 6:
            return 'breach', None, 'BadInteger', random.choice((
                message(TABLE_CLASS, 131, OVER), message(TABLE_CLASS, 131, b''), message(TABLE_CLASS, 132, b'\1\0\0\0'), b'\x0A\x85' + OVER))
        spoilt = bytearray(data)
        for _ in range(random.randint(1, 3)):
            spoilt[random.randrange(len(spoilt))] = random.choice((0, 1, 127, 128, 240, 255, random.getrandbits(8)))
        return 'raw', message(TABLE_CLASS, kind, bytes(spoilt))


def spoilt(random, pieces):
    """Spoils a stream that is given message by message. Returns the pieces, and how many of them come before the first spoilt one."""
    pieces = list(pieces)
    first = len(pieces)
    for _ in range(random.choice((1, 1, 1, 2, 5))):
        at = random.randrange(len(pieces))
        piece = bytearray(pieces[at])
        what = random.randrange(8)
        if what == 0 and piece:
            piece[random.randrange(len(piece))] = random.getrandbits(8)
        elif what == 1 and piece:
            piece[random.randrange(len(piece))] ^= 1 << random.randrange(8)
        elif what == 2 and piece:
            del piece[random.randrange(len(piece))]
        elif what == 3:
            piece.insert(random.randint(0, len(piece)), random.choice((0, 1, 10, 128, 240, 255, random.getrandbits(8))))
        elif what == 4:
            piece += pieces[random.randrange(len(pieces))]
        elif what == 5:
            del pieces[at + 1:at + 1 + random.randint(1, 5)]
        elif what == 6 and len(piece) > 2:
            piece[2] = random.choice((piece[2] + 1 & 255, piece[2] - 1 & 255, 0, 239, 240, 255))
        elif what == 7:
            del piece[random.randint(0, len(piece)):]
            if random.random() < 0.5:
                del pieces[at + 1:]
        pieces[at] = bytes(piece)
        first = min(first, at)
    return pieces, first


def cut(random, stream, most=20):
    """Returns a stream in pieces."""
    if random.random() < 0.1 and len(stream) < 3000:
        return [stream[at:at + 1] for at in range(len(stream))]
    places = sorted(random.sample(range(1, len(stream)), min(len(stream) - 1, random.randint(1, most)))) if len(stream) > 1 else []
    return [stream[begin:end] for begin, end in zip([0] + places, places + [len(stream)])]


def with_other_expires(random, tables, messages):
    """Returns the messages with another expire in each definition."""
    return [said[:3] + (edge(random, GREATEST),) if said[0] == 'define' else said for said in messages]
