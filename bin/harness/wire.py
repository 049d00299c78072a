"""The wire, read and written: encoded integers, messages, hellos, definitions and updates (docs/FORMATS.md, sections 1 to 5 and 8)."""

from collections import namedtuple

from harness.tables import KINDS, LENGTHS, RATES, SERVER_KEY, TYPES, Table, counted

UPDATE_TYPES = {(True, False): 128, (False, False): 129, (True, True): 133, (False, True): 134}
DEFINITION, SWITCH, ACKNOWLEDGEMENT = 130, 131, 132
UPDATES = frozenset(UPDATE_TYPES.values())
TABLE_CLASS = 10
LONGEST_DATA = 16384
REQUEST, FINISHED, PARTIAL, CONFIRMED, HEARTBEAT = (bytes((0, at)) for at in range(5))
PROTOCOL_ERROR, SIZE_LIMIT = b'\1\0', b'\1\1'
VERSION, OLDER_VERSION = b'HAProxyS 2.1', b'HAProxyS 2.0'
NUMBERED, TIMED = (128, 133), (133, 134)
KIND_NAMES = {number: name for name, number in KINDS.items()}

# `table` is the table's definition, and `id` the sender's id for it. `life` and `name` may be None.
Update = namedtuple('Update', 'id table number life key values name')


# --- Messages

def encoded(number):
    """Returns the encoding of a number."""
    if number < 240:
        return bytes((number,))
    spelling = bytearray((240 | number & 15,))
    rest = (number - 240) >> 4
    while rest >= 128:
        spelling.append(rest & 127 | 128)
        rest = (rest - 128) >> 7
    spelling.append(rest)
    return bytes(spelling)


def decoded(data, place):
    """Returns the number that is encoded at a place and the place after it, or None if the bytes end before it does."""
    if place >= len(data):
        return None
    number = data[place]
    place += 1
    if number < 240:
        return number, place
    shift = 4
    while place < len(data):
        byte = data[place]
        place += 1
        number += byte << shift
        shift += 7
        if byte < 128:
            return number, place
        if shift > 67:
            return None
    return None


def message(class_byte, type_byte, data=b''):
    """Returns the bytes of a message; below type 128 it has no data."""
    if type_byte < 128:
        return bytes((class_byte, type_byte))
    return bytes((class_byte, type_byte)) + encoded(len(data)) + data


def acknowledgement(identifier, number):
    return message(TABLE_CLASS, ACKNOWLEDGEMENT, encoded(identifier) + number.to_bytes(4, 'big'))


def framed(stream):
    """Yields (place, class, type, data) of each whole message, up to the first that isn't whole or is too long; the place is behind it."""
    place = 0
    while place + 2 <= len(stream):
        class_byte, type_byte = stream[place], stream[place + 1]
        after, data = place + 2, b''
        if type_byte >= 128:
            length = decoded(stream, after)
            if length is None or length[0] > LONGEST_DATA or length[1] + length[0] > len(stream):
                return
            after = length[1] + length[0]
            data = stream[length[1]:after]
        yield after, class_byte, type_byte, data
        place = after


def hello(to, name, version=VERSION, pid=1):
    return b'%s\n%s\n%s %d 1\n' % (version, to.encode(), name.encode(), pid)


# --- Definitions and updates, written

def definition_data(table, identifier, expire):
    """Returns the data of the table's definition under an id and with an expire."""
    bits = sum(1 << at for at in table.types)
    fields = [encoded(identifier), encoded(len(table.name)), table.name, encoded(KINDS[table.kind]), encoded(table.length),
              encoded(bits), encoded(expire)]
    for at, period in table.periods:
        fields += (encoded(at), encoded(period))
    return b''.join(fields)


def key_bytes(table, key):
    return encoded(len(key)) + key if table.kind == 'string' else key


def value_bytes(values):
    return b''.join([encoded(value) if isinstance(value, int) else b''.join(map(encoded, value)) for value in values])


def name_field(name):
    if name[0] == 'none':
        return b'\0'
    data = encoded(name[1])
    if name[0] == 'write':
        data += encoded(len(name[2])) + name[2]
    return encoded(len(data)) + data


def update_data(table, number, life, key, values, name):
    fields = [key_bytes(table, key), value_bytes(values)]
    if life is not None:
        fields.insert(0, life.to_bytes(4, 'big'))
    if number is not None:
        fields.insert(0, number.to_bytes(4, 'big'))
    if name is not None:
        fields.append(name_field(name))
    return b''.join(fields)


def table(identifier, name, kind='integer', types=('gpc0',), expire=0, length=None, periods=()):
    """Returns a table. Types are given by their names, and periods in the order of the rates among them."""
    ids = tuple(sorted(TYPES.index(word) for word in types))
    rates = [at for at in ids if at in RATES]
    return Table(identifier, name.encode(), kind, length or LENGTHS.get(kind, 33), expire, ids, tuple(zip(rates, periods)))


def definition(of):
    """Returns the message that defines a table."""
    return message(TABLE_CLASS, DEFINITION, definition_data(of, of.id, of.expire))


def update(of, number, key, values, life=None, name=None):
    """Returns an update's message. A number stands for its key of 4 bytes. `name` is as `name_field` takes it."""
    key = key.to_bytes(4, 'big') if isinstance(key, int) else key
    kind = UPDATE_TYPES[number is not None, life is not None]
    return message(TABLE_CLASS, kind, update_data(of, number, life, key, values, name))


def switch(identifier):
    return message(TABLE_CLASS, SWITCH, encoded(identifier))


# --- Definitions and updates, read

class Misread(Exception):
    """A message of a table that isn't one by the format."""


class Data:
    """The data of a message, read field by field."""

    def __init__(self, data):
        self.data = data
        self.place = 0

    def number(self):
        found = decoded(self.data, self.place)
        if found is None:
            raise Misread('a number ends early in ' + self.data.hex())
        value, self.place = found
        return value

    def bytes(self, count):
        taken = self.data[self.place:self.place + count]
        if len(taken) < count:
            raise Misread('data ends early: ' + self.data.hex())
        self.place += count
        return taken

    def four(self):
        return int.from_bytes(self.bytes(4), 'big')

    def end(self):
        if self.place != len(self.data):
            raise Misread('bytes are left: ' + self.data.hex())


def read_definition(data):
    """Returns the table that a definition's data says."""
    fields = Data(data)
    identifier = fields.number()
    name = fields.bytes(fields.number())
    kind, length, bits, expire = [fields.number() for _ in range(4)]
    types = tuple(at for at in range(64) if bits >> at & 1)
    if kind not in KIND_NAMES or any(at >= len(TYPES) for at in types):
        raise Misread('a definition outside the profile: ' + data.hex())
    periods = tuple((fields.number(), fields.number()) for at in types if at in RATES)
    fields.end()
    return Table(identifier, name, KIND_NAMES[kind], length, expire, types, periods)


def read_values(fields, table):
    """Returns the values of an update: a number, or the three numbers of a rate, for each type but the server's name."""
    return tuple(tuple(fields.number() for _ in range(3)) if at in RATES else fields.number() for at in counted(table))


class Lessons:
    """What a learner knows of the messages that it gets: the tables by the sender's ids, the numbers, and the names in the slots."""

    def __init__(self):
        self.tables = {}
        self.selected = None
        self.last = {}
        self.slots = {}

    def take(self, type_byte, data):
        """Takes a message in, and returns the update that it carries, if it is one."""
        if type_byte == DEFINITION:
            table = read_definition(data)
            self.tables[table.id] = table
            self.selected = table.id
        elif type_byte == SWITCH:
            fields = Data(data)
            self.selected = fields.number()
            fields.end()
            if self.selected not in self.tables:
                raise Misread('a switch to no table: %d' % self.selected)
        elif type_byte in UPDATES:
            return self.read_update(type_byte, Data(data))
        return None

    def read_update(self, type_byte, fields):
        if self.selected is None:
            raise Misread('an update of no table')
        table = self.tables[self.selected]
        if type_byte in NUMBERED:
            number = fields.four()
        elif table.id in self.last:
            number = self.last[table.id] + 1 & 0xFFFFFFFF
        else:
            raise Misread('an update without a first number')
        life = fields.four() if type_byte in TIMED else None
        key = fields.bytes(fields.number() if table.kind == 'string' else LENGTHS.get(table.kind, table.length))
        values = read_values(fields, table)
        name = self.read_name(fields) if SERVER_KEY in table.types else None
        fields.end()
        self.last[table.id] = number
        return Update(table.id, table, number, life, key, values, name)

    def read_name(self, fields):
        inside = Data(fields.bytes(fields.number()))
        if not inside.data:
            return None
        slot = inside.number()
        if inside.place == len(inside.data):
            if slot not in self.slots:
                raise Misread('a name of the empty slot %d' % slot)
            return self.slots[slot]
        self.slots[slot] = inside.bytes(inside.number())
        inside.end()
        return self.slots[slot]


class Heard:
    """What came on a connection, whole message by whole message: the acknowledgements, as pairs of an id and a number, and updates."""

    def __init__(self):
        self.lessons, self.left = Lessons(), b''
        self.acks: list[tuple[int, int]] = []

    def hear(self, data):
        """Looks at each whole message, and keeps what is left."""
        messages = list(framed(self.left + data))
        self.left = (self.left + data)[messages[-1][0] if messages else 0:]
        for _, class_byte, type_byte, content in messages:
            if (class_byte, type_byte) == (TABLE_CLASS, ACKNOWLEDGEMENT):
                fields = Data(content)
                self.acks.append((fields.number(), fields.four()))
                fields.end()
            self.look_at(class_byte, type_byte, content)

    def look_at(self, class_byte, type_byte, data):
        """Does with a message what the connection is for."""
