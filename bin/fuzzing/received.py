"""What a stream says: the state that its messages make, the faults, and a learner's rows (docs/FORMATS.md, sections 5 and 7).

Messages are tuples. Tables are given by their place in a list of the case, of which the first ones are the roster.

  define TABLE ID EXPIRE                           a definition of the table under an id
  switch ID
  update TABLE NUMBER LIFE KEY VALUES NAME         NUMBER and LIFE may be None; NAME is None if the table stores none, and otherwise
                                                   none, write SLOT NAME, or read SLOT
  other CLASS TYPE DATA                            a message that changes nothing
  breach TABLE FAULT BYTES                         bytes that have this fault once TABLE, unless it is None, is selected
  raw BYTES                                        bytes of which nothing is known
"""

from harness.tables import GREATEST_MOMENT, has_names, key_word, name_word, shape, value_words
from harness.wire import DEFINITION, TABLE_CLASS, UPDATE_TYPES, definition_data, message, switch, update_data


def spelled(said, tables):
    """Returns the bytes of a message."""
    what = said[0]
    if what == 'update':
        _, at, number, life, key, values, name = said
        kind = UPDATE_TYPES[number is not None, life is not None]
        return message(TABLE_CLASS, kind, update_data(tables[at], number, life, key, values, name))
    if what == 'define':
        return message(TABLE_CLASS, DEFINITION, definition_data(tables[said[1]], said[2], said[3]))
    if what == 'switch':
        return switch(said[1])
    if what == 'other':
        return message(said[1], said[2], said[3])
    return said[3] if what == 'breach' else said[1]


class Received:
    """The state that the messages make, up to the first fault. Once `sure` is false, nothing more is known of it."""

    def __init__(self, tables):
        self.tables = tables
        self.shapes = [shape(table) for table in tables]
        self.defined = {}
        self.ids = {}
        self.last = {}
        self.owing = set()
        self.slots = {}
        self.selected = None
        self.fault = None
        self.sure = True
        self.carried = None

    def take(self, said):
        what = said[0]
        if what == 'update':
            self.take_update(said)
        elif what == 'define':
            self.define(said[1], said[2])
        elif what == 'switch':
            if said[1] in self.defined:
                self.selected = said[1]
            else:
                self.fault = 'NoTable'
        elif what == 'breach':
            if said[1] is not None and self.selected is None:
                self.fault = 'NoTable'
            elif said[1] is None or self.stands_for(said[1]):
                self.fault = said[2]
            else:
                self.sure = False
        elif what == 'raw':
            self.sure = False

    def define(self, at, identifier):
        name = self.tables[at].name
        holder = self.ids.get(name)
        if holder is not None and holder != identifier:
            self.forget(holder)
            del self.defined[holder]
        before = self.defined.get(identifier)
        if before is not None and self.tables[before].name != name:
            self.forget(identifier)
            del self.ids[self.tables[before].name]
        self.defined[identifier] = at
        self.ids[name] = identifier
        self.selected = identifier

    def forget(self, identifier):
        self.last.pop(identifier, None)
        self.owing.discard(identifier)

    def stands_for(self, at):
        return self.shapes[self.defined[self.selected]] == self.shapes[at]

    def take_update(self, said):
        _, at, number, life, key, values, name = said
        identifier = self.selected
        if identifier is None:
            self.fault = 'NoTable'
            return
        if not self.stands_for(at):
            self.sure = False
            return
        if number is None:
            if identifier not in self.last:
                self.fault = 'NoNumber'
                return
            number = (self.last[identifier] + 1) & 0xFFFFFFFF
        text = None
        if name is not None and name[0] == 'write':
            text = self.slots[name[1]] = name[2]
        elif name is not None and name[0] == 'read':
            text = self.slots.get(name[1])
            if text is None:
                self.fault = 'EmptySlot'
                return
        self.last[identifier] = number
        self.owing.add(identifier)
        self.carry(at, number, life, key, values, text)

    def carry(self, at, number, life, key, values, text):
        """Does with an update what the state is for; `number` and `text` are those that it carries."""


class Learner(Received):
    """The state and the rows of a learner at one moment."""

    def __init__(self, tables, roster, moment):
        super().__init__(tables)
        self.moment = moment
        self.local = {shape(table): table for table in tables[:roster]}
        self.rows = {}

    def carry(self, at, number, life, key, values, text):
        table = self.local.get(self.shapes[at])
        if table is not None:
            self.rows[table.id, key] = life, values, text

    def row_line(self, table, key, life, values, text):
        ends = b'-'
        if table.expire:
            lives = table.expire if life is None else min(life, table.expire)
            ends = b'%d' % min(GREATEST_MOMENT, self.moment + lives)
        begun = tuple(value if isinstance(value, int) else (self.moment - value[0],) + value[1:] for value in values)
        words = [b'row', b'%d' % table.id, ends, key_word(table, key)] + value_words(begun)
        if has_names(table):
            words.append(name_word(text))
        return b' '.join(words)

    def printed(self):
        """Returns what `learn` prints."""
        tables = {table.id: table for table in self.local.values()}
        lines = [self.row_line(tables[at], key, *row) for (at, key), row in sorted(self.rows.items(), key=lambda row: row[0])]
        if self.fault is None:
            lines += [b'ack %d %d' % ack for ack in self.acks()]
        return b''.join(line + b'\n' for line in lines)

    def acks(self):
        """Returns the acknowledgements due, in ascending order of the sender's id."""
        return [(at, self.last[at]) for at in sorted(self.owing) if self.shapes[self.defined[at]] in self.local]


def learned(tables, roster, moment, messages):
    """Returns the learner of the messages, and how many of them it took before a fault or something unknown."""
    learner = Learner(tables, roster, moment)
    for count, said in enumerate(messages):
        learner.take(said)
        if learner.fault is not None or not learner.sure:
            return learner, count
    return learner, len(messages)
