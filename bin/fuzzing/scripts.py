"""Scripts of one table: random calls, and what their answers have to keep to (docs/FORMATS.md, sections 7 and 12)."""

import re

from harness.program import require, short
from fuzzing.rows import KEYS, NUMBER, key_of, row_pattern
from harness.tables import (FIRST_MOMENT, GREATEST, GREATEST_MOMENT, RATES, SERVER_KEY, TYPES, edge, greatest, has_names, key_word, life_word,
                            name_word, random_key, random_name, random_table, random_values, table_line, value_words)

REFUSALS = {
    'track': 'WrongKey NoSuchData MomentBack HistoryFull Spent TableFull',
    'learn': 'NoSession Misfit MomentBack HistoryFull Spent TableFull',
    'copy': 'NoSession MomentBack BatchOut Nothing HistoryFull',
    'ack': 'NoSession AckAhead HistoryFull',
    'settle': 'StrangeBatch',
    'open': 'AlreadyOpen TooMany HistoryFull',
    'close': 'NoSession HistoryFull',
    'purge': 'MomentBack HistoryFull',
    'checkpoint': 'BatchOut',
    'renumber': 'SessionOpen',
}
# The calls that are events of the table if they aren't refused.
EVENTS = frozenset(REFUSALS) - {'settle', 'checkpoint', 'renumber'}
OPTIONS = (b'size', b'nopurge', b'first')
HISTORY = 1000000
MOST_SESSIONS = 16


# --- Random scripts

def change_words(random, table, keys):
    """Returns the words of a change: a key, what is done, and to which data."""
    key = random.choice(keys) if random.random() < 0.97 else random.choice((b'7', b'=a', b'=' + b'k' * 40))
    what = random.choice((b'add', b'add', b'add', b'take', b'put', b'rate', b'name'))
    own = [at for at in table.types if (at in RATES) == (what == b'rate') and at != SERVER_KEY]
    if what == b'name':
        return [key, what, random_name(random) if random.random() < 0.9 else b'-']
    kind = random.choice(own) if own and random.random() < 0.95 else random.randrange(20)
    number = edge(random, GREATEST if what == b'rate' else 2 ** 64 - 1 if random.random() < 0.1 else greatest(kind))
    return [key, what, TYPES[kind].encode(), b'%d' % number]


def update_words(random, table, keys):
    """Returns the words of an update that is learned, from its number on."""
    life = random.choice((30000, table.expire, 1, 0, edge(random, GREATEST), None))
    words = [b'%d' % edge(random, GREATEST), life_word(life), random.choice(keys)]
    words += value_words(random_values(random, table))
    return words + [random_name(random) if random.random() < 0.9 else b'-'] * has_names(table)


def short_keys(random, table):
    """Returns the words of a few keys of a table."""
    return [key_word(table, random_key(random, table, True)[:300]) for _ in range(random.choice((1, 3, 10, 100)))]


def open_words(random, session):
    """Returns the words that open a session, without a version or with one."""
    return [b'open', session] + random.choice(([], [b'2.1'], [b'2.0']))


def next_moment(random, moment):
    return max(FIRST_MOMENT, moment + random.choice((0, 0, 1, 3, 1000, 9000, 31000, -1 if random.random() < 0.1 else 0)))


def random_script(random, length):
    """Returns the lines of a script without `settle`; none of them is refused."""
    table = random_table(random, random.choice((1, 5, 70000)), b't1')
    if table.length > 300:
        table = table._replace(length=33)
    keys = short_keys(random, table)
    first = random.choice((1, 1, 1, 2, 239, GREATEST, GREATEST - 1, GREATEST - length // 4))
    options = [b'size %d' % random.choice((1, 2, 5, 1000000)), b'nopurge', b'first %d' % first]
    lines = [option for option in options if option[:1] == b'f' or random.random() < 0.5]
    sessions = [b'%d' % number for number in random.sample((0, 1, 2, 3, GREATEST), random.choice((1, 3)))]
    moment = random.choice((FIRST_MOMENT, FIRST_MOMENT, 2 ** 62))
    lines += [b' '.join(open_words(random, session)) for session in sessions]
    number = first - 1
    for _ in range(length):
        moment = next_moment(random, moment)
        at, session = b'%d' % moment, random.choice(sessions)
        chance = random.random()
        number = min(GREATEST, number + (chance < 0.5))
        if chance < 0.4:
            line = [b'track', b'%d' % random.choice((0, 1, GREATEST)), at] + change_words(random, table, keys)
        elif chance < 0.5:
            line = [b'learn', session, at] + update_words(random, table, keys)
        elif chance < 0.55:
            one = session if random.random() < 0.9 else b'%d' % random.randrange(40)
            line = open_words(random, one) if random.random() < 0.6 else [b'close', one]
        elif chance < 0.72:
            line = [b'copy', session, random.choice((b'push', b'push', b'resync', b'standing')), b'%d' % random.choice((1, 2, 512, 4096)), at]
        elif chance < 0.88:
            line = [b'ack', session, b'%d' % random.choice((number, number, max(0, number - random.randrange(5)), min(GREATEST, number + 1), 0))]
        elif chance < 0.9:
            line = [b'purge', at]
        elif chance < 0.92:
            line = [random.choice((b'slide', b'slide', b'checkpoint', b'renumber'))]
            if line == [b'renumber'] and random.random() < 0.8:
                lines += [b'close ' + open_one for open_one in sessions]
                number = random.randrange(len(keys) + 1)
        elif chance < 0.95:
            line = [b'event', b'%d' % random.randrange(length)]
        else:
            line = [random.choice((b'rows', b'events'))]
        lines.append(b' '.join(line))
    return table, [table_line(table)] + lines + [b'rows', b'events']


# --- The answers

class Session:
    """What the answers say of an open session. `timed` is whether its copies have lives."""

    def __init__(self, bound, timed):
        self.acknowledged = self.taught = 0
        self.bound, self.timed = bound, timed
        self.out = False


class Audit:
    """Reads the answers of a script, one call after another, and compares each with those before it."""

    def __init__(self, table, lines):
        self.table = table
        self.size, first, self.nopurge = HISTORY, 1, False
        for line in lines:
            words = line.split(b' ')
            self.size = int(words[1]) if words[0] == b'size' else self.size
            first = int(words[1]) if words[0] == b'first' else first
            self.nopurge |= words[0] == b'nopurge'
        self.number = first - 1
        self.sessions = {}
        self.batches = []
        self.latest = {}
        self.history = []
        self.dropped = 0
        self.stored = {}
        self.moment = 0
        kind = b' (local|learned)'
        self.reply = row_pattern(table, b'reply (%s)' % NUMBER, kind)
        self.row = row_pattern(table, b'row (%s)' % NUMBER, kind)
        self.update = re.compile(rb'update %d (%s) (%s|-) (%s)( .*)?' % (table.id, NUMBER, NUMBER, KEYS[table.kind]))

    def answer(self, line, answers):
        """Takes the answer to a call; `answers` is an iterator over lines."""
        words = line.split(b' ')
        what = words[0].decode()
        said = next(answers, None)
        require(said is not None, 'answers', 'end before', line)
        if said.decode('latin-1') in REFUSALS.get(what, '').split():
            require(self.may_refuse(said.decode(), what, words), 'a refusal', 'that the calls before rule out:', line, said)
            return
        getattr(self, what)(words, said, answers)
        if what in EVENTS:
            if what == 'learn' and has_names(self.table) or what == 'track' and words[4] == b'name':
                words[-1] = words[-1] if words[-1] == b'-' else name_word(words[-1])
            if what == 'open' and words[2:] == [b'2.1']:
                del words[2:]
            self.history.append(b' '.join(words) + b' = ' + (b'batch ' + said.split(b' ')[2] if what == 'copy' else said))

    def may_refuse(self, refusal, what, words):
        """Whether the calls before leave room for a refusal."""
        if what == 'checkpoint':
            return any(session.out for session in self.sessions.values())
        if what == 'renumber':
            return bool(self.sessions)
        session = self.sessions.get(words[1])
        if refusal == 'NoSession':
            return session is None
        if refusal == 'AlreadyOpen':
            return session is not None
        if refusal == 'TooMany':
            return session is None and len(self.sessions) == MOST_SESSIONS
        if refusal == 'BatchOut':
            return session is not None and session.out
        if refusal == 'AckAhead':
            return session is not None and int(words[2]) > session.taught
        if refusal == 'MomentBack':
            return int(words[{'purge': 1, 'copy': 4}.get(what, 2)]) < self.moment
        if refusal == 'Spent':
            return self.number == GREATEST
        if refusal == 'TableFull':
            return self.nopurge and len(self.stored) >= self.size and all(self.lives(row, int(words[2])) for row in self.stored.values())
        if refusal == 'Nothing':
            return session is not None and not any(self.is_due(row, session, words) for row in self.stored.values())
        if refusal == 'StrangeBatch':
            return self.latest.get(words[1]) != self.batches[int(words[2]) - 1]
        return refusal != 'HistoryFull'

    @staticmethod
    def lives(row, moment):
        return row[1] == b'-' or int(row[1]) > moment

    def is_due(self, row, session, words):
        """Whether a copy gives a row, were there no limit."""
        number = int(row[0])
        wanted = {b'push': row[-1] == b'local', b'resync': True, b'standing': number <= session.bound}
        return number > session.acknowledged and self.lives(row, int(words[4])) and wanted[words[2]]

    def open(self, words, said, _):
        require(said == b'ok' and words[1] not in self.sessions and len(self.sessions) < MOST_SESSIONS, 'open', '', said)
        self.sessions[words[1]] = Session(self.number, words[2:] != [b'2.0'])

    def close(self, words, said, _):
        require(said == b'ok' and words[1] in self.sessions, 'close', '', said)
        del self.sessions[words[1]]

    def track(self, words, said, _):
        self.change(said, words[3], b'local', int(words[2]), self.table.expire)

    def learn(self, words, said, _):
        require(words[1] in self.sessions, 'learn', 'without a session', said)
        lives = self.table.expire if words[4] == b'-' else min(self.table.expire, int(words[4]))
        self.change(said, words[5], b'learned', int(words[2]), lives)

    def change(self, said, key, kind, moment, lives):
        match = self.reply.fullmatch(said)
        require(match, 'a reply', 'is not written as one of its table', said)
        require(moment >= self.moment, 'a moment', 'goes back', said)
        self.moment = moment
        self.number += 1
        require(int(match[1]) == self.number <= GREATEST, 'update numbers', 'do not ascend by one: %d,' % self.number, said)
        ends = b'-' if self.table.expire == 0 else b'%d' % min(moment + lives, GREATEST_MOMENT)
        require((match[2], match[3], match[match.lastindex]) == (ends, key, kind), 'a reply', 'of another key, end or kind', said, ends)
        if key not in self.stored and len(self.stored) >= self.size:
            first = min(self.stored, key=lambda at: (self.stored[at][1] == b'-', self.stored[at][1].rjust(20), int(self.stored[at][0])))
            require(not self.nopurge or not self.lives(self.stored[first], moment), 'a full table', 'takes a row', said)
            del self.stored[first]
        self.stored[key] = said.split(b' ')[1:]

    def copy(self, words, said, answers):
        session = self.sessions.get(words[1])
        require(session is not None and not session.out, 'copy', 'with a batch out, or without a session', said)
        require(int(words[4]) >= self.moment, 'a moment', 'goes back', said)
        self.moment = int(words[4])
        due = sorted((row for row in self.stored.values() if self.is_due(row, session, words)), key=lambda row: int(row[0]))
        due = due[:int(words[3])]
        require(said == b'batch %d %d' % (len(self.batches) + 1, len(due)), 'a batch', 'of other rows than those that are due', said, due)
        batch = [next(answers, b'') for _ in due]
        for line, row in zip(batch, due):
            update = self.update.fullmatch(line)
            require(update, 'an update', 'is not written as one of its table', line)
            lives = b'-' if not session.timed else b'0' if row[1] == b'-' else b'%d' % (int(row[1]) - self.moment)
            require(update.groups()[:3] == (row[0], lives, row[2]), 'an update', 'has another number, life or key than its row', line, row)
        session.taught, session.out = int(due[-1][0]), True
        self.batches.append(batch)
        self.latest[words[1]] = batch

    def ack(self, words, said, _):
        session, number = self.sessions.get(words[1]), int(words[2])
        require(session is not None and number <= session.taught, 'ack', 'ahead, or without a session', said)
        wanted = b'older' if number <= session.acknowledged else b'all' if number == session.taught else b'some'
        require(said == wanted, 'ack', 'of %d is %s and not' % (number, wanted.decode()), said)
        session.acknowledged = max(session.acknowledged, number)
        session.out &= said != b'all'

    def settle(self, words, said, _):
        require(said == b'ok' and self.latest.get(words[1]) == self.batches[int(words[2]) - 1], 'settle', 'of another batch', said)

    def purge(self, words, said, _):
        require(int(words[1]) >= self.moment, 'a moment', 'goes back', said)
        self.moment = int(words[1])
        kept = {key: row for key, row in self.stored.items() if self.lives(row, self.moment)}
        require(said == b'purged %d' % (len(self.stored) - len(kept)), 'purge', 'of other rows than those that ended', said)
        self.stored = kept

    def checkpoint(self, _, said, __):
        out = [name for name, session in self.sessions.items() if session.out]
        require(said == b'ok' and not out, 'checkpoint', 'while a batch is out', said, out)
        self.dropped = len(self.history)
        self.latest = {}

    def slide(self, _, said, __):
        wanted = b'dropped %d' % (len(self.history) - self.dropped)
        require(said == wanted, 'slide', 'is not %s but' % short(wanted), said)
        self.dropped = len(self.history)
        self.latest = {name: batch for name, batch in self.latest.items() if name in self.sessions}

    def renumber(self, _, said, __):
        require(said == b'ok' and not self.sessions, 'renumber', 'with a session open', said)
        for number, row in enumerate(sorted(self.stored.values(), key=lambda row: int(row[0])), 1):
            row[0] = b'%d' % number
        self.number = len(self.stored)
        self.dropped = len(self.history)
        self.latest = {}

    def event(self, words, said, _):
        place = int(words[1])
        wanted = self.history[place - 1] if self.dropped < place <= len(self.history) else b'none'
        require(said == wanted, 'an event', 'is not %s but' % short(wanted), said)

    def events(self, _, said, __):
        wanted = b'events %d room %d' % (len(self.history), HISTORY - len(self.history) + self.dropped)
        require(said == wanted, 'events', 'are not %s but' % short(wanted), said)

    def rows(self, _, said, answers):
        require(said == b'rows %d' % len(self.stored), 'rows', 'are not %d but' % len(self.stored), said)
        before = None
        for _ in self.stored:
            line = next(answers, b'')
            row = self.row.fullmatch(line)
            require(row, 'a row', 'is not written as one of its table', line)
            place = key_of(self.table, row[3])
            require(before is None or before < place, 'order of rows', '', line)
            before = place
            require(line.split(b' ')[1:] == self.stored.get(row[3]), 'a row', 'is not the last reply of its key', line, self.stored.get(row[3]))


def audited(table, lines, output):
    """Compares the answers to the lines of a script with one another. Returns, for each call, its line, its answers and how many batches
    there are after it."""
    audit = Audit(table, lines)
    answers = output.split(b'\n')[:-1]
    left = iter(answers)
    calls = []
    for line in lines[1:]:
        if line.split(b' ')[0] not in OPTIONS:
            audit.answer(line, left)
            calls.append((line, len(audit.batches)))
    require(next(left, None) is None, 'answers', 'are more than calls')
    return calls


def with_settles(random, lines, calls):
    """Returns a script with `settle` lines among its calls, each of a batch that was given before."""
    made = lines[:len(lines) - len(calls)]
    for line, batches in calls:
        made.append(line)
        while batches and random.random() < 0.2:
            made.append(b'settle %s %d' % (random.choice((b'0', b'1', b'2', b'3')), random.choice((batches, random.randint(1, batches)))))
    return made


def without_settles(lines, output):
    """Returns the answers to the other calls of a script, as text."""
    calls = [line for line in lines[1:] if line.split(b' ')[0] not in OPTIONS]
    answers = iter(output.split(b'\n')[:-1])
    kept = []
    for line in calls:
        said = next(answers, b'')
        if line.startswith(b'settle'):
            continue
        kept.append(said)
        count = re.fullmatch(b'(?:batch [0-9]+|rows) ([0-9]+)', said)
        kept += [next(answers, b'') for _ in range(int(count[1]) if count else 0)]
    return b''.join(line + b'\n' for line in kept)
