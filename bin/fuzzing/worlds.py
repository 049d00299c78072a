"""Scripts of worlds: random steps, and what the answers have to keep to (docs/FORMATS.md, section 12)."""

import re

from harness.program import require
from fuzzing.rows import NUMBER, key_of, row_pattern
from fuzzing.scripts import HISTORY, change_words, next_moment, short_keys, update_words
from harness.tables import FIRST_MOMENT, GREATEST, GREATEST_MOMENT, RATES, counted, edge, random_roster, table_line

# More bytes than any lesson here has; a delivery of more bytes than there are changes nothing.
DRAIN = 1 << 18
SESSION_LINE = re.compile(rb'session (%s) copied (%s) taught (%s) applied (%s) learner (%s) teacher (%s)' % ((NUMBER,) * 6))


def drained(session, end, moment):
    """Returns deliveries after which nothing is left in a pipe."""
    return [b'deliver %d %s %d %d' % (session, end, 1 << at, moment) for at in range(18, -1, -1)]


def random_world(random, length):
    """Returns tables, the number of sessions, the versions that the script names, options, steps and a moment that comes after all of
    them."""
    roster = [table._replace(length=min(table.length, 33), name=table.name[:20]) for table in random_roster(random, 3)]
    keys = [short_keys(random, table) for table in roster]
    sessions = random.choice((1, 1, 2, 16))
    versions = [random.choice((b'2.0', b'2.1')) for _ in range(sessions)] if random.random() < 0.6 else []
    options = []
    for table in roster:
        made = [b'size %d %d' % (table.id, random.choice((1, 2, 10))), b'nopurge %d' % table.id,
                b'first %d %d' % (table.id, random.choice((1, 240, GREATEST - 3 * length)))]
        options += [option for option in made if random.random() < 0.3]
    moment = random.choice((FIRST_MOMENT, 2 ** 62))
    steps = []
    for _ in range(length):
        moment = next_moment(random, moment)
        at = random.randrange(len(roster))
        session = random.randint(1, sessions) if random.random() < 0.97 else random.choice((0, 17, GREATEST))
        steps += random_steps(random, roster[at], keys[at], session, moment)
        if random.random() < 0.04:
            steps.append(random.choice((b'session 1', b'rows %d', b'learner 1 %d', b'events %d')).replace(b'%d', b'%d' % roster[at].id))
    return roster, sessions, versions, options, steps, moment + 1


def random_steps(random, table, keys, session, moment):
    """Returns one step, or deliveries after which a pipe is empty."""
    head, at = [b'%d' % session, b'%d' % table.id], b'%d' % moment
    chance = random.random()
    if chance < 0.38:
        return [b' '.join([b'track', head[1], at] + change_words(random, table, keys))]
    if chance < 0.44:
        return [b' '.join([b'learn'] + head + [at] + update_words(random, table, keys))]
    if chance < 0.60:
        kind = random.choice((b'push', b'push', b'resync'))
        return [b' '.join([b'copy'] + head + [kind, b'%d' % random.choice((1, 3, 512, 4096, 4097)), at])]
    if chance < 0.76:
        return [b'teach %d' % session]
    if chance < 0.84:
        return drained(session, random.choice((b'learner', b'teacher')), moment)
    if chance < 0.89:
        return [b'deliver %d %s %d %d' % (session, random.choice((b'learner', b'teacher')), edge(random, 300), moment)]
    if chance < 0.95:
        return [b'ack %d' % session]
    if chance < 0.98:
        return [random.choice((b'break %d', b'reopen %d', b'reopen %d')) % session]
    return [b'purge %d %d' % (table.id, moment)]


def script_of(roster, sessions, versions, options, steps, moment):
    """Returns the lines of a script that ends with a resync of each session over a new connection, and then asks for all rows."""
    lines = [table_line(table) for table in roster] + [b' '.join([b'sessions %d' % sessions] + versions)] + options + steps
    for session in range(1, sessions + 1):
        lines.append(b'break %d' % session)
        lines += [b'copy %d %d resync 512 %d' % (session, table.id, moment) for table in roster]
        lines += [b'teach %d' % session for _ in roster]
        lines += drained(session, b'learner', moment) + [b'ack %d' % session] + drained(session, b'teacher', moment)
        lines.append(b'session %d' % session)
        for table in roster:
            lines += [b'rows %d' % table.id, b'learner %d %d' % (session, table.id)]
    return lines


def in_pieces(random, lines):
    """Returns the script with smaller deliveries before those that leave nothing: the pipes are as empty after them."""
    made = []
    for line in lines:
        words = line.split(b' ')
        if words[0] == b'deliver' and words[3] == b'%d' % DRAIN:
            made += [b' '.join(words[:3] + [b'%d' % random.choice((0, 1, 2, 7, 64)), words[4]]) for _ in range(random.randrange(6))]
        made.append(line)
    return made


class Answers:
    """Reads the answers to the questions of a world."""

    def __init__(self, roster, output):
        self.tables = {b'%d' % table.id: table for table in roster}
        self.patterns = {at: row_pattern(table, b'row (%s)' % NUMBER, b' (local|learned)') for at, table in self.tables.items()}
        self.lines = iter(output.split(b'\n')[:-1])

    def line(self):
        line = next(self.lines, None)
        require(line is not None, 'answers', 'end early')
        return line

    def session(self, words):
        line = self.line()
        match = SESSION_LINE.fullmatch(line)
        require(match and match[1] == words[1], 'a session', 'is not written as one', line)
        counts = [int(word) for word in match.groups()[1:]]
        require(counts[2] <= counts[1], 'a session', 'applied more updates than it taught', line)
        return counts

    def events(self, _):
        line = self.line()
        match = re.fullmatch(b'events (0|[1-9][0-9]*) room (0|[1-9][0-9]*)', line)
        require(match and int(match[1]) + int(match[2]) == HISTORY, 'events', '', line)

    def rows(self, words):
        line, at = self.line(), words[-1]
        match = re.fullmatch(b'rows (0|[1-9][0-9]*)', line)
        require(match, 'rows', '', line)
        rows, before = {}, None
        for _ in range(int(match[1])):
            line = self.line()
            row = self.patterns[at].fullmatch(line)
            require(row, 'a row', 'is not written as one of its table', line)
            place = key_of(self.tables[at], row[3])
            require(before is None or before < place, 'order of rows', '', line)
            before = place
            rows[row[3]] = line.split(b' ')
        return rows

    learner = rows


def judge_answers(roster, sessions, versions, lines, moment, output):
    """Reads all answers. After the resync at the end each learner has exactly the rows that live, and each update taught was applied."""
    answers = Answers(roster, output)
    asked = [line.split(b' ') for line in lines if line.split(b' ')[0] in (b'session', b'rows', b'learner', b'events')]
    last = len(asked) - sessions * (1 + 2 * len(roster))
    for words in asked[:last]:
        getattr(answers, words[0].decode())(words)
    at = last
    for session in range(sessions):
        timed = versions[session:session + 1] != [b'2.0']
        counts = answers.session(asked[at])
        living = 0
        for place, table in enumerate(roster):
            rows, learned = answers.rows(asked[at + 1 + 2 * place]), answers.learner(asked[at + 2 + 2 * place])
            wanted = {key: taught_row(table, row, moment, timed) for key, row in rows.items() if row[2] == b'-' or int(row[2]) > moment}
            require(learned == wanted, 'a resync', 'leaves other rows than the teacher has', sorted(wanted.items()), sorted(learned.items()))
            living += len(wanted)
        require(counts == [0, living, living, 0, 0], 'a resync', 'does not come to rest', counts, living)
        at += 1 + 2 * len(roster)
    require(next(answers.lines, None) is None, 'answers', 'are more than questions')


def taught_row(table, row, moment, timed):
    """Returns a teacher's row as its learner has it after a resync at a moment: learned, and with its rates turned. Without a life it ends
    after the table's expire."""
    row = list(row)
    if not timed and table.expire:
        row[2] = b'%d' % min(GREATEST_MOMENT, moment + table.expire)
    periods = dict(table.periods)
    for place, kind in enumerate(counted(table)):
        if kind in RATES:
            start, current, previous = map(int, row[4 + place].split(b'/'))
            if moment - start >= 2 * periods[kind]:
                start, current, previous = moment, 0, 0
            elif moment - start >= periods[kind]:
                start, current, previous = start + periods[kind], 0, current
            row[4 + place] = b'%d/%d/%d' % (start, current, previous)
    row[-1] = b'learned'
    return row
