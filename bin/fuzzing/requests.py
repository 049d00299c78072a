"""Clients of the admin port of a node that stays (docs/FORMATS.md, section 14).

  ask LINES PIECES      requests over one connection, one after another, in so many pieces; each has its answer, up to one that is refused
                        and ends the connection; those behind it go over the next one
  long LENGTH ENDS      a request of so many bytes, and its line feed if it ends
  half BYTES            the beginning of a request, over a connection that stays
  crowd COUNT           connections at once
  deaf LINE TIMES       requests, over a connection that doesn't read and stays
  page BYTES            an HTTP request, and what it has behind its head
  rubbish BYTES         bytes, and then the end of the input"""

import re
import select
import socket
import time

from fuzzing.lines import spoil_line
from fuzzing.rows import NUMBER, row_pattern
from fuzzing.scripts import REFUSALS, change_words, short_keys
from fuzzing.standing import MARK, Stand, random_local_roster, random_rounds, stood
from harness.node import Admin
from harness.program import require, short
from harness.tables import Table

LONGEST = 32768
# How many connections the port serves at once, and how many of these belong to the stand for as long as the node runs.
MOST_CLIENTS, STANDING = 32, 2
# For how long nothing may come that answers an incomplete request.
QUIET = 0.3
WORDS = ('reply row none refused NoTable WrongKey ' + REFUSALS['track']).split()
LINE = re.compile(rb'[ -~]*')
VERSION = re.compile(rb'HTTP/1\.[0-9]\r?')
PAGE = re.compile(rb'HTTP/1\.[01] (200|404|405|505)[ -~]*\r\n(?:[ -~]+\r\n)*?Content-Length: ([0-9]+)\r\n(?:[ -~]+\r\n)*\r\n', re.IGNORECASE)


# --- Random cases

def request(random, tables, keys):
    """Returns a request that is answered with a row, a refusal of its table, or `none`."""
    at = random.randrange(len(tables))
    table = tables[at]
    if random.random() < 0.3:
        return b' '.join((b'get', table.name, random.choice(keys[at])))
    return b' '.join([b'track', table.name] + change_words(random, table, keys[at]))


def random_line(random, tables, keys):
    """Returns a line, which is mostly a request."""
    chance = random.random()
    if chance < 0.75:
        return request(random, tables, keys)
    if chance < 0.85:
        return random.choice((b'show table', b'show peers', b'show rows', b'show table ' + random.choice(tables).name, b'show', b'show ' + MARK))
    lines = [random.choice((request(random, tables, keys), b'show table', b'get %s =%s' % (MARK, MARK)))]
    spoil_line(random, lines)
    return (lines or [b'']).pop().replace(b'\n', b' ')


def random_lines(random, tables, keys):
    lines = [random_line(random, tables, keys)[:LONGEST] for _ in range(random.choice((1, 5, 40, 400)))]
    return [line for line in lines if line != b'stop' and not line.startswith(b'GET ')]


def random_page(random):
    """Returns bytes that an HTTP client may send, with requests of the admin port behind the head, none of which may be obeyed."""
    head = random.choice((b'GET /metrics HTTP/1.1\r\nHost: n\r\n\r\n', b'GET /metrics HTTP/1.0\n\n', b'GET /%s HTTP/1.1\r\n\r\n' % MARK,
                          b'GET /metrics HTTP/1.1\r\n' + b'X: %s\r\n' % MARK * random.choice((1, 3000)) + b'\r\n',
                          b'GET  HTTP/1.1\r\n\r\n', b'GET /metrics HTTP/2.0\r\n\r\n', b'POST /metrics HTTP/1.1\r\n\r\n', b'OPTIONS * HTTP/1.1\n',
                          b'HEAD /metrics HTTP/1.1\r\n\r\n', b'GET /health?%s HTTP/1.0\r\n\r\n' % MARK,
                          b'HEAD /%s?/ HTTP/1.1\r\n\r\n' % MARK, b'GET / HTTP/1.1\n\n',
                          b'%s stop HTTP/1.1\r\nHost: n\r\nTransfer-Encoding: chunked\r\n\r\n5\r\n' % MARK, b'get t1 HTTP/1.1\n', b'\r\n',
                          b'GET /metrics HTTP/1.1\r\n' + MARK * random.choice((1, 6000)), b'GET /%s HTTP/1.1\r\n\r\n' % (MARK * 4000)))
    return head + b'stop\n' * random.choice((0, 1, 1, 20000))


def random_act(random, tables, keys):
    what = random.randrange(10)
    if what < 4:
        return 'ask', random_lines(random, tables, keys), random.choice((1, 1, 3, 20))
    if what == 4:
        return 'long', random.choice((LONGEST - 1, LONGEST, LONGEST + 1, 200000)), random.random() < 0.7
    if what == 5:
        return 'half', random.choice((b'', b'track', request(random, tables, keys), MARK * 3000))
    if what == 6:
        return 'crowd', random.choice((3, 33, 60))
    if what == 7:
        return 'deaf', random.choice((b'show rows', b'show peers', b'show table', request(random, tables, keys), b'?')), random.choice((10, 3000))
    if what == 8:
        return 'page', random_page(random)
    return 'rubbish', random.choice((b'', b'\n' * 50, MARK + bytes(random.getrandbits(8) for _ in range(random.choice((1, 300, 20000)))).replace(b'stop', b'')))


def make(random):
    tables = [table._replace(length=min(table.length, 33), name=table.name[:20]) for table in random_local_roster(random)]
    keys = [short_keys(random, table) for table in tables]
    acts = [random_act(random, tables, keys) for _ in range(random.choice((1, 3, 8)))]
    more = ['size %d %d' % (table.id, random.choice((1, 10, 1000))) for table in tables if random.random() < 0.5]
    return {'tables': tables, 'more': more, 'acts': acts, 'rounds': random_rounds(random, acts)}


# --- What is due

def due_for(data):
    """Returns what the first bytes of a connection are answered with: `refused`, or the status of a page; None while they need no answer."""
    status = None
    *lines, rest = data.split(b'\n')
    for line in lines:
        if len(line) > LONGEST:
            return 'refused'
        if status is None:
            words = line.split(b' ')
            if len(words) != 3 or b'' in words or not words[2].startswith(b'HTTP/'):
                return 'refused'
            if words[0] not in (b'GET', b'HEAD'):
                return '405'
            if not VERSION.fullmatch(words[2]):
                return '505'
            status = '200' if words[1].split(b'?')[0] in (b'/metrics', b'/health', b'/ready', b'/') else '404'
        elif line in (b'', b'\r'):
            return status
    return 'refused' if len(rest) > LONGEST else None


# --- Clients

class Reader(Admin):
    """A connection to the admin port, which is read line by line, in time."""

    def __init__(self, client):
        super().__init__(client.stand.node.admin_port)
        self.limit = client.limit

    def wait(self, holds, what):
        """Waits until something holds, or the connection is over."""
        latest = time.monotonic() + self.limit
        while not holds() and not self.ended:
            require(self.more(latest - time.monotonic()), 'slow', what + ' for %g s' % self.limit)

    def read(self):
        """Returns the next line, or None if the connection is over before it ends."""
        self.wait(lambda: self.whole, 'a request is not answered')
        if not self.whole:
            return None
        line = self.whole.popleft()
        require(LINE.fullmatch(line), 'an answer', 'has other bytes than those from 32 to 126:', line)
        return line

    def all_left(self):
        """Returns all that comes until the connection is over."""
        self.wait(lambda: False, 'the admin port keeps a connection')
        return self.unread()

    def say(self, data, pieces=1):
        """Sends bytes in so many pieces, if the other end takes them."""
        try:
            self.peer.settimeout(self.limit)
            for at in range(pieces):
                self.peer.sendall(data[at * len(data) // pieces:(at + 1) * len(data) // pieces])
                if pieces > 1:
                    time.sleep(0.002)
        except OSError:
            pass


class Client:
    """Clients of an admin port. `rows` are the latest rows that changes were answered with, by table and key; `held` is how many
    connections were opened that stay. The node may have closed some of these, so `free` is the least number that it has to serve.
    `unsettled` are the names of tables that a client still changes of which nothing is read."""

    def __init__(self, stand, tables, more):
        self.stand, self.limit = stand, stand.program.patience
        self.tables = {table.name: table for table in tables}
        self.patterns = {table.name: (row_pattern(table, b'reply (%s)' % NUMBER, b' local'), row_pattern(table, b'row %d' % table.id)) for table in tables}
        self.small = {int(line.split()[1]) for line in more}
        self.rows, self.numbers, self.held = {}, {}, 0
        self.unsettled = set()

    def act(self, act):
        getattr(self, act[0])(*act[1:])

    def end(self):
        """However the port was disturbed, as many clients as there is room for are served at once."""
        self.crowd(self.free())

    def free(self):
        return max(0, MOST_CLIENTS - STANDING - self.held)

    def opened(self):
        return self.stand.trial.closes(Reader(self))

    def served(self, data, pieces=1):
        """Returns a connection over which a request was sent, once an answer other than `busy` comes: a client that has left may still
        count for a moment. Returns None if the port is busy and those that stay may have taken all connections."""
        latest = time.monotonic() + self.limit
        while True:
            reader = self.opened()
            reader.say(data, pieces)
            reader.wait(lambda: reader.whole, 'a request is not answered')
            if not reader.unread().startswith(b'busy\n'):
                return reader
            reader.close()
            if not self.free():
                return None
            require(time.monotonic() < latest, 'the admin port', 'is busy, with %d connections free' % self.free())
            time.sleep(0.02)

    def ask(self, lines, pieces):
        while lines:
            reader = self.served(b''.join(line + b'\n' for line in lines), pieces)
            if reader is None:
                return
            lines = self.answered(reader, lines)
            reader.close()

    def answered(self, reader, lines):
        """Reads the answers to lines up to the first that is refused, and returns the lines behind it. If one of these were obeyed all the
        same, its answer over the next connection would show it."""
        for place, line in enumerate(lines):
            first = answer = reader.read()
            require(answer is not None, 'an answer', 'is missing, to:', line)
            if line.split(b' ')[0] == b'show':
                while answer != b'.':
                    answer = reader.read()
                    require(answer is not None, 'an answer', 'has no end, to:', line)
            else:
                self.judge(line, answer)
            if first == b'refused':
                require(reader.all_left() == b'', 'an answer', 'behind one to a line that is refused:', line, reader.unread())
                return lines[place + 1:]
        return []

    def judge(self, line, answer):
        """An answer of one line is one to its request."""
        words, said = line.split(b' '), answer.split(b' ')
        require(said[0].decode() in WORDS, 'an answer', 'is none that there is:', line, answer)
        if said[0] == b'reply':
            self.judge_reply(words, said, answer)
        elif said[0] == b'row':
            self.judge_row(words, said, answer)
        elif said[0] == b'none' and len(words) == 3:
            before = self.rows.get((words[1], words[2]))
            require(before is None or before[1] != b'-' or self.is_small(words[1]), 'a row', 'that does not end is gone:', line, before)

    def is_small(self, name):
        return self.tables[name].id in self.small

    def judge_reply(self, words, said, answer):
        """A change is answered with the row of its key, under the table's next number, or a later one if another client changes it too."""
        require(words[0] == b'track' and words[1] in self.patterns, 'an answer', 'to another request:', words, answer)
        match = self.patterns[words[1]][0].fullmatch(answer)
        require(match, 'a row', 'is not written as one of its table:', answer)
        before = self.numbers.get(words[1])
        number = int(said[1])
        is_next = before is None or number == before + 1 or number > before and words[1] in self.unsettled
        require(is_next, 'numbers', 'do not ascend by one:', before, answer)
        self.numbers[words[1]] = number
        if said[3] == words[2]:
            self.rows[words[1], words[2]] = said[1:-1]

    def judge_row(self, words, said, answer):
        """A row that is got is the one that the latest change of its key was answered with."""
        require(words[0] == b'get' and words[1] in self.patterns, 'an answer', 'to another request:', words, answer)
        require(self.patterns[words[1]][1].fullmatch(answer), 'a row', 'is not written as one of its table:', answer)
        before = self.rows.get((words[1], words[2]))
        is_latest = before is None or before[1:] == said[2:] or words[1] in self.unsettled
        require(is_latest, 'a row', 'is not that of the latest change:', answer, before)

    def long(self, length, ends):
        data = b'get %s =' % MARK + b'x' * (length - 6 - len(MARK)) + b'\n' * ends
        if not ends and length <= LONGEST:
            self.incomplete(data)
            return
        reader = self.served(data)
        if reader is None:
            return
        answer = reader.read()
        wanted = b'NoTable' if length <= LONGEST else b'refused'
        require(answer == wanted, 'an answer', 'to a request of %d bytes:' % length, answer)
        require(length <= LONGEST or reader.all_left() == b'', 'an answer', 'behind a request that is too long', reader.unread())
        reader.close()

    def incomplete(self, data):
        """An incomplete request has no answer, and its connection stays open, unless there is none for it."""
        reader = self.opened()
        reader.say(data)
        latest = time.monotonic() + QUIET
        while not reader.ended and time.monotonic() < latest:
            reader.more(latest - time.monotonic())
        is_right = reader.unread() == b'busy\n' if reader.ended else reader.unread() in (b'', b'busy\n')
        require(is_right, 'an incomplete request', 'is answered, or its connection closed:', data, reader.unread())
        reader.close()

    def half(self, data):
        self.held += 1
        self.opened().say(data)

    def crowd(self, count):
        """As many as there is room for are served at once. Of the others some go for those that come later, and some are told that there is
        no room. Those that have just left may still count for a moment."""
        wanted, latest = min(count, self.free()), time.monotonic() + self.limit
        while (served := self.crowded(count)) < wanted:
            require(time.monotonic() < latest, 'a crowd', 'of %d is not served, with %d connections free:' % (count, self.free()), served)
            time.sleep(0.05)

    def crowded(self, count):
        """Returns how many of so many clients are served at once."""
        readers = [self.opened() for _ in range(count)]
        for reader in readers:
            reader.say(b'get %s 7\n' % MARK)
        answers = [reader.read() for reader in readers]
        served = answers.count(b'NoTable')
        require(all(answer in (b'NoTable', b'busy', None) for answer in answers), 'an answer', 'to one of a crowd:', answers)
        for reader in readers:
            reader.close()
        return served

    def deaf(self, line, times):
        """Requests whose answers nobody reads, as many as the node takes for now."""
        self.held += 1
        if line.startswith(b'track '):
            self.unsettled.add(line.split(b' ')[1])
        peer = self.opened().peer
        peer.setblocking(False)
        left = memoryview((line + b'\n') * times)
        while left and select.select([], [peer], [], 0.05)[1]:
            try:
                left = left[peer.send(left):]
            except OSError:
                return

    def page(self, data):
        """HTTP is answered once, as its first line says, and an incomplete head waits."""
        due = due_for(data)
        if due is None:
            self.incomplete(data)
            return
        reader = self.served(data)
        if reader is None:
            return
        came = reader.all_left()
        if due == 'refused':
            require(came == b'refused\n', 'an answer', 'to HTTP:', data, came)
        else:
            self.judge_page(data, came, due)
        reader.close()

    def judge_page(self, data, came, status):
        """A page has its status, is as long as it says, and the one with status 200 has metrics."""
        head = PAGE.match(came)
        require(head, 'a page', 'has no head:', data, came[:300])
        require(head[1] == status.encode(), 'a page', 'has another status than %s:' % status, data, head[0])
        length = len(came) - head.end()
        require(length == (0 if data.startswith(b'HEAD ') else int(head[2])), 'a page', 'has another length than it says:', length, head[0])
        has_metrics = status == '200' and re.match(rb'GET /metrics[ ?]', data) is not None
        require((b'\ndigbaro_uptime_seconds ' in came) == has_metrics, 'a page', 'has no metrics, or some that were not asked for:', came)

    def rubbish(self, data):
        """What no client says. What comes back is whole lines, and the connection is closed at the end of the input."""
        reader = self.opened()
        reader.say(data)
        try:
            reader.peer.shutdown(socket.SHUT_WR)
        except OSError:
            return
        came = reader.all_left()
        require(came[-1:] in (b'', b'\n') and all(LINE.fullmatch(line) for line in came.split(b'\n')), 'an answer', 'to rubbish:', short(came))
        reader.close()


def judge(program, case):
    tables = [Table(*table) for table in case['tables']]
    stand = Stand(program, tables, case['more'])
    stood(stand, Client(stand, tables, case['more']), dict(case, acts=[tuple(act) for act in case['acts']]))
