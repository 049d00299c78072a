"""Configurations of a node that stays, as `run --check` reads them (docs/FORMATS.md, section 13)."""

import ipaddress
import re

from fuzzing.lines import spoil_line
from harness.program import require
from fuzzing.standing import random_local_roster
from harness.tables import random_name, random_table, table_line

# What is said of each fault, and at most how many faults are named.
FAULT = re.compile(rb'(?:configuration|line ([1-9][0-9]*)): [ -~]+\n')
MOST = 20
# What is said of each warning.
WARNING = re.compile(rb'(?:configuration|line ([1-9][0-9]*)): warning: [ -~]+\n')
# The longest time of HAProxy's, in ms.
LONGEST = 2 ** 31 - 1
# Lines that are refused wherever they stand.
WRONG = (b'nod n', b'node', b'node -', b'node ' + b'n' * 256, b'node n m', b'node \x7f', b'Node n', b'node #n', b'node\rn', b'listen', b'listen 10.0.0.1', b'listen 10.0.0.1:', b'listen 10.0.0.1:0', b'listen 10.0.0.1:65536', b'listen 10.0.0.1:05',
         b'listen 256.0.0.1:5', b'listen 10.0.0:5', b'listen 010.0.0.1:5', b'listen localhost:5', b'listen ::1:5', b'listen [::1%lo]:5', b'listen [fe80::1]:5', b'listen [::1]',
         b'listen [::g]:5', b'listen [1::2::3]:5', b'listen 10.0.0.1:5 6', b'admin 10.0.0.1:5', b'admin 0.0.0.0:5', b'admin [::2]:5', b'admin [::]:5',
         b'section -', b'section', b'section a b', b'peer', b'peer -', b'peer - 10.0.0.1:5', b'peer p 10.0.0.1', b'peer p 10.0.0.1:5 6', b'peer p p:5',
         b'peer ' + b'p' * 256, b'peer p from', b'peer p 10.0.0.1:5 from', b'peer p 10.0.0.1:5 10.0.0.1', b'peer p from 10.0.0.1:5', b'peer p from [::1]',
         b'peer p from 10.0.0.0/33', b'peer p from 10.0.0.0/08', b'peer p from ::/129', b'peer p from 10.0.0/8', b'peer p from 10.0.0.1 x', b'peer p from /8',
         b'peer p from ::%lo', b'metrics', b'metrics 10.0.0.1', b'metrics localhost:5', b'metrics 10.0.0.1:0', b'metrics unix:/a', b'metrics 10.0.0.1:5 6',
         b'admin unix:', b'admin unix', b'admin unix:a b', b'admin unix:a\x00', b'admin unix:' + b'a' * 108, b'admin /a', b'log', b'log Info', b'log warning',
         b'log journal info', b'log info journal', b'log 6', b'size', b'size 999', b'size 999 5', b'size 0 5', b'size 2147483648 5', b'nopurge', b'nopurge 999', b'moment 4294967296',
         b'stream 00', b'define 1', b'last 1 1', b'select 1', b'slot 1 a', b'prices 1', b'first 1 1', b'sessions 1', b'table', b'table 1',
         b'table 2147483648 x integer 4 0', b'table 4294967295 x integer 4 0', b'table 998 x integer 5 0', b'table 998 x integer 4 0 gpt9',
         b'\x00', b'\xff', b'-', b'.')
NEEDED = (b'node', b'listen', b'table')
ADDRESSES = (b'10.0.0.1:5', b'0.0.0.0:65535', b'255.255.255.255:1', b'[::1]:5', b'[::]:5', b'[2001:DB8::7]:9', b'[1:2:3:4:5:6:7:8]:5', b'[::ffff:1.2.3.4]:5')
PATHS = (b'a', b'/run/digbaro/admin.sock', b'a' * 107, b'\xff#', b'unix:a')
NETWORKS = (b'10.0.0.1', b'10.0.0.0/24', b'0.0.0.0/0', b'10.0.0.1/32', b'::1', b'2001:DB8::/32', b'::/0', b'::ffff:10.0.0.0/104', b'1:2:3:4:5:6:7:8/128')
ADMINS = (b'127.0.0.1:5', b'127.255.255.255:65535', b'[::1]:9')


def lines_or_comments(random):
    """Returns the lines of a configuration, in any order. It is taken, unless a name begins with `#`."""
    tables = random_local_roster(random)
    if random.random() < 0.1:
        tables = [random_table(random, 1000 + at, b'u%d' % at) for at in range(64)]
    names = sorted({random_name(random, 200) for _ in range(random.choice((1, 3, 16)))})
    random.shuffle(names)
    own, *others = names
    lines = [b'node ' + own, b'listen ' + random.choice(ADDRESSES)] + [table_line(table) for table in tables]
    for name in others:
        origins = random.choice(([], [], random.sample(NETWORKS, random.randint(1, len(NETWORKS)))))
        lines.append(b' '.join([b'peer', name, *random.sample(ADDRESSES, random.choice((0, 1))), *([b'from'] + origins if origins else [])]))
    for line in (b'admin ' + random.choice(ADMINS), b'admin unix:' + random.choice(PATHS), b'metrics ' + random.choice(ADDRESSES), b'section ' + random_name(random),
                 b'log ' + random.choice((b'error', b'warn', b'info', b'debug')), b'log journal'):
        lines += [line] * random.choice((0, 1))
    lines += random.choice(([], [b''], [b'# ' + random_name(random), b'#']))
    random.shuffle(lines)
    for table in tables:
        settings = [b'size %d %d' % (table.id, random.choice((1, 1000000, random.randint(1, 1000000)))), b'nopurge %d' % table.id]
        for line in random.sample(settings, random.choice((0, 1, 2))):
            lines.insert(random.randint(lines.index(table_line(table)) + 1, len(lines)), line)
    return lines


def random_lines(random):
    """Returns the lines of a configuration that is taken, in any order."""
    while True:
        lines = lines_or_comments(random)
        if not any(b' #' in line for line in lines if line[:1] != b'#'):
            return lines


def loosened(random, line):
    """Returns a line that says the same, with other blanks, and with a comment behind its words."""
    blanks = (b' ', b'\t', b'  ', b' \t ')
    if line[:1] != b'#':
        line = re.sub(b' ', lambda _: random.choice(blanks), line)
        line += random.choice((b'', b'', b' ', b'\t# ' + random_name(random), b' #'))
    return random.choice((b'', b'', b' ', b'\t\t')) + line + random.choice((b'', b'', b'\r'))


def make(random):
    """Returns lines and what becomes of them: the number of the first line that is refused, `taken`, `configuration` if one that has to be
    there is missing, or None if that isn't known."""
    lines = random_lines(random)
    at = random.randint(0, len(lines))
    what = random.randrange(6)
    wanted = 'taken'
    if what == 0:
        lines.insert(at, random.choice(WRONG))
        wanted = at + 1
    elif what == 1:
        first = random.choice([place for place, line in enumerate(lines) if line[:1] not in (b'', b'#')])
        at = random.randint(first + 1, len(lines))
        lines.insert(at, lines[first])
        wanted = at + 1
    elif what == 2:
        if random.random() < 0.5:
            lines.insert(at, random.choice(WRONG))
        word = random.choice(NEEDED)
        lines = [line for line in lines if line.split(b' ')[0] != word]
        wanted = 'configuration'
    elif what == 3:
        lines = [loosened(random, line) for line in lines]
        lines[-1] = lines[-1].rstrip(b'\r')
    elif what == 4:
        wanted = None
        for _ in range(random.choice((1, 1, 2, 5))):
            spoil_line(random, lines)
    return {'lines': lines, 'end': b'' if what == 3 else b'\n', 'wanted': wanted}


def statements(data):
    """Returns the number and the words of each line that has some."""
    *whole, last = data.split(b'\n')
    lines = [line[:-1] if line[-1:] == b'\r' else line for line in whole] + [last]
    return [(number, words_of(line)) for number, line in enumerate(lines, 1) if words_of(line)]


def place_of(words):
    """Returns the address of a line of the node or of a peer, and its port; None if it has none. IPv4 addresses are those that they are mapped to."""
    rest = words[1:] if words[0] in (b'listen', b'metrics', b'admin') else words[2:] if words[0] == b'peer' else []
    if not rest or rest[0] == b'from' or rest[0].startswith(b'unix:'):
        return None
    host, _, port = rest[0].decode().rpartition(':')
    if host[:1] == '[':
        return ipaddress.IPv6Address(host[1:-1]), int(port)
    return ipaddress.IPv6Address('::ffff:' + host), int(port)


def is_every(address):
    return address in (ipaddress.IPv6Address('::'), ipaddress.IPv6Address('::ffff:0.0.0.0'))


def is_here(address):
    return is_every(address) or address == ipaddress.IPv6Address('::1') or address in ipaddress.IPv6Network('::ffff:127.0.0.0/104')


def network_of(word):
    """Returns the network that a word writes, of IPv6 addresses: IPv4 addresses are those that they are mapped to."""
    host, _, bits = word.decode().partition('/')
    if ':' in host:
        return ipaddress.IPv6Network((host, int(bits or 128)), strict=False)
    return ipaddress.IPv6Network(('::ffff:' + host, 96 + int(bits or 32)), strict=False)


def address_warnings(said, number, words):
    """Returns the number of the line for each warning of its address."""
    place = place_of(words)
    own = {other[0]: place_of(other) for _, other in said if other[0] in (b'listen', b'admin') and place_of(other)}
    if not place or words[0] == b'listen':
        return []
    (address, port), (listen, listened) = place, own[b'listen']
    if words[0] == b'admin':
        return [number] * (port == listened)
    if words[0] == b'metrics':
        return [number] * any(port == taken and (address == other or is_every(address) or is_every(other)) for other, taken in own.values())
    taken = port == listened and (address == listen or is_every(address) and is_here(listen) or is_here(address) and is_every(listen))
    taken = taken or any(place_of(other) == place for line, other in said if other[0] == b'peer' and line < number)
    networks = [network_of(word) for word in words[4:]]
    outside = networks and not any(address in network for network in networks)
    return [number] * (bool(taken) + bool(outside))


def table_warnings(number, words):
    """Returns the number of the line for each warning of a table."""
    _, _, name, kind, length, expire, *types = words
    periods = [int(word.split(b':')[1]) for word in types if b':' in word]
    found = (b'/' in name[1:] and name[:1] != b'/', kind == b'string' and (int(length) % 4 == 0 or int(length) % 10 == 0), int(expire) > LONGEST,
             any(period > LONGEST for period in periods), (b'server_id' in types) != (b'server_key' in types))
    return [number] * sum(found)


def warned(data):
    """Returns the number of the line for each warning of a configuration that is taken, and `configuration` if it has no peers."""
    said = statements(data)
    numbers: list = []
    sections = any(words[0] == b'table' and words[2][:1] == b'/' for _, words in said)
    for number, words in said:
        numbers += address_warnings(said, number, words)
        if words[0] == b'section' and not sections:
            numbers.append(number)
        if words[0] == b'table':
            numbers += table_warnings(number, words)
    return numbers + ['configuration'] * all(words[0] != b'peer' for _, words in said)


def parted(errors):
    """Returns the lines of standard error before the first warning, and the others."""
    lines = errors.splitlines(keepends=True)
    first = next((at for at, line in enumerate(lines) if WARNING.fullmatch(line)), len(lines))
    return lines[:first], lines[first:]


def checked(program, data):
    """Returns what `run --check` says of a configuration: `taken`, or the number of each refused line and `configuration` for each that is
    missing, in order."""
    ending = program.run('run', '--check', text=data)
    require(ending.status in (0, 1) and not ending.output, 'status', 'of run --check', ending)
    if ending.status == 0:
        said = ending.errors.splitlines(keepends=True)
        require(all(WARNING.fullmatch(line) for line in said), 'standard error', 'of a configuration that is taken', ending.errors)
        found = [int(WARNING.fullmatch(line)[1] or 0) or 'configuration' for line in said]
        require(found == warned(data), 'the lines that are warned of', 'are others', found, warned(data))
        return 'taken'
    said, warnings = parted(ending.errors)
    require(1 <= len(said) <= MOST and all(FAULT.fullmatch(line) for line in said), 'standard error', 'of run --check', ending.errors)
    heads = [FAULT.fullmatch(line)[1] for line in said]
    numbers = [int(number) for number in heads if number]
    require(numbers == sorted(set(numbers)) and None not in heads[:len(numbers)], 'standard error', 'is not in the order of lines', ending.errors)
    require(all(WARNING.fullmatch(line) for line in warnings), 'standard error', 'has faults behind warnings', ending.errors)
    places = [int(WARNING.fullmatch(line)[1] or 0) for line in warnings]
    alone = len(numbers) < MOST and all(words[0] != b'peer' for _, words in statements(data))
    require(not set(places) & set(numbers) and places.count(0) == alone, 'the lines that are warned of', 'beside faults', ending.errors)
    return [*numbers, *['configuration'] * heads.count(None)]


def words_of(line):
    """Returns the words of a line without its LF, up to a comment."""
    words = [word for word in re.split(rb'[ \t]+', line) if word]
    comment = next((at for at, word in enumerate(words) if word[:1] == b'#'), len(words))
    return words[:comment]


def missing(data):
    """Returns how many of the lines are missing that have to be there."""
    return len(set(NEEDED) - {words[0] for _, words in statements(data)})


def judge(program, case):
    lines = case['lines']
    data = b'\n'.join(lines) + case['end'] if lines else b''
    said = checked(program, data)
    wanted = case['wanted']
    if wanted in ('taken', None):
        require(wanted is None or said == 'taken', 'a configuration', 'is not taken but answered', said)
    else:
        require(said != 'taken', 'a configuration', 'is taken and not answered', wanted)
        require(wanted == said[0] or wanted == said[-1] or len(said) == MOST, 'a configuration', 'is not answered %r but' % wanted, said)
    if said == 'taken':
        require(missing(data) == 0, 'a configuration', 'is taken of which a line is missing:', data)
        return
    if len(said) < MOST:
        require(said.count('configuration') == missing(data), 'a configuration', 'of which other lines are missing:', said, data)
    lines = data.split(b'\n')
    for number in [number for number in said if number != 'configuration'][:3]:
        require(1 <= number <= len(lines), 'a refused line', 'that is not there', number)
        cut = checked(program, b''.join(line + b'\n' for line in lines[:number]))
        before = checked(program, b''.join(line + b'\n' for line in lines[:number - 1]))
        require(cut != 'taken' and number in cut, 'a refused line', 'is taken without the lines behind it', number, cut)
        require(before == 'taken' or number not in before, 'a refused line', 'is not there', number, before)
        same = [other for other in said if other != 'configuration' and other < number]
        require(same == [other for other in before if other != 'configuration'] if before != 'taken' else not same,
                'the refused lines before one', 'are others without it', number, same, before)
