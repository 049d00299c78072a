"""The model of a table, of its keys, values and names: random ones, and their words in a scene (docs/FORMATS.md, 3, 10 and 11)."""

from collections import namedtuple

TYPES = ('server_id gpt0 gpc0 gpc0_rate conn_cnt conn_rate conn_cur sess_cnt sess_rate http_req_cnt http_req_rate http_err_cnt '
         'http_err_rate bytes_in_cnt bytes_in_rate bytes_out_cnt bytes_out_rate gpc1 gpc1_rate server_key').split()
RATES = frozenset(at for at, name in enumerate(TYPES) if name.endswith('_rate'))
WIDE = frozenset((13, 15))
SERVER_KEY = 19
KINDS = {'integer': 2, 'ipv4': 4, 'ipv6': 5, 'string': 6, 'binary': 7}
LENGTHS = {'integer': 4, 'ipv4': 4, 'ipv6': 16}
GREATEST = 2 ** 32 - 1
FIRST_MOMENT, GREATEST_MOMENT = 2 ** 32, 2 ** 63 - 1

# `types` are ids in ascending order, and `periods` has a pair of id and period for each rate among them.
Table = namedtuple('Table', 'id name kind length expire types periods')


def shape(table):
    """Returns what makes a received table the same as a local one."""
    return table.name, table.kind, table.length, table.types, table.periods


def has_names(table):
    return SERVER_KEY in table.types


def counted(table):
    """Returns the types that have values, in ascending order of id."""
    return [at for at in table.types if at != SERVER_KEY]


def greatest(type_id):
    return 2 ** 64 - 1 if type_id in WIDE else GREATEST


# --- Random tables, keys, values and names

def edge(random, most):
    """Returns a number up to `most`, often one at which an encoding grows or a range ends."""
    if random.random() < 0.6:
        return min(most, random.randrange(300))
    at = random.choice((0, 1, 239, 240, 241, 2287, 2288, 264431, 264432, 33818863, 33818864, GREATEST, GREATEST - 1, most, most - 1))
    return min(most, at) if random.random() < 0.7 else random.randrange(most + 1)


def random_text(random, most):
    """Returns a text of a scene, 1 to `most` bytes from 33 to 126."""
    if random.random() < 0.02:
        length = most
    else:
        length = random.randint(1, min(most, 6))
    return bytes(random.randint(33, 126) for _ in range(length))


def random_name(random, most=255):
    name = random_text(random, most)
    return b'_' if name == b'-' else name


def random_table(random, identifier, name):
    kind = random.choice(tuple(KINDS))
    length = LENGTHS.get(kind) or random.choice((1, 2, 3, 5, 16, 33, 33, 240, 241, 8192))
    types = tuple(sorted(random.sample(range(20), random.choice((0, 1, 1, 2, 2, 3, 5, 20)))))
    periods = tuple((at, max(1, edge(random, GREATEST))) for at in types if at in RATES)
    expire = random.choice((0, 1, 5, 30000, 30000, 30000, GREATEST))
    return Table(identifier, name, kind, length, expire, types, periods)


def random_roster(random, most=4):
    """Returns tables with ids and names of their own."""
    count = random.choice((1, 1, 2, min(3, most), most))
    ids = random.sample((1, 2, 3, 4, 5, 127, 239, 240, 2288, 70000, GREATEST), count)
    return [random_table(random, ids[at], b't%d' % at if random.random() < 0.9 else b'%d' % at + random_text(random, 254))
            for at in range(count)]


def random_key(random, table, text_only=False):
    if table.kind == 'string':
        length = min(table.length - 1, random.choice((0, 1, 1, 1, 2, 2, 3, 30, 8191)) if random.random() < 0.1 else random.choice((1, 1, 2)))
        low, high = (33, 126) if text_only or random.random() < 0.8 else (0, 255)
        return bytes(random.randint(low, high) for _ in range(length))
    length = LENGTHS.get(table.kind, table.length)
    if random.random() < 0.7:
        return random.randrange(256).to_bytes(1, 'big').rjust(length, b'\0')
    return random.getrandbits(8 * length).to_bytes(length, 'big')


def random_value(random, type_id):
    if type_id in RATES:
        return edge(random, GREATEST), edge(random, GREATEST), edge(random, GREATEST)
    return edge(random, greatest(type_id))


def random_values(random, table):
    return tuple(random_value(random, at) for at in counted(table))


def random_life(random, table):
    """Returns a life that a batch accepts for the table."""
    if table.expire == 0:
        return 0
    return random.choice((1, table.expire, max(1, table.expire // 2), random.randint(1, table.expire)))


# --- Words

def table_line(table):
    periods = dict(table.periods)
    types = [TYPES[at] + (':%d' % periods[at] if at in periods else '') for at in table.types]
    return b' '.join([b'table', b'%d' % table.id, table.name, table.kind.encode(), b'%d' % table.length, b'%d' % table.expire]
                     + [word.encode() for word in types])


def printed_text(text):
    """Returns a key's text or a name, as it is printed, without the `=` of a key."""
    return text if all(33 <= byte <= 126 for byte in text) else None


def key_word(table, key):
    if table.kind == 'integer':
        return b'%d' % int.from_bytes(key, 'big')
    if table.kind == 'string':
        return b'=' + key if printed_text(key) is not None else b'~' + key.hex().upper().encode()
    return key.hex().upper().encode()


def name_word(name):
    if name is None:
        return b'-'
    if name == b'-' or name[:1] == b'~' or printed_text(name) is None:
        return b'~' + name.hex().upper().encode()
    return name


def life_word(life):
    return b'-' if life is None else b'%d' % life


def value_words(values):
    return [b'%d' % value if isinstance(value, int) else b'%d/%d/%d' % value for value in values]
