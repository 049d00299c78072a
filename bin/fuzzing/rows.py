"""The rows and acknowledgements that the program prints, read strictly (docs/FORMATS.md, section 11)."""

import re

from harness.program import require, text
from harness.tables import GREATEST, RATES, counted, greatest, has_names, table_line

NUMBER = rb'(?:0|[1-9][0-9]*)'
KEYS = {
    'integer': NUMBER,
    'ipv4': rb'[0-9A-F]{8}',
    'ipv6': rb'[0-9A-F]{32}',
    'string': rb'=[!-~]*|~(?:[0-9A-F]{2})+',
    'binary': rb'(?:[0-9A-F]{2})+',
}
NAME = rb'-|(?!-[ \n]|~)[!-~]+|~(?:[0-9A-F]{2})+'
ACK_LINE = re.compile(rb'ack (%s) (%s)' % (NUMBER, NUMBER))


def learner_scene(roster, moment, pieces):
    """Returns the scene of a learner that is fed pieces of a stream."""
    return text([table_line(table) for table in roster] + [b'moment %d' % moment]
                + [b'stream ' + piece.hex().encode() for piece in pieces if piece])


def row_pattern(table, before, after=b''):
    """Returns the pattern of a row between two others: its end, its key, its values and its name."""
    values = b''.join(b' (%s/%s/%s)' % (NUMBER, NUMBER, NUMBER) if at in RATES else b' (%s)' % NUMBER for at in counted(table))
    name = b' (%s)' % NAME if has_names(table) else b''
    return re.compile(before + rb' (-|%s) (%s)' % (NUMBER, KEYS[table.kind]) + values + name + after)


def key_of(table, word):
    """Returns what a printed key is sorted by, in its table."""
    if table.kind == 'integer':
        return int(word).to_bytes(8, 'big')
    if table.kind == 'string' and word[:1] == b'=':
        return word[1:]
    return bytes.fromhex(word.lstrip(b'~').decode())


def read_rows(lines, roster, latest):
    """Returns the printed rows as a dictionary from (table, key) to the words of the row; they ascend, their values are in range, and
    no end is beyond the latest moment and the table's expire."""
    tables = {b'%d' % table.id: (table, row_pattern(table, b'row %d' % table.id)) for table in roster}
    rows = {}
    before = None
    for line in lines:
        words = line.split(b' ')
        require(len(words) > 2 and words[1] in tables, 'a row', 'of no table', line)
        table, pattern = tables[words[1]]
        match = pattern.fullmatch(line)
        require(match, 'a row', 'is not written as one of its table', line)
        place = table.id, key_of(table, match[2])
        require(before is None or before < place, 'order of rows', '', line)
        before = place
        if table.expire == 0:
            require(match[1] == b'-', 'an end', 'in a table without expire', line)
        else:
            require(match[1] != b'-' and int(match[1]) <= latest + table.expire, 'an end', 'beyond the moment and the expire', line)
        for at, word in zip(counted(table), match.groups()[2:]):
            for number in word.split(b'/')[at in RATES:]:
                require(int(number) <= (GREATEST if at in RATES else greatest(at)), 'a value', 'out of range', line)
        rows[place] = words
    return rows


def read_learned(output, roster, moment):
    """Returns the rows and the acknowledgements that `learn` printed."""
    lines = output.split(b'\n')[:-1]
    count = sum(1 for line in lines if line.startswith(b'row '))
    rows = read_rows(lines[:count], roster, moment)
    acks = []
    for line in lines[count:]:
        match = ACK_LINE.fullmatch(line)
        require(match and int(match[2]) <= GREATEST, 'a line', 'that is neither row nor ack', line)
        acks.append((int(match[1]), int(match[2])))
    require(acks == sorted(set(acks)) and len(dict(acks)) == len(acks), 'order of acks', '', acks)
    return rows, acks


def without_moments(rows, roster):
    """Returns rows without their ends and the starts of their rates."""
    tables = {table.id: table for table in roster}
    shown = {}
    for (at, key), words in rows.items():
        types = counted(tables[at])
        values = [word.split(b'/')[1:] if kind in RATES else word for kind, word in zip(types, words[4:])]
        shown[at, key] = [words[3]] + values + words[4 + len(types):]
    return shown
