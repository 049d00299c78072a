#!/usr/bin/env python3
"""Checks the subcommands that read a scene or a script, by the files of examples/ and by long scenes that are made here:

  scenes.py GROUP       the groups are those of `GROUPS`

It tries the built program, or the one that PEERS_NODE names. For each check it prints a line `passed WHAT` or `FAILED WHAT: WHY`; the status
is 0 only if none failed."""

import codecs
import os
import re
import sys
import time

sys.dont_write_bytecode = True
sys.path[0] = os.path.dirname(os.path.dirname(os.path.abspath(__file__)))

from harness.checking import check, ends, example, main, run  # noqa: E402, since the path has to be set first
from harness.program import TOP  # noqa: E402

T1 = b'table 1 t1 integer 4 30000 gpc0\n'
NAMES = b'table 3 st string 33 30000 server_key\n'
TWO_UPDATES = '0A820A01027431020404F0C40D0A850D000000010000753000000007050A860A0000753000000008F000'
GIGABYTE = ('prlimit', '--as=%d' % (1 << 30))


def lines_of(*lines):
    return b''.join(line.encode() + b'\n' for line in lines)


def repeated(count, line):
    """Returns a line so many times; its %d is the place, from 0."""
    return b''.join(line.replace(b'%d', b'%d' % place) for place in range(count))


def streams_of(output):
    """Returns the messages of a lesson as the lines `stream` of a scene."""
    return b''.join(b'stream %s\n' % line for line in re.findall(b'^[0-9A-F]+$', output, re.M))


def starting(scene, *words):
    """Returns the lines of a scene that begin with one of these words."""
    return b''.join(line for line in scene.splitlines(keepends=True) if line.startswith(tuple(word.encode() for word in words)))


# --- Scenes in files

def back_from(name, scene, lesson, before, wanted):
    """Feeds a lesson to a learner of the scene's tables that has read what comes before."""
    text = starting(scene, 'table ') + b'moment 4294967296\n' + (before or b'') + streams_of(lesson.output)
    ends('%s there and back' % name, run('learn', text=text), 0, wanted)


def checked(name, scene, lesson):
    """`check` calls a lesson, with its prices, a shortest one for the scene's updates."""
    left = b''.join(line for line in scene.splitlines(keepends=True) if not line.startswith((b'moment', b'stream', b'prices')))
    text = left + streams_of(lesson.output) + starting(lesson.output, 'prices')
    wanted = starting(lesson.output, 'bytes ').replace(b'bytes', b'shortest') or b'shortest\n'
    ends('check of the lesson of %s' % name, run('check', text=text), 0, wanted)


def scene_of(name):
    """Runs a scene whose answers stand beside it."""
    scene = example(name + '.scene')
    lesson, verdict, rows = (example(name + ending) for ending in ('.lesson', '.check', '.learn'))
    if (lesson, verdict, rows) == (None, None, None):
        check('%s.scene has an answer' % name, False)
    if lesson is not None:
        for _ in range(2):
            made = run('lesson', text=scene)
            ends('lesson of %s.scene' % name, made, 0, lesson)
        checked(name, scene, made)
        back_from(name, scene, made, example(name + '.before'), example(name + '.back'))
    if verdict is not None:
        ends('check of %s.scene' % name, run('check', text=scene), int(not verdict.startswith(b'shortest')), verdict)
    if rows is not None:
        ends('learn of %s.scene' % name, run('learn', text=scene), int(example(name + '.status') or 0), rows, example(name + '.errors') or b'')


# Which files have to stand beside one of each kind.
BESIDE = {'scene': (), 'lesson': ('scene', 'back'), 'learn': ('scene',), 'check': ('scene',), 'before': ('lesson',), 'back': ('lesson',),
          'errors': ('learn',), 'status': ('learn',), 'md': (), 'tsv': ()}


def scenes_in(folder):
    """Returns the group of a folder's scenes. Each file of an answer must have its scene."""
    def group():
        for file in sorted(os.listdir(os.path.join(TOP, 'examples', folder))):
            name, _, kind = os.path.join(folder, file).rpartition('.')
            if not os.path.isfile(os.path.join(TOP, 'examples', folder, file)):
                continue
            lost = [other for other in BESIDE.get(kind, ('scene',)) if example('%s.%s' % (name, other)) is None]
            if lost or kind not in BESIDE:
                check('%s is a part of an example, which has all of its parts' % file, False, lost)
            if kind == 'scene':
                scene_of(name)
    return group


def scripts_in(folder, subcommand, ending):
    """Returns the group of a folder's scripts NAME.script, each of which prints NAME.ENDING."""
    def group():
        names = os.listdir(os.path.join(TOP, 'examples', folder))
        for file in sorted(names):
            name, _, kind = file.rpartition('.')
            if {'script': ending, ending: 'script'}.get(kind) is None or '%s.%s' % (name, {'script': ending}.get(kind, 'script')) not in names:
                check('%s is a part of an example, which has all of its parts' % file, False)
            elif kind == 'script':
                ends('%s of %s' % (subcommand, file), run(subcommand, text=example('%s/%s' % (folder, file))), 0, example('%s/%s.%s' % (folder, name, ending)))
    return group


# --- Scenes in the lines of a table

def rows_of(name, count):
    """Yields the rows of a table of examples, each with so many cells at least, whose escapes are read."""
    for line in example(name).split(b'\n'):
        if line.strip() and not line.startswith(b'#'):
            cells = [codecs.escape_decode(cell)[0] for cell in line.split(b'\t')]
            yield cells + [b''] * (count - len(cells))


def answers(subcommand, answer, what, text):
    """The answer is `taken`, or what the subcommand refuses."""
    ending = run(subcommand, text=text)
    if answer == b'taken':
        ends('%s of %s' % (subcommand, what), ending, 0, ending.output)
    else:
        ends('%s of %s' % (subcommand, what), ending, 1, b'', answer + b': refused\n')


def short_scenes():
    begin = b''
    for subcommand, answer, lines in rows_of('lines.tsv', 3):
        if subcommand == b'begin':
            begin = answer.removeprefix(b'-')
            continue
        text = begin + (b'' if lines == b'-' else lines)
        for name in {b'both': ['lesson', 'learn'] + ['check'] * (answer != b'taken')}.get(subcommand, [subcommand.decode()]):
            answers(name, answer, repr(text), text)


def short_scripts(name, subcommand):
    """Returns the group of the scripts in the lines of a table."""
    def group():
        begin = b''
        for answer, lines in rows_of(name, 2):
            if answer == b'begin':
                begin = lines.removeprefix(b'-')
                continue
            text = begin + (b'' if lines == b'-' else lines)
            answers(subcommand, answer, repr(text), text)
    return group


def faults():
    lines = before = rows = acks = b''
    for fault, why, data, more, last in rows_of('faults.tsv', 5):
        if fault == b'scene':
            lines = why
        elif fault == b'before':
            before, rows, acks = (cell.removeprefix(b'-') for cell in (data, more, last))
        else:
            ending = run('learn', text=lines + b'stream %s\n' % (before + data).replace(b' ', b''))
            what = '%s: %s' % (fault.decode(), why.decode())
            if fault == b'none':
                ends(what, ending, 0, rows + acks)
            else:
                ends(what, ending, 1, rows, b'fault %s\n' % fault)


def cut_streams():
    """A stream that ends early has no fault; from some bytes on it has the row."""
    for table, stream, place, row in (
            (T1, TWO_UPDATES, 29, b'row 1 4294997296 7 5\nack 1 1\n'),
            (NAMES, '0A820D030273740621F0F1FE00F0C40D0A850F0000000100007530016104010273310A86080000753001620101', 34,
             b'row 3 4294997296 =a s1\nack 3 1\n')):
        for length in range(1, len(stream) // 2):
            ending = run('learn', text=table + lines_of('moment 4294967296', 'stream ' + stream[:2 * length]))
            ends('%d bytes of %s' % (length, stream), ending, 0, row if length >= place else b'')


def cut_lessons():
    """The stream of two updates, cut after each byte: it is legal only at the end of a message, and then it lacks updates."""
    whole = {0: 'not carried 0', 13: 'not carried 0', 29: 'not carried 1', 42: 'shortest 42'}
    for length in range(43):
        begun = max(end for end in (0, 13, 29) if end <= length)
        text = T1 + lines_of('update 1 1 30000 7 5', 'update 1 2 30000 8 240', *['stream ' + TWO_UPDATES[:2 * length]] * (length > 0))
        verdict = whole.get(length, 'not legal Cut at %d' % begun)
        ends('check of %d bytes of %s' % (length, TWO_UPDATES), run('check', text=text), int(length < 42), lines_of(verdict))


# --- Prices

def cyclic_updates():
    """Returns the updates of 129 names in turn, twice."""
    return NAMES + b''.join(b'update 3 %d 30000 =k n%03d\n' % (place + 1, place % 129) for place in range(258))


def price_of(place, price, what, scene, verdict):
    """Checks the verdict on 258 updates if a place has a price; of the others place 129 has 5, and all else 0."""
    prices = [price if at == place else 5 if at == 129 else 0 for at in range(1, 259)]
    ending = run('check', text=scene + b'prices %s\n' % ' '.join(map(str, prices)).encode())
    ends(what, ending, int(not verdict.startswith('shortest')), lines_of(verdict))


def forged_prices():
    """129 names in turn, twice, and the shortest lesson that teaches them: it reads all but one the second time. It has 3508 bytes, 640 fewer
    than the lesson that writes every name. A price raised by 1 raises the bound by 127, and lowers by 1 what the link from place 129 to 258
    saves above its prices, if the place is inside of it."""
    stream = '0A820D030273740621F0F1FE00F0C40D'
    for place in range(258):
        slot = 1 if place == 256 else min(place % 129 + 1, 128)
        head = '0A85110000000100007530016B' if place == 0 else '0A860800007530016B' if place >= 129 and place != 256 else '0A860D00007530016B'
        stream += head + ('01%02X' % slot if place >= 129 and place != 256 else '06%02X046E%s' % (slot, (b'%03d' % (place % 129)).hex().upper()))
    cyclic = cyclic_updates() + lines_of('stream ' + stream)
    price_of(129, 5, 'the prices of the shortest lesson of cyclic-names', cyclic, 'shortest 3508')
    price_of(129, 4, 'the price of place 129 lowered by 1', cyclic, 'gap 640 641')
    for place in range(1, 259):
        bound = 766 if 130 <= place <= 257 else 767
        price_of(place, 6 if place == 129 else 1, 'the price of place %d raised by 1' % place, cyclic, 'gap 640 %d' % bound)
    for count, price, what, verdict in ((258, 4294967296, 'the greatest prices there are', 'gap 640 140728898420736'),
                                        (257, 0, 'a price too few', 'price count'), (259, 0, 'a price too many', 'price count')):
        ends(what, run('check', text=cyclic + b'prices' + b' %d' % price * count + b'\n'), 1, lines_of(verdict))
    for place in 1, 129, 258:
        price_of(place, 4294967297, 'a price out of range at place %d' % place, cyclic, 'price range')


# --- Long scenes, made here

def counts():
    answers('lesson', b'taken', '64 tables', repeated(64, b'table 1%d t%d integer 4 0\n'))
    for subcommand in 'lesson', 'world':
        answers(subcommand, b'line 65', '65 tables', repeated(65, b'table 1%d t%d integer 4 0\n'))
    updates = T1 + b'update 1 1 30000 7 5\n' * 4097
    answers('lesson', b'line 4098', '4,097 updates', updates)
    wanted = lines_of('0A820A01027431020404F0C40D', *['0A850D00000001000075300000000705'] * 4096, 'bytes 65549', 'prices')
    ends('lesson of 4,096 updates', run('lesson', text=updates[:-len(b'update 1 1 30000 7 5\n')]), 0, wanted)


def names():
    longest = 'n' * 255
    server = 'table 1 st string 33 0 server_key'
    answers('lesson', b'taken', 'names of 255 bytes', lines_of('table 1 %s string 33 0 server_key' % longest, 'slot 1 ' + longest))
    answers('lesson', b'line 1', 'a table name of 256 bytes', lines_of('table 1 %sn integer 4 0' % longest))
    answers('lesson', b'line 2', 'a name of 256 bytes in a slot', lines_of(server, 'slot 1 %sn' % longest))
    answers('lesson', b'line 2', 'a name of 256 bytes in an update', lines_of(server, 'update 1 1 0 =a %sn' % longest))


def keys():
    """The longest key: 8191 bytes, so 4 + 4 + 3 + 8191 bytes of data. The same with a name, read by the update of the longest key: 4 + 3 + 8191
    + 2 bytes of data."""
    scene = lines_of('table 1 s string 8192 0', 'update 1 1 0 =' + 'k' * 8191)
    wanted = lines_of('0A820901017306F0F1020000', '0A85FAF1020000000100000000FFF002' + '6B' * 8191, 'bytes 8219', 'prices')
    ends('lesson of a key of 8191 bytes', run('lesson', text=scene), 0, wanted)
    answers('lesson', b'line 2', 'a key of 8192 bytes', lines_of('table 1 s string 8192 0', 'update 1 1 0 =' + 'k' * 8192))
    scene = lines_of('table 1 s string 8192 0 server_key', 'update 1 1 0 =a n1', 'update 1 2 0 =%s n1' % ('k' * 8191))
    wanted = lines_of('0A820C01017306F0F102F0F1FE0000', '0A850F000000010000000001610401026E31',
                      '0A86F8F10200000000FFF002' + '6B' * 8191 + '0101', 'bytes 8238', 'prices 0 0')
    made = run('lesson', text=scene)
    ends('lesson of a key of 8191 bytes and a name', made, 0, wanted)
    checked('a key of 8191 bytes and a name', scene, made)


def words():
    """A message of an unknown class with the most data allowed, and an update after it; and words of 4,000,000 bytes."""
    moment, digits = 'moment 4294967296', '1' * 4_000_000
    text = T1 + lines_of(moment, 'stream 0580F0F106' + '0' * 32768, 'stream 0A820A01027431020404F0C40D0A850D00000001000075300000000705')
    ends('learn of a message with 16384 bytes of data', run('learn', text=text), 0, b'row 1 4294997296 7 5\nack 1 1\n')
    answers('lesson', b'line 1', 'an id of 4,000,000 digits', lines_of('table ' + digits))
    answers('lesson', b'line 1', 'a price of 4,000,000 digits', lines_of('prices 1 ' + digits))
    answers('lesson', b'taken', 'a comment of 4,000,000 bytes', lines_of('#' + ' ' * 4_000_000, 'table 1 t1 integer 4 0'))
    text = lines_of('table 1 t1 integer 4 0', moment, 'stream ' + '0' * 4_000_000)
    ends('learn of 1,000,000 resync requests', run('learn', text=text), 0, b'')


def shortest_of(what, scene, size, written, read, back):
    """The lesson of a scene, in which each update has the key `k` and a name, has so many bytes, writes and reads so many names, and has a price
    for each; they show that it is a shortest one. Which one of several isn't fixed. A learner that is fed it prints rows. A read makes an
    update of 11 bytes, and a written name a longer one."""
    made = run('lesson', text=scene)
    ends('lesson of ' + what, made, 0, made.output)
    messages = re.findall(b'^[0-9A-F]+$', made.output, re.M)
    updates = [len(line) == 22 for line in messages if line.startswith((b'0A85', b'0A86'))]
    counted = [sum(map(len, messages)) // 2, updates.count(False), updates.count(True)]
    said = starting(made.output, 'bytes '), len(starting(made.output, 'prices ').split()) - 1
    check(what + ': bytes, names written, names read, bytes said, prices',
          (counted, said) == ([size, written, read], (b'bytes %d\n' % size, written + read)), counted, said)
    checked(what, scene, made)
    back_from(what, scene, made, None, back)
    return made


def shortest():
    """129 names in turn, twice: one more than there are slots, so the lesson writes one of them twice. As many names as there are slots, in turn,
    32 times: each is written once, in 20 bytes with the first number and in 16 without. A long name, 128 short ones in turn, twice, and the long
    name again: its link saves more than that of a short one, so the plan keeps it, though it ends last; at the prices of cyclic-names that lesson
    is a shortest one too."""
    shortest_of('cyclic-names', cyclic_updates(), 3508, 130, 128, b'row 3 4294997296 =k n128\nack 3 258\n')
    in_turn = NAMES + b''.join(b'update 3 %d 30000 =k n%03d\n' % (place + 1, place % 128) for place in range(4096))
    shortest_of('names-in-turn', in_turn, 45716, 128, 3968, b'row 3 4294997296 =k n127\nack 3 4096\n')
    long = NAMES + b''.join(b'update 3 %d 30000 =k %s\n' % (place + 1, b'a' * 20 if place in (0, 257) else b'n%03d' % ((place - 1) % 128))
                            for place in range(258))
    made = shortest_of('a-long-name', long, 3524, 130, 128, b'row 3 4294997296 =k aaaaaaaaaaaaaaaaaaaa\nack 3 258\n')
    price_of(129, 5, 'the prices of cyclic-names with the lesson of a-long-name', long + streams_of(made.output), 'shortest 3524')


def full_slots():
    """All slots hold names at the start, and updates name all of them after a new one. So one name has to go: `a`, which saves least. The lesson
    then writes it to the slot of the new name, which no later update has."""
    scene = NAMES + lines_of('define 3', 'select 3', 'last 3 5', 'slot 128 a', *('slot %d n%03d' % (place + 1, place) for place in range(127)),
                             'update 3 6 30000 =k zzzz', 'update 3 7 30000 =k a',
                             *('update 3 %d 30000 =k n%03d' % (place + 8, place) for place in range(127)))
    made = run('lesson', text=scene)
    wanted = lines_of('0A860D00007530016B0680047A7A7A7A', '0A860A00007530016B03800161',
                      *('0A860800007530016B01%02X' % slot for slot in range(1, 128)), 'bytes 1426')
    ends('lesson of full-slots, but for its prices', made._replace(output=made.output.split(b'prices')[0]), 0, wanted)
    checked('full-slots', scene, made)


def long_scenes():
    for part in counts, names, keys, words, shortest, full_slots:
        part()


# --- Large tables

def last_of(ending, count):
    """Returns how a run ended, of whose output only the number of lines and the last ones stay."""
    lines = ending.output.splitlines(keepends=True)
    return ending._replace(output=b'%d\n' % len(lines) + b''.join(lines[-count:]))


def million_tracks():
    """A history of 1,000,000 events is full. Each of its events can be read. After a checkpoint there is room again. The script takes at most
    10 s, in 1 GB."""
    change = 'track 0 4294967296 1 add gpc0 1'
    text = T1 + b'size 10\n' + lines_of(change) * 1000001 + lines_of(
        'open 1', 'purge 4294967296', 'events', 'rows', 'event 1000000', 'event 1000001', 'checkpoint', change, 'events', 'event 1', 'event 1000001')
    began = time.monotonic()
    ending = run('table', text=text, within=GIGABYTE)
    took = time.monotonic() - began
    ends('table of a script of 1,000,001 changes', last_of(ending, 14), 0, lines_of(
        '1000013', 'reply 1000000 4294997296 1 1000000 local', 'HistoryFull', 'HistoryFull', 'HistoryFull', 'events 1000000 room 0', 'rows 1',
        'row 1000000 4294997296 1 1000000 local', change + ' = reply 1000000 4294997296 1 1000000 local', 'none', 'ok',
        'reply 1000001 4294997296 1 1000001 local', 'events 1000001 room 999999', 'none', change + ' = reply 1000001 4294997296 1 1000001 local'))
    check('1,000,001 changes take at most 10 s', took <= 10, took)


def million_tracks_and_a_batch():
    """A full history whose last event is a copy: with its batch out no checkpoint is made, but a slide is, and keeps the batch."""
    change = 'track 0 4294967296 1 add gpc0 1'
    text = T1 + b'size 10\nopen 1\n' + lines_of(change) * 999998 + lines_of(
        'copy 1 push 512 4294967296', change, 'checkpoint', 'slide', 'settle 1 1', change, 'events', 'ack 1 999998', 'event 1000000', 'event 1000001',
        'checkpoint', 'events')
    ends('table of a script of 999,998 changes and a copy', last_of(run('table', text=text, within=GIGABYTE), 14), 0, lines_of(
        '1000012', 'reply 999998 4294997296 1 999998 local', 'batch 1 1', 'update 1 999998 30000 1 999998', 'HistoryFull', 'BatchOut',
        'dropped 1000000', 'ok', 'reply 999999 4294997296 1 999999 local', 'events 1000001 room 999999', 'all', 'none',
        change + ' = reply 999999 4294997296 1 999999 local', 'ok', 'events 1000002 room 1000000'))


def million_rows():
    """A table of 1,000,000 rows, each with a key of its own: it drops none to make room, and answers each change."""
    text = T1 + b'nopurge\n' + repeated(1000000, b'track 0 4294967296 %d add gpc0 1\n') + b'events\n'
    ends('table of a script of 1,000,000 rows', last_of(run('table', text=text, within=GIGABYTE), 2), 0, lines_of(
        '1000001', 'reply 1000000 4294997296 999999 1 local', 'events 1000000 room 0'))


def large_batch():
    """A batch has 4,096 rows at most: of 4,097 rows a copy takes all but the last, and the next copy takes that."""
    text = T1 + b'size 5000\nopen 1\n' + repeated(4097, b'track 0 4294967296 %d add gpc0 1\n') + lines_of(
        'copy 1 push 4096 4294967296', 'ack 1 4096', 'copy 1 push 4096 4294967296', 'events')
    ending = run('table', text=text)
    ends('table of a script of 4,097 rows and two batches', ending._replace(output=last_of(ending, 4101).output.partition(b'\n')[2]), 0, lines_of(
        'batch 1 4096', *('update 1 %d 30000 %d 1' % (number, number - 1) for number in range(1, 4097)), 'all', 'batch 2 1',
        'update 1 4097 30000 4096 1', 'events 4101 room 995899'))


def nearly_full_world():
    """A world whose table has room for one event more: a Break and a Reopen need two, so they change nothing, not even in part. With the last
    event the history is full."""
    text = T1 + lines_of('track 1 4294967296 7 add gpc0 5', 'copy 1 1 push 512 4294967296', 'teach 1', 'deliver 1 learner 29 4294967296', 'ack 1',
                         'deliver 1 teacher 8 4294967296') + b'purge 1 4294967296\n' * 999995 + lines_of(
        'break 1', 'session 1', 'events 1', 'reopen 1', 'session 1', 'events 1', 'copy 1 1 resync 512 4294967296', 'events 1', 'purge 1 4294967296',
        'purge 1 4294967296', 'events 1')
    session, events = 'session 1 copied 0 taught 1 applied 1 learner 0 teacher 0', 'events 999999 room 1'
    ends('world of a script of 1,000,006 steps', run('world', text=text), 0, lines_of(
        session, events, session, events, events, 'events 1000000 room 0'))


# --- Rounds

def round_of(threads, tracks, rounds=None):
    """There is a line for each round, and the row of each thread counts what it tracked in all of them."""
    ending = run('round', '--threads', str(threads), '--tracks', str(tracks), *(['--rounds', str(rounds)] if rounds else []))
    rows = ['row 1 - %d %d' % (key, tracks * (rounds or 1)) for key in range(1, threads + 1)]
    ends('%s rounds of %d threads that track %d times' % (rounds or 'unnumbered', threads, tracks), ending, 0, lines_of(*['audit ok'] * (rounds or 1), *rows))


def rounds():
    """A round of three threads that track 1,000 times each takes less than a second."""
    for given in ((2, 3), (1, 1), *((8, 1000),) * 10, (2, 3, 2), (3, 2, 1), (1, 1, 100), (8, 1000, 3)):
        round_of(*given)
    began = time.monotonic()
    round_of(3, 1000)
    took = time.monotonic() - began
    check('a round of 3 threads that track 1000 times takes less than a second', took < 1, took)
    ends('a round with the options the other way round', run('round', '--tracks=3', '--threads=2'), 0, lines_of('audit ok', 'row 1 - 1 3', 'row 1 - 2 3'))


GROUPS = {
    'worked-examples': scenes_in(''), 'more-lessons': scenes_in('lessons'), 'more-learners': scenes_in('learners'), 'real-streams': scenes_in('real'),
    'verdicts': scenes_in('verdicts'), 'short-scenes': short_scenes, 'faults': faults, 'cut-streams': cut_streams, 'cut-lessons': cut_lessons,
    'forged-prices': forged_prices, 'long-scenes': long_scenes, 'scripts': scripts_in('scripts', 'table', 'answers'),
    'short-scripts': short_scripts('script-lines.tsv', 'table'), 'worlds': scripts_in('worlds', 'world', 'world'),
    'short-worlds': short_scripts('world-lines.tsv', 'world'), 'large-batch': large_batch, 'nearly-full-world': nearly_full_world,
    'million-tracks': million_tracks, 'million-tracks-and-a-batch': million_tracks_and_a_batch, 'million-rows': million_rows, 'rounds': rounds,
}

if __name__ == '__main__':
    main(GROUPS)
