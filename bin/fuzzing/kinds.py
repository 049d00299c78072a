"""The kinds of cases: how each is made from chance, and judged by what the program does with it.

A case is plain data, so that it can be kept in a file; tables are tuples there. What a case's judge raises is a `Complaint`. `shrinks`
names the lists of a case from which parts may be left out, and `loose` those whose parts may lose bytes too and still make a case."""

import random as chances
from collections import namedtuple

from fuzzing import configurations, doors, guests, lessons, requests, scripts, sessions, worlds
from fuzzing.lines import spoil_line
from harness.wire import framed
from harness.program import differing, fault_of, refused_line, require, text
from fuzzing.received import Learner, learned, spelled
from fuzzing.rows import learner_scene, read_learned, read_rows, without_moments
from fuzzing.streams import Talk, cut, random_moment, spoilt, with_other_expires
from harness.tables import FIRST_MOMENT, TYPES, Table, random_roster, table_line

Kind = namedtuple('Kind', 'name weight make judge shrinks loose')
# How often a stream comes at most, and how many bytes that are then, unless it has more than half as many itself.
MOST_TIMES, MOST_REPEATED = 100, 1 << 19


def tables_of(case):
    return [Table(*table) for table in case['tables']]


# --- learn: streams of which all is known, up to a message that isn't

def make_learn(random):
    length = random.choice((3, 10, 60, 60, 600, 600, 5000))
    talk = Talk(random, random_roster(random), random.choice((0, 0, 1 / length, 5 / length))).grow(length)
    return {'tables': talk.tables, 'roster': talk.roster, 'moment': random_moment(random), 'messages': talk.messages,
            'seed': random.getrandbits(32)}


def judge_learn(program, case):
    random = chances.Random(case['seed'])
    tables, messages = tables_of(case), [tuple(said) for said in case['messages']]
    roster, moment = tables[:case['roster']], case['moment']
    learner, known = learned(tables, len(roster), moment, messages)
    stream = b''.join([spelled(said, tables) for said in messages])

    def learn(pieces, times=1):
        program.decoded += known * times
        return program.read('learn', learner_scene(roster, moment, pieces))
    whole = learn([stream])
    read_learned(whole.output, roster, moment)
    if learner.sure:
        require(fault_of(whole) == learner.fault, 'a fault', 'is not', learner.fault, whole.errors)
        require(whole.output == learner.printed(), 'rows', 'are not those of the updates:', differing(whole.output, learner.printed()))
    pieces = learn(cut(random, stream))
    require(pieces == whole, 'pieces', 'and the whole differ:', differing(pieces.output, whole.output), pieces.errors, whole.errors)
    others = with_other_expires(random, tables, messages)
    other = learn([b''.join([spelled(said, tables) for said in others])])
    require(other == whole, 'another expire', 'in the definitions changes rows:', differing(other.output, whole.output), other.errors, whole.errors)
    if learner.sure and learner.fault is None:
        times = random.choice((2, min(MOST_TIMES, max(2, MOST_REPEATED // max(1, len(stream))))))
        again = learn([stream] * times, times)
        require(again == whole, 'a stream', 'that comes %d times leaves other rows:' % times, differing(again.output, whole.output), again.errors)
        begun = learn([stream, b'\x0A'])
        require(begun == whole, 'a message', 'that is not whole changes something:', differing(begun.output, whole.output), begun.errors)


# --- spoilt: streams of which nothing is known

def make_spoilt(random):
    talk = Talk(random, random_roster(random)).grow(random.choice((3, 10, 60, 600, 600, 2000)))
    if random.random() < 0.5:
        talk.messages = [said for said in talk.messages if said[0] != 'define'
                         or said[1] < talk.roster and said[2:] == (talk.tables[said[1]].id, talk.tables[said[1]].expire)]
    pieces, sound = spoilt(random, [spelled(said, talk.tables) for said in talk.messages] or [b'\0\0'])
    return {'tables': talk.tables[:talk.roster], 'moment': random_moment(random), 'pieces': pieces, 'sound': sound,
            'seed': random.getrandbits(32)}


def judge_spoilt(program, case):
    random = chances.Random(case['seed'])
    roster, moment, stream = tables_of(case), case['moment'], b''.join(case['pieces'])

    def learn(pieces):
        program.decoded += min(case['sound'], len(case['pieces']))
        return program.read('learn', learner_scene(roster, moment, pieces))
    whole = learn([stream])
    rows, _ = read_learned(whole.output, roster, moment)
    pieces = learn(cut(random, stream))
    require(pieces == whole, 'pieces', 'and the whole differ:', differing(pieces.output, whole.output), pieces.errors, whole.errors)
    verdict = program.read('check', learner_scene(roster, moment, [stream]))
    words = verdict.output.split()
    if words[:2] != [b'not', b'legal']:
        require(words[:2] == [b'not', b'carried'] or words[0] == b'shortest' or words[0] == b'gap', 'a verdict', '', verdict)
        require(fault_of(whole) is None, 'check', 'calls legal what learn does not:', verdict.output, whole.errors)
        return
    fault, place = words[2].decode(), int(words[4])
    before = learn([stream[:place]])
    require(before.status == 0, 'check', 'says that the messages before its place are legal, and learn does not:', verdict.output, before.errors)
    if fault == 'Foreign':
        return
    require(fault_of(whole) == (None if fault == 'Cut' else fault), 'check', 'and learn see other faults:', verdict.output, whole.errors)
    left, _ = read_learned(before.output, roster, moment)
    require(left == rows, 'rows', 'after a fault are not those of the messages before it:', differing(whole.output, before.output))


# --- check: streams with prices, and the verdict on them

def make_check(random):
    scene = lessons.random_scene(random, random.choice((10, 60, 60, 512, 512, 4096)))
    messages, prices = lessons.random_stream(random, scene)
    return {'tables': scene.roster, 'start': tuple(scene)[1:5], 'updates': scene.updates, 'messages': messages, 'prices': prices,
            'cut': random.randrange(1, 5) if random.random() < 0.1 else 0}


def scene_of(case):
    return lessons.Scene._make((tables_of(case), *case['start'], [tuple(update) for update in case['updates']]))


def judge_check(program, case):
    scene = scene_of(case)
    messages = [tuple(said) for said in case['messages']]
    stream = b''.join([spelled(said, scene.roster) for said in messages])
    stream = stream[:max(0, len(stream) - case['cut'])]
    wanted, read = lessons.verdict(scene, messages, case['cut'], case['prices'])
    lines = lessons.scene_lines(scene) + [b'stream ' + stream.hex().encode()] * bool(stream)
    lines.append(b' '.join([b'prices'] + [b'%d' % price for price in case['prices']]))
    program.decoded += read
    ending = program.read('check', text(lines))
    said = ending.output.decode().rstrip('\n')
    require(ending.status == (not said.startswith('shortest')) and not ending.errors, 'status', 'of a verdict', ending)
    require(wanted is None or said == wanted, 'a verdict', 'is not %s but' % wanted, said)


# --- lesson: a lesson, its prices, its check, and its learner

def make_lesson(random):
    scene = lessons.random_scene(random, random.choice((10, 60, 60, 512, 512, 4096)))
    return {'tables': scene.roster, 'start': tuple(scene)[1:5], 'updates': scene.updates, 'moment': random_moment(random)}


def judge_lesson(program, case):
    scene = scene_of(case)
    lines = lessons.scene_lines(scene)
    ending = program.read('lesson', text(lines))
    require(ending.status == 0, 'status', 'of a lesson', ending.errors)
    said = ending.output.split(b'\n')[:-1]
    require(len(said) >= 2 and said[-1].split(b' ')[0] == b'prices', 'a lesson', 'without prices', said[-1:])
    pieces = [bytes.fromhex(line.decode()) for line in said[:-2]]
    stream, prices = b''.join(pieces), [int(word) for word in said[-1].split(b' ')[1:]]
    require(said[-2] == b'bytes %d' % len(stream), 'a lesson', 'of another length than it says', said[-2])
    require([[len(piece)] for piece in pieces] == [[len(piece) for _ in framed(piece)] for piece in pieces], 'a lesson', 'without one message a line')
    full, requests = lessons.costs(scene)
    require(len(prices) == len(requests) and all(price <= lessons.GREATEST_PRICE for price in prices), 'prices', '', prices)
    require(len(stream) + lessons.bound(scene, requests, prices) == full, 'a lesson', 'is not shown to be shortest', len(stream), full)
    judge_back(program, case, scene, pieces)
    program.decoded += len(pieces)
    verdict = program.read('check', text(lines + [b'stream ' + piece.hex().encode() for piece in pieces] + [said[-1]]))
    require(verdict.output == b'shortest %d\n' % len(stream), 'check', 'does not call a lesson shortest', verdict.output)


def judge_back(program, case, scene, pieces):
    """A learner that knows what the scene says reads the lesson back: the rows as the updates say."""
    taken = {table.id for table in scene.roster}
    stranger = Table(next(at for at in range(1, 99) if at not in taken), b'\xFF', 'integer', 4, 0, (TYPES.index('server_key'),), ())
    tables = scene.roster + [stranger]
    before = lessons.before_the_scene(scene, tables)
    learner = Learner(tables, len(scene.roster), case['moment'])
    for said in before:
        learner.take(said)
    require(learner.sure and learner.fault is None, 'the fuzzer', 'made messages that are no steps', learner.fault)
    for at, number, life, key, values, name in scene.updates:
        table = scene.roster[at]
        learner.rows[table.id, key] = life, values, name
        learner.defined[table.id] = at
        learner.last[table.id] = number
        learner.owing.add(table.id)
    stream = b''.join([spelled(said, tables) for said in before])
    program.decoded += len(before) + len(pieces)
    back = program.read('learn', learner_scene(scene.roster, case['moment'], [stream] + pieces))
    require(back.output == learner.printed(), 'a lesson', 'is read back as other rows:', differing(back.output, learner.printed()), back.errors)


# --- lines: spoilt scenes and scripts

def make_lines(random):
    what = random.choice(('scene', 'scene', 'table', 'world'))
    if what == 'scene':
        lines = lessons.scene_lines(lessons.random_scene(random, 10))
        lines += [b'moment %d' % random_moment(random), b'stream 0A83', b'prices 1 2']
    elif what == 'table':
        lines = scripts.random_script(random, 15)[1]
    else:
        world = worlds.random_world(random, 15)
        lines = worlds.script_of(*world)[:60]
    for _ in range(random.choice((1, 1, 2, 5))):
        spoil_line(random, lines)
    return {'what': what, 'lines': lines, 'end': b'' if random.random() < 0.05 else b'\n'}


def judge_lines(program, case):
    lines = case['lines']
    whole = b'\n'.join(lines) + case['end'] if lines else b''
    names = ('lesson', 'learn', 'check') if case['what'] == 'scene' else (case['what'],)
    refused = set()
    for subcommand in names:
        ending = program.read(subcommand, whole)
        require(case['what'] == 'scene' or ending.status == (refused_line(ending) is not None), 'status', 'of a script', ending)
        refused.add(refused_line(ending))
    if None in refused or 0 in refused:
        require(not any(refused), 'a refused line', 'of one subcommand alone', refused)
        return
    require(len(refused) == 1, 'refused lines', 'that differ', refused)
    line = refused.pop()
    lines = whole.split(b'\n')
    require(1 <= line <= len(lines), 'a refused line', 'that is not there', line)
    if case['end'] or line < len(lines):
        cut_after = program.read(names[0], text(lines[:line]))
        require(refused_line(cut_after) == line, 'a refused line', 'is taken without the lines after it', line, cut_after.errors)
    before = program.read(names[0], text(lines[:line - 1]))
    require(not refused_line(before), 'a refused line', 'is not the first', line, before.errors)


# --- table and world

def make_table(random):
    table, lines = scripts.random_script(random, random.choice((10, 40, 150, 400)))
    return {'tables': [table], 'lines': lines[1:], 'seed': random.getrandbits(32)}


def judge_table(program, case):
    table = tables_of(case)[0]
    lines = [table_line(table)] + case['lines']
    ending = program.read('table', text(lines))
    require(ending.status == 0, 'a script', 'is refused', ending.errors)
    calls = scripts.audited(table, lines, ending.output)
    lines = scripts.with_settles(chances.Random(case['seed']), lines, calls)
    settled = program.read('table', text(lines))
    require(settled.status == 0, 'a script', 'is refused', settled.errors)
    scripts.audited(table, lines, settled.output)
    kept = scripts.without_settles(lines, settled.output)
    require(kept == ending.output, 'settle', 'changes other answers:', differing(kept, ending.output))


def make_world(random):
    roster, count, versions, options, steps, moment = worlds.random_world(random, random.choice((10, 40, 100)))
    return {'tables': roster, 'sessions': count, 'versions': versions, 'options': options, 'lines': steps, 'moment': moment,
            'seed': random.getrandbits(32)}


def judge_world(program, case):
    roster = tables_of(case)
    lines = worlds.script_of(roster, case['sessions'], case['versions'], case['options'], case['lines'], case['moment'])
    ending = program.read('world', text(lines))
    require(ending.status == 0, 'a script', 'is refused', ending.errors)
    worlds.judge_answers(roster, case['sessions'], case['versions'], lines, case['moment'], ending.output)
    pieces = program.read('world', text(worlds.in_pieces(chances.Random(case['seed']), lines)))
    require(pieces == ending, 'pieces', 'and whole deliveries differ:', differing(pieces.output, ending.output))


# --- round, and command lines

def make_words(random):
    words = []
    if random.random() < 0.5:
        words = ['round', '--threads', str(random.randint(1, 8)), '--tracks', str(random.choice((1, 2, 50, 1000)))]
        if random.random() < 0.3:
            words += ['--rounds', str(random.choice((1, 2, 3)))]
    else:
        some = ('lesson', 'learn', 'check', 'table', 'world', 'round', 'serve', 'join', '--threads', '--tracks', '--rounds', '--turns', '--port', '--name',
                '--peer', '--', '-', '', '-h', '--help', '0', '1', '-1', '9', '1001', '65536', '1000001', '99999999999999999999', 'a', '--x=1', '\u00e9')
        words = [random.choice(some) for _ in range(random.randint(0, 6))]
    return {'words': words}


def judge_words(program, case):
    words = case['words']
    ending = program.run(*words, text=b'table 1 t1 integer 4 30000 gpc0\nmoment 4294967296\n')
    is_round = len(words) in (5, 7) and words[0] == 'round' and words[1] == '--threads' and words[3] == '--tracks' and words[5:6] in ([], ['--rounds'])
    rounds = words[6] if len(words) == 7 else '1'
    if is_round and words[2] in map(str, range(1, 9)) and words[4] in map(str, range(1, 1001)) and rounds in map(str, range(1, 101)):
        counted = int(words[4]) * int(rounds)
        rows = b''.join(b'row 1 - %d %d\n' % (key, counted) for key in range(1, int(words[2]) + 1))
        require(ending == (0, b'audit ok\n' * int(rounds) + rows, b''), 'a round', 'ends otherwise', ending)
        return
    require(ending.status in (0, 1, 2, 4), 'status', 'of a command line', ending)
    require(ending.status != 1 or refused_line(ending), 'standard error', 'of a command line', ending)
    if ending.status:
        require(not ending.output and ending.errors[-1:] == b'\n', 'a command line', 'that is refused without a text alone', ending)


# --- sessions

def make_session(random):
    scene = lessons.random_scene(random, random.choice((0, 2, 10, 40, 512)))
    return sessions.random_session(random, scene.roster, scene.updates)


def judge_session(program, case):
    tables = tables_of(case)
    roster = tables[:case['roster']]
    updates = [tuple(update) for update in case['updates']]
    lines = lessons.scene_lines(lessons.Scene(roster, [], None, {}, {}, updates))
    case = dict(case, acts=[tuple(act) for act in case['acts']])
    ending, far = sessions.held(program, case, text(lines), Learner(tables, len(roster), FIRST_MOMENT))
    is_sound = case['sound'] and far.learner.fault is None and far.learner.sure
    judged = sessions.judge_ending(case, ending, far, roster)
    if judged is None:
        return
    rows, turns = judged
    if is_sound or sessions.is_plain(case, far):
        judge_learned(program, case, ending, far, rows)
    if is_sound and case['acts'] and case['acts'][-1] == ('ask',):
        judge_taught(program, far, roster, rows, turns)


def judge_learned(program, case, ending, far, rows):
    """A node learns from what was sent what `learn` learns, and acknowledges the same."""
    roster = tables_of(case)[:case['roster']]
    stream = bytes(far.sent)
    back = program.read('learn', learner_scene(roster, FIRST_MOMENT, [stream]))
    require(fault_of(back) == fault_of(ending), 'a fault', 'of a session is not that of learn:', ending.errors, back.errors)
    wanted = {}
    if case['node'] == 'serve':
        loaded = Learner(roster, len(roster), FIRST_MOMENT)
        for at, number, life, key, values, name in case['updates']:
            loaded.rows[roster[at].id, key] = life, values, name
        wanted.update(read_rows(loaded.printed().split(b'\n')[:-1], roster, FIRST_MOMENT))
    taken, acks = read_learned(back.output, roster, FIRST_MOMENT)
    wanted.update(taken)
    shown, wanted = without_moments(rows, roster), without_moments(wanted, roster)
    require(shown == wanted, 'rows', 'of a session are not those of what it was sent:', sorted(shown.items()), sorted(wanted.items()))
    if not far.is_reset and case['ending'] == 'end':
        latest, moved = dict(far.acks), sessions.moved_ids(stream)
        missing = [ack for ack in acks if latest.get(ack[0]) != ack[1] and ack[0] not in moved]
        require(not missing, 'an acknowledgement', 'is missing:', missing, far.acks[-20:])
    carried = sum(1 for _, class_byte, type_byte, _ in framed(stream) if class_byte == 10 and type_byte in (128, 129, 133, 134))
    require(len(far.acks) <= carried, 'acknowledgements', 'are more than updates', len(far.acks), carried)


def judge_taught(program, far, roster, rows, turns):
    """What a node taught in a resync, `learn` reads back as the node's rows that hadn't ended."""
    back = program.read('learn', learner_scene(roster, FIRST_MOMENT, [bytes(far.taught)]))
    require(back.status == 0, 'a lesson', 'of a session has a fault', back.errors)
    taught = sessions.without_rates(read_learned(back.output, roster, FIRST_MOMENT)[0], roster)
    shown = sessions.without_rates(rows, roster)
    for place, row in shown.items():
        ends = rows[place][2]
        require(taught.get(place) == row or ends != b'-' and int(ends) <= FIRST_MOMENT + turns, 'a resync', 'leaves out a row:', row, taught.get(place))
    require(set(taught) <= set(shown), 'a resync', 'teaches a row that is not there:', set(taught) - set(shown))


ALL = (
    Kind('learn', 30, make_learn, judge_learn, ('messages',), ()),
    Kind('spoilt', 30, make_spoilt, judge_spoilt, ('pieces',), ('pieces',)),
    Kind('check', 10, make_check, judge_check, ('messages', 'updates', 'prices'), ()),
    Kind('lesson', 10, make_lesson, judge_lesson, ('updates',), ()),
    Kind('lines', 15, make_lines, judge_lines, ('lines',), ('lines',)),
    Kind('table', 12, make_table, judge_table, ('lines',), ()),
    Kind('world', 12, make_world, judge_world, ('lines', 'options'), ()),
    Kind('words', 3, make_words, judge_words, ('words',), ()),
    Kind('session', 30, make_session, judge_session, ('acts', 'updates'), ('acts',)),
    Kind('configuration', 6, configurations.make, configurations.judge, (), ()),
    Kind('door', 1, doors.make, doors.judge, ('acts', 'tables'), ('acts',)),
    Kind('peer', 2, guests.make, guests.judge, ('acts', 'more'), ('acts',)),
    Kind('request', 1, requests.make, requests.judge, ('acts', 'more'), ('acts',)),
)
BY_NAME = {kind.name: kind for kind in ALL}
