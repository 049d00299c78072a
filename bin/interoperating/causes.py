"""Why a count that a node answered is gone, and why members have another row than its writer wrote last: the rules, for bin/interop.

A count is gone if its writer, a node, later answers a value that isn't above it, or has a lower one at the end. A process that runs retains
what it tracked, so a count has to be in doubt at a restart of the writer, and the causes are these:

- `killed before it was pushed`, `stopped before it was pushed`: the process ended less than UNPUSHED seconds after the answer, and no
  member had the count.
- `apart`: it ended later, and no member had the count, since none was connected with the writer long enough to get it: for UNPUSHED seconds
  at a stretch, between the answer, or the member's own last restart if that is later, and the end of the process.
- `taught without it`: some member had the count, but the writer was taught anew by one that lacked it for a reason above, or that was
  restarted and taught by one that lacked it. A node says who taught it; who taught a HAProxy isn't known, so it may have been any other.
- `beside its resync`: the writer tracks from its sixth second on, and its resync wasn't over yet. It then counts without what it had
  before, and the resync replaces what it counted. Likewise the resync of a member replaces what is pushed to it meanwhile.
- `not taught`: no member finished teaching the new process of a node.
- `left`: the writer had left the table, since the member acknowledged nothing of it on that connection.

What a member was taught it doesn't push on, and so it makes no difference to others that a further one has it.

`apart`, `beside its resync` and `not taught` go by what the members show. How long that may last after a blow is limited in limits.py.
The rows of a member that didn't answer are unknown: they show neither that it lacked a row nor that it had it."""

from collections import namedtuple

UNPUSHED = 0.5
# How long a node that isn't up to date lets tracks wait.
WAITING = 5

# `last` is the last track that answered a value that is gone, `next` the first one that shows it, or None if only the rows at the end do.
Fall = namedtuple('Fall', 'key writer last next count')


def falls(records, rows):
    """Returns all falls of the counts of nodes. `rows` are those that each member has at the end, by its name."""
    found = []
    for key, tracks in records.tracks.items():
        writer = records.writer(('ints', key))
        answered = [track for track in tracks if track.value is not None]
        if writer.kind != 'node' or not answered:
            continue
        for last, track in zip(answered, answered[1:]):
            if track.value <= last.value:
                found.append(Fall(key, writer, last, track, last.value + 1 - track.value))
        final = rows[writer.name].get(('ints', key), 0)
        if final < answered[-1].value:
            found.append(Fall(key, writer, answered[-1], None, answered[-1].value - final))
    return found


def gone(records, rows, kind):
    """Returns how many counts members of a kind answered, and how many of these their rows at the end lack."""
    answered = lacking = 0
    for key, tracks in records.tracks.items():
        writer = records.writer(('ints', key))
        if writer.kind == kind:
            count = sum(track.value is not None for track in tracks)
            answered += count
            lacking += max(0, count - rows[writer.name].get(('ints', key), 0))
    return answered, lacking


def lacks(key, row, wanted):
    """Whether a row of a key isn't the one that is wanted, or, of counts, a later one."""
    return (row or 0) < wanted if key[0] == 'ints' else row != wanted


def lacked(blow, name, key, wanted):
    """Whether a member is known to have lacked a row when a blow ended a process of another one."""
    return name in blow.tables and lacks(key, blow.tables[name].get(key), wanted)


# --- Who taught a member

def taught_without(records, key, wanted, member, blow, writer=None):
    """Whether a member that a blow restarted was taught by one that lacked a row: by the one that its log names, or else by any that isn't
    the writer."""
    lesson = member.lesson(member.process(blow.over))
    if lesson is None:
        return member.kind != 'node' and any(lacked(blow, name, key, wanted) for name in blow.tables if name != writer)
    return lacked(blow, lesson.teacher, key, wanted) or was_replaced(records, key, wanted, lesson.teacher, blow.begun, lesson.moment)


def was_replaced(records, key, wanted, teacher, begin, end):
    """Whether a teacher was restarted between two moments, and there is a reason why it wasn't taught the row."""
    member = records.member(teacher)
    return any(why_not_taught(records, key, wanted, member, blow) for blow in records.restarts(member, begin, end))


def is_untaught(member, blow):
    """Whether a node that a blow restarted was taught by nobody."""
    return member.kind == 'node' and member.lesson(member.process(blow.over)) is None


def why_not_taught(records, key, wanted, member, blow, writer=None):
    """Returns why a member that a blow restarted wasn't taught a row, or None if there is no reason."""
    if is_untaught(member, blow):
        return 'not taught', 'restarted at %.1f, no lesson was finished' % records.shown(blow.begun)
    if taught_without(records, key, wanted, member, blow, writer):
        return 'taught without it', 'restarted at %.1f, %s lacked it' % (records.shown(blow.begun), shown_teacher(member, blow))
    return None


def shown_teacher(member, blow):
    lesson = member.lesson(member.process(blow.over))
    return 'its teacher %s, or the teacher of that,' % lesson.teacher if lesson else 'another'


# --- Why a member other than the writer lacks a row

def why_lacking(records, key, wanted, written, member, moment):
    """Returns why a member lacks, at a moment, the row that the key's writer had from another moment on, and what shows it; the cause is
    None if the writer has to have pushed it. Only the process that wrote it does that."""
    ended = next((blow for blow in records.ends(records.writer(key), written) if blow.begun <= moment), None)
    if ended is None:
        return why_unpushed(records, key, wanted, written, member, moment)
    if member.name not in ended.tables:
        return None, 'it did not say what it had when the writer ended at %.1f' % records.shown(ended.begun)
    if lacked(ended, member.name, key, wanted):
        if ended.begun - written < UNPUSHED:
            word = {'kill': 'killed'}.get(ended.kind, 'stopped')
            return word + ' before it was pushed', '%d ms after it' % (1000 * (ended.begun - written))
        return why_unpushed(records, key, wanted, written, member, ended.begun)
    for blow in records.restarts(member, ended.begun, moment):
        found = why_not_taught(records, key, wanted, member, blow)
        if found:
            return found
    return None, 'it had the row when the writer ended at %.1f' % records.shown(ended.begun)


def why_unpushed(records, key, wanted, written, member, end):
    """Returns why a process that wrote a row, and ran until some moment, didn't push it to a member, or why the row didn't last there."""
    writer = records.writer(key)
    own = records.restarts(member, written, end)
    found = why_not_taught(records, key, wanted, member, own[-1], writer.name) if own else None
    if found:
        return found
    learned = learned_at(member, written)
    if not own and written < learned:
        return 'beside its resync', 'the resync of %s was over at %.1f' % (member.name, records.shown(learned))
    if writer.has_left(member.name, key[0], end):
        return 'left', 'the table was left, as never acknowledged'
    begin = own[-1].over if own else written
    seconds = records.connected(writer, member, begin, end)
    shown = 'connected for at most %.1f s from %.1f to %.1f' % (seconds, records.shown(begin), records.shown(end))
    return ('apart' if seconds < UNPUSHED else None), shown


def learned_at(member, moment):
    """Returns when the resync of a member's process was over, of the one that ran at a moment, or that was started just then."""
    starting = [blow.over for blow in member.blows if blow.is_restart and blow.overlaps(moment, moment)]
    return member.up_to_date(member.process(max(starting, default=moment)))


# --- Why the writer lacks a count

def cause(records, fall):
    """Returns the cause of a fall, or None if there is none, and what shows it."""
    until = fall.next.over if fall.next else float('inf')
    blows = records.ends(fall.writer, fall.last.over, until)
    if is_beside(fall.writer, fall.last):
        return 'beside its resync', 'the count was made before it was over'
    early = fallen_before(records, fall, blows[0].begun if blows else float('inf'))
    if early:
        return None, 'the writer had %d at %.1f, while it ran' % early
    if not blows:
        return None, 'the writer was not restarted'
    if fall.next and is_beside(fall.writer, fall.next):
        return 'beside its resync', 'the next count was made before it was over'
    for place, blow in enumerate(blows):
        is_last = place + 1 == len(blows)
        if is_last or fall.writer.lesson(fall.writer.process(blow.over)):
            found = cause_at(records, ('ints', fall.key), fall.last.value, fall.last.over, blow)
            if found:
                return found
    return None, 'each restart was survived'


def is_beside(writer, track):
    """Whether a node made a track more than WAITING seconds after its start, and wasn't up to date when that was asked for."""
    process = writer.process(track.over)
    return track.over >= process.begun + WAITING and track.asked < writer.up_to_date(process)


def fallen_before(records, fall, moment):
    """Returns a lower value that the writer had after the answer and before a moment, and when; or None if it is known to have had none."""
    for at, tables in records.tables:
        value = tables.get(fall.writer.name, {}).get(('ints', fall.key), 0)
        if fall.last.over < at < moment and fall.writer.name in tables and value < fall.last.value:
            return value, records.shown(at)
    return None


def cause_at(records, key, wanted, written, blow):
    """Returns why a row was gone after a restart of its writer, or None in the place of the cause if there was no reason; or None if the
    writer got the row back."""
    writer = records.writer(key)
    others = [member for member in records.members if member is not writer]
    lacking = [member for member in others if lacked(blow, member.name, key, wanted)]
    whys = {member.name: why_lacking(records, key, wanted, written, member, blow.begun) for member in lacking}
    lesson = writer.lesson(writer.process(blow.over))
    shown = '%s at %.1f, the others had %s, %s; taught by %s' % (
        blow.kind, records.shown(blow.begun), {name: rows.get(key) for name, rows in blow.tables.items()}, whys, lesson and lesson.teacher)
    if any(why[0] is None for why in whys.values()):
        return None, 'connected, and not pushed: ' + shown
    if lacking and len(lacking) == len(others):
        return next(iter(whys.values()))[0], shown
    if lesson is None:
        return ('not taught' if writer.kind == 'node' else None), shown
    if lesson.teacher in whys or was_replaced(records, key, wanted, lesson.teacher, blow.begun, lesson.moment):
        return 'taught without it', shown
    return None


# --- Why members differ

def why_differs(records, key, rows):
    """Returns the causes for which members lack what was written last under a key, and a record of it. A cause that isn't known is None."""
    writer = records.writer(key)
    wanted, written = wanted_row(records, key, rows)
    whys = {member.name: why_has_not(records, key, wanted, written, member)
            for member in records.members if lacks(key, rows[member.name].get(key), wanted)}
    has = {name: found.get(key) for name, found in rows.items()}
    shown = '%s, written by %s until %.1f%s, is now %s: %s' % (
        key[1], writer.name, records.shown(written), shown_tracks(records, key), has, whys)
    return [why[0] for why in whys.values()], shown


def wanted_row(records, key, rows):
    """Returns what a key's row should be at the end, and since when: the greatest count, or the writer's name of a server."""
    if key[0] == 'ints':
        wanted = max(found.get(key, 0) for found in rows.values())
        tracks = records.tracks[key[1]]
        return wanted, next((track.over for track in tracks if track.value is not None and track.value >= wanted), tracks[-1].over)
    writer = records.writer(key)
    return writer.server(key[1]) or rows[writer.name].get(key), records.last(key)


def why_has_not(records, key, wanted, written, member):
    """Returns why a member lacks a row at the end, and what shows it."""
    writer = records.writer(key)
    if member is not writer:
        return why_lacking(records, key, wanted, written, member, records.over)
    founds = [cause_at(records, key, wanted, written, blow) for blow in records.ends(writer, written)]
    return next(filter(None, reversed(founds)), (None, 'the writer has to have it'))


def shown_tracks(records, key):
    """Returns the last tracks of a key, as text."""
    if key[0] != 'ints':
        return ''
    return ', ' + ', '.join('%s at %.2f' % (track.value, records.shown(track.over)) for track in records.tracks[key[1]][-3:])
