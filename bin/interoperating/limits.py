"""How soon members have to be connected with each other after a blow, and up to date after a start, for bin/interop. The causes of what is
gone or differs go by whether they were, so they need these limits."""

from collections import namedtuple

# For how many seconds after a blow that struck one of two members, or cut them off from each other, they may be apart.
APART = 15
# How many seconds after its start a process is up to date at the latest, unless it is struck before.
LEARNING = 20
# How many seconds a member that runs may go unseen.
UNSEEN = 6

# A time from one moment to another in which no blow struck either of two members.
Calm = namedtuple('Calm', 'begun over')


# --- Connections

def calms(records, one, other):
    """Returns the times in which two members have to be connected: each begins APART seconds after a blow was over."""
    struck = [(records.began, max(one.starts[0], other.starts[0]))]
    struck += [(blow.begun, blow.over) for member in (one, other) for blow in member.blows]
    struck += [(moment, moment) for moment, pair in records.cuts if pair == {one.name, other.name}]
    struck.sort()
    ends = [begun for begun, _ in struck[1:]] + [records.over]
    latest, found = 0, []
    for (_, over), end in zip(struck, ends):
        latest = max(latest, over)
        if latest + APART < end:
            found.append(Calm(latest + APART, end))
    return found


def apart(records, one, other, calm):
    """Returns what shows that a member wasn't connected with another one all through a calm time, or None if nothing does."""
    seen = [sighting for sighting in one.sightings if calm.begun <= sighting.moment < calm.over]
    without = [sighting for sighting in seen if sighting.peers is None or other.name not in sighting.peers]
    ends = one.ends(other.name, *calm)
    if without or ends:
        return shown_apart(records, one, other, calm, len(seen), without, ends)
    if not seen and calm.over - calm.begun > UNSEEN:
        return '%s was not seen from %.1f to %.1f' % (one.name, records.shown(calm.begun), records.shown(calm.over))
    return None


def shown_apart(records, one, other, calm, count, without, ends):
    """Returns the text that says how a member wasn't connected with another one in a calm time in which it was seen so many times."""
    text = '%s and %s, not struck from %.1f to %.1f: of %d times %s was seen from %.1f on, it was not connected with %s %d times' % (
        one.name, other.name, records.shown(calm.begun - APART), records.shown(calm.over), count, one.name, records.shown(calm.begun),
        other.name, len(without))
    if without:
        peers = 'nobody known, since it did not answer' if without[0].peers is None else sorted(without[0].peers)
        text += ', first at %.1f (connected with %s)' % (records.shown(without[0].moment), peers)
    return text + ''.join('; at %.1f it said: %s' % (records.shown(moment), line) for moment, line in ends)


def all_apart(records):
    """Returns how many calm times there were, and what shows that members weren't connected in them."""
    pairs = [(one, other) for one in records.members for other in records.members if one is not other]
    looks = [apart(records, one, other, calm) for one, other in pairs for calm in calms(records, one, other)]
    return len(looks), [look for look in looks if look]


# --- Learning

def is_due(records, member, begun):
    """Whether a process that was started at a moment has to have come to be up to date: the run went on, and nothing struck it before."""
    latest = begun + LEARNING
    return latest <= records.over and not any(begun < blow.begun <= latest for blow in member.blows)


def late(records, member, begun):
    """Returns what shows that a process which a member started at a moment wasn't up to date in time, or None if it was."""
    latest = begun + LEARNING
    if member.up_to_date(member.process(begun)) <= latest:
        return None
    seen = [sighting.resync for sighting in member.sightings if begun <= sighting.moment <= latest]
    said = ['%.1f %s' % (records.shown(moment), line) for moment, line in member.said if begun <= moment <= latest]
    return '%s, started at %.1f, was not up to date at %.1f; seen %d times, at last %s; it said: %s' % (
        member.name, records.shown(begun), records.shown(latest), len(seen), seen[-1:], '; '.join(said[-10:]) or 'nothing')


def all_late(records):
    """Returns how many processes had to come to be up to date, and what shows that some weren't in time."""
    looks = [late(records, member, begun) for member in records.members for begun in member.starts if is_due(records, member, begun)]
    return len(looks), [look for look in looks if look]
