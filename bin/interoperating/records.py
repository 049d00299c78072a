"""What is noted while bin/interop runs: what was tracked, the blows, and what was seen of each member again and again."""

import bisect
import time
from collections import namedtuple

# How many seconds after its beginning a session may push nothing yet.
BEGINNING = 0.5

# A track of a key: when it was asked for and when that was over, and the value that was answered, or None if no answer came.
Track = namedtuple('Track', 'asked over value')


class Blow:
    """What befell a member from one moment to another. If a process of it ended, `tables` has the rows that the other members had then, as
    far as they answered."""

    def __init__(self, kind):
        self.kind = kind
        self.begun = time.monotonic()
        self.over = float('inf')
        self.tables = None

    @property
    def is_restart(self):
        return self.tables is not None

    def overlaps(self, begin, end):
        return self.begun <= end and self.over >= begin


class Records:
    """The records of a run, which goes from `began` to `over`. `members` have blows, sightings, and, if they are nodes, what they said; `cuts`
    are moments and pairs of names, `tables` moments and the rows that those members had then which answered, by their names."""

    def __init__(self, members, began):
        self.members = members
        self.began = began
        self.over = float('inf')
        self.cuts = []
        self.tables = []
        self.tracks = {}
        self.sticks = {}

    # --- Tracks

    def last(self, key):
        """Returns when a key was written last. Keys are `('ints', NUMBER)` and `('names', TEXT)`, as in the members' rows."""
        kind, name = key
        return self.tracks[name][-1].over if kind == 'ints' else self.sticks[name]

    def keys(self):
        return [('ints', key) for key in self.tracks] + [('names', key) for key in self.sticks]

    def writer(self, key):
        """Returns the member that writes a key."""
        kind, name = key
        return self.members[(name if kind == 'ints' else int(name[1:])) % len(self.members)]

    # --- Members

    def member(self, name):
        return next(member for member in self.members if member.name == name)

    def is_settled(self, key, seconds=1):
        """Whether no blow struck a key's writer from the last writing of it on for so many seconds."""
        written = self.last(key)
        return not any(blow.overlaps(written - 0.05, written + seconds) for blow in self.writer(key).blows)

    def restarts(self, member, begin, end):
        """Returns the blows from one moment to another that ended a process of a member."""
        return [blow for blow in member.blows if blow.is_restart and begin <= blow.begun < end]

    def ends(self, member, begin, end=float('inf')):
        """Returns the blows that ended a process of a member which ran at one moment, or a later one, and were followed by a start before
        another moment."""
        return [blow for blow in member.blows if blow.is_restart and begin < member.process(blow.over).begun <= end]

    def seen(self, member, begin, end):
        """Returns the sightings of a member from one moment to another, and the last one before."""
        moments = [sighting.moment for sighting in member.sightings]
        return member.sightings[max(0, bisect.bisect(moments, begin) - 1):bisect.bisect(moments, end)]

    def links(self, one, other, begin, end):
        """Returns whether two members were connected, at each moment from one to another when that was seen or changed."""
        blows = [blow for member in (one, other) for blow in member.blows if blow.overlaps(begin, end)]
        found = [(moment, False) for moment, pair in self.cuts if begin <= moment < end and pair == {one.name, other.name}]
        found += [(max(moment, begin), False) for blow in blows for moment in (blow.begun, blow.over) if moment < end]
        for member, peer in ((one, other), (other, one)):
            for sighting in self.seen(member, begin, end):
                is_struck = any(blow.begun <= sighting.moment <= blow.over for blow in blows)
                found.append((max(sighting.moment, begin), not is_struck and sighting.peers is not None and peer.name in sighting.peers))
        return sorted(found)

    def connected(self, one, other, begin, end):
        """Returns for how many seconds at a stretch two members were connected between two moments, at the most, less what a session takes
        to begin if it began there."""
        since, longest = None, 0
        links = self.links(one, other, begin, end)
        for moment, is_linked in links + [(end, bool(links) and links[-1][1])]:
            if not is_linked:
                since = None
            elif since is None:
                since = moment if moment == begin else moment + BEGINNING
            else:
                longest = max(longest, moment - since)
        return longest

    def shown(self, moment):
        """Returns a moment as the seconds since the beginning."""
        return moment - self.began
