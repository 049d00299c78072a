"""Makes a case that fails smaller, as long as the same complaint comes."""

import time

from harness.program import Complaint

LONGEST_BYTES, MOST_PARTS = 4096, 10


def complaint_of(program, kind, case):
    """Returns what the judge of a case complains of, or None."""
    try:
        kind.judge(program, case)
    except Complaint as complaint:
        return complaint
    return None


def shrunk(program, kind, case, complaint, seconds):
    """Returns a case of which parts are left out and the complaint that it still gives, after at most about so many seconds."""
    latest = time.monotonic() + seconds
    found = complaint

    def fails(smaller):
        nonlocal found
        if time.monotonic() > latest:
            return False
        try:
            other = complaint_of(program, kind, smaller)
        except Exception:  # what is left makes no case
            return False
        if other is None or other.what != complaint.what:
            return False
        found = other
        return True
    before = None
    while before != case and time.monotonic() < latest:
        before = case
        for field in kind.shrinks:
            case = without_parts(case, field, fails)
        for field in kind.loose:
            case = with_fewer_bytes(case, field, fails)
            case = with_less(case, field, fails)
    return case, found


def without_parts(case, field, fails):
    """Leaves out what it can of a list: halves first, and then smaller runs."""
    size = len(case[field])
    while size:
        at = 0
        while at < len(case[field]):
            smaller = dict(case, **{field: case[field][:at] + case[field][at + size:]})
            if fails(smaller):
                case = smaller
            else:
                at += size
        size //= 2
    return case


def with_less(case, field, fails):
    """Halves the numbers in the tuples of a list that is short by now."""
    for at, part in enumerate(case[field][:MOST_PARTS]):
        for place in range(len(part) if isinstance(part, tuple) else 0):
            while isinstance(part[place], int) and part[place] > 0:
                changed = part[:place] + (part[place] // 2,) + part[place + 1:]
                smaller = dict(case, **{field: case[field][:at] + [changed] + case[field][at + 1:]})
                if not fails(smaller):
                    break
                case, part = smaller, changed
    return case


def with_fewer_bytes(case, field, fails):
    """Leaves out bytes of the strings of bytes in a list, and of those that are parts of its tuples."""
    for at in range(len(case[field])):
        part = case[field][at]
        places = range(len(part)) if isinstance(part, tuple) else [None]
        for place in places:
            old = part if place is None else part[place]
            if not isinstance(old, bytes) or len(old) > LONGEST_BYTES:
                continue
            size = len(old)
            while size:
                begin = 0
                while begin < len(old):
                    fewer = old[:begin] + old[begin + size:]
                    changed = fewer if place is None else part[:place] + (fewer,) + part[place + 1:]
                    smaller = dict(case, **{field: case[field][:at] + [changed] + case[field][at + 1:]})
                    if fails(smaller):
                        case, old, part = smaller, fewer, changed
                    else:
                        begin += size
                size //= 2
    return case
