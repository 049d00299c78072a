"""What a teacher knows, batches, the sizes of lessons, and the verdict on a stream (docs/FORMATS.md, sections 5, 6 and 11)."""

from collections import namedtuple

from fuzzing.received import Received, spelled
from harness.tables import (GREATEST, edge, has_names, key_word, life_word, random_key, random_life, random_name,
                            random_roster, random_values, table_line, value_words)
from harness.wire import definition_data, encoded, update_data

SLOTS = 128
GREATEST_PRICE = 2 ** 32

# `defined`, `selected`, `last` and `slots` are what is known at the start; `updates` are (TABLE, NUMBER, LIFE, KEY, VALUES, NAME).
Scene = namedtuple('Scene', 'roster defined selected last slots updates')


def random_scene(random, most):
    """Returns a scene of at most `most` updates."""
    roster = random_roster(random)
    if any(table.length > 1000 for table in roster):
        most = min(most, 20)
    names = [random_name(random) for _ in range(random.choice((1, 3, 20, 150, 150, 1000)))]
    untimed = random.choice((0, 0, 0.2, 1))
    defined, last, selected, slots = [], {}, None, {}
    if random.random() < 0.5:
        defined = [at for at in range(len(roster)) if random.random() < 0.6]
        last = {at: edge(random, GREATEST) for at in defined if random.random() < 0.7}
        selected = random.choice(defined) if defined and random.random() < 0.7 else None
        count = random.choice((0, 1, 10, 127, 128))
        slots = {slot: random.choice(names) for slot in random.sample(range(1, SLOTS + 1), count)}
    numbers = dict(last)
    updates = []
    at = random.randrange(len(roster))
    for _ in range(random.choice((0, 1, 2, 10, most // 4, most))):
        if random.random() < 0.2:
            at = random.randrange(len(roster))
        table = roster[at]
        following = numbers.get(at, 0) + 1 & GREATEST
        number = following if random.random() < 0.8 else edge(random, GREATEST)
        numbers[at] = number
        name = random.choice(names) if has_names(table) and random.random() < 0.95 else None
        life = None if random.random() < untimed else random_life(random, table)
        updates.append((at, number, life, random_key(random, table, True), random_values(random, table), name))
    return Scene(roster, defined, selected, last, slots, updates)


def scene_lines(scene):
    """Returns the lines of a scene, without a stream and prices."""
    tables = scene.roster
    lines = [table_line(table) for table in tables]
    lines += [b'define %d' % tables[at].id for at in scene.defined]
    lines += [b'last %d %d' % (tables[at].id, number) for at, number in scene.last.items()]
    lines += [b'select %d' % tables[scene.selected].id] if scene.selected is not None else []
    lines += [b'slot %d %s' % slot for slot in scene.slots.items()]
    return lines + [update_line(tables[update[0]], update[1:]) for update in scene.updates]


def update_line(table, update):
    number, life, key, values, name = update
    words = [b'update', b'%d' % table.id, b'%d' % number, life_word(life), key_word(table, key)] + value_words(values)
    return b' '.join(words + [b'-' if name is None else name] * has_names(table))


class Known(Received):
    """What a teacher knows of its learner, and the updates that the messages from there on carry."""

    def __init__(self, scene):
        super().__init__(scene.roster)
        for at in scene.defined:
            self.define(at, scene.roster[at].id)
        self.selected = None if scene.selected is None else scene.roster[scene.selected].id
        self.last = {scene.roster[at].id: number for at, number in scene.last.items()}
        self.slots = dict(scene.slots)
        self.updates = []

    def carry(self, at, number, life, key, values, text):
        self.updates.append((at, number, life, key, values, text))

    def take(self, said):
        if said[0] == 'define' and (said[2], said[3]) != (self.tables[said[1]].id, self.tables[said[1]].expire):
            self.fault = 'Foreign'
        else:
            super().take(said)


def before_the_scene(scene, tables):
    """Returns messages that bring a new learner to what a scene says is known at the start. Slots are written by updates of a
    stranger's table, which `tables` has at its end."""
    said: list[tuple] = []
    stranger = len(tables) - 1
    if scene.slots:
        said.append(('define', stranger, tables[stranger].id, 0))
        said += [('update', stranger, 1, None, b'\0\0\0\0', (), ('write', slot, name)) for slot, name in scene.slots.items()]
    for at in scene.defined:
        table = tables[at]
        said.append(('define', at, table.id, table.expire))
        if at in scene.last:
            values = tuple(0 if kind not in dict(table.periods) else (0, 0, 0) for kind in table.types if kind != 19)
            key = b'k'[:table.length - 1] if table.kind == 'string' else bytes(table.length)
            said.append(('update', at, scene.last[at], None, key, values, ('none',) if has_names(table) else None))
    if scene.selected is not None:
        said.append(('switch', tables[scene.selected].id))
    return said


# --- Sizes and prices

def sized(data):
    return 2 + len(encoded(len(data))) + len(data)


def costs(scene):
    """Returns the size of the lesson with every name written, and (place, name, saving) of each request."""
    known = Known(scene)
    full = place = 0
    requests = []
    for at, number, life, key, values, name in scene.updates:
        table = scene.roster[at]
        if known.selected != table.id:
            is_defined = table.id in known.defined
            full += sized(encoded(table.id) if is_defined else definition_data(table, table.id, table.expire))
            known.define(at, table.id)
        follows = table.id in known.last and number == known.last[table.id] + 1 & GREATEST
        known.last[table.id] = number

        def size(field):
            return sized(update_data(table, None if follows else number, life, key, values, field))
        field = None if not has_names(table) else ('none',) if name is None else ('write', 1, name)
        full += size(field)
        if name is not None:
            place += 1
            requests.append((place, name, size(field) - size(('read', 1))))
    return full, requests


def bound(scene, requests, prices):
    """Returns the most that links can save, as the prices show it."""
    before = [0]
    for price in prices:
        before.append(before[-1] + price)
    latest = {name: 0 for name in scene.slots.values()}
    total = (SLOTS - 1) * before[-1]
    for place, name, saving in requests:
        if name in latest:
            inside = before[place - 1] - before[latest[name]]
            total += max(0, saving - inside)
        latest[name] = place
    return total


def verdict(scene, messages, cut, prices):
    """Returns what `check` says of a stream of messages without its last `cut` bytes, or None if that isn't known, and how many messages
    are read before it."""
    known = Known(scene)
    place = 0
    ends = [len(spelled(said, scene.roster)) for said in messages]
    total = max(0, sum(ends) - cut)
    for count, (said, length) in enumerate(zip(messages, ends)):
        if place >= total:
            break
        if place + length > total:
            return 'not legal Cut at %d' % place, count
        known.take(said)
        if known.fault is not None:
            return 'not legal %s at %d' % (known.fault, place), count
        if not known.sure:
            return None, count
        place += length
    count = len(messages)
    if known.updates != list(scene.updates):
        pairs = zip(known.updates + [None], list(scene.updates) + [None])
        return 'not carried %d' % next(at for at, (one, other) in enumerate(pairs) if one != other), count
    full, requests = costs(scene)
    if len(prices) != len(requests):
        return 'price count', count
    if any(price > GREATEST_PRICE for price in prices):
        return 'price range', count
    most = bound(scene, requests, prices)
    if total + most == full:
        return 'shortest %d' % total, count
    return 'gap %d %d' % (max(0, full - total), most), count


def random_stream(random, scene):
    """Returns messages that carry the scene's updates, mostly legal, with prices."""
    known = Known(scene)
    said = []
    spare = random.choice((0, 0, 0.02, 0.2))
    wrong = random.choice((0, 0, 0.01))

    def say(message):
        said.append(message)
        known.take(message)
    for at, number, life, key, values, name in scene.updates:
        table = scene.roster[at]
        while random.random() < spare:
            say(('other', 0, random.randrange(5), b''))
        if known.selected != table.id or random.random() < spare:
            if table.id in known.defined and random.random() > spare:
                say(('switch', table.id))
            else:
                say(('define', at, table.id, table.expire ^ (random.random() < wrong)))
        follows = number == known.last.get(table.id, -2) + 1 & GREATEST
        shown = None if follows and random.random() > spare or random.random() < wrong else number
        lives = life if random.random() > wrong else 1 if life is None else None
        field = random_field(random, known, name, spare, wrong) if has_names(table) else None
        say(('update', at, shown, lives, key, values, field))
    if random.random() < 0.1 and said:
        del said[random.randrange(len(said))]
    return said, random_prices(random, sum(1 for update in scene.updates if update[5] is not None))


def random_field(random, known, name, spare, wrong):
    """Returns the name field of an update with a name, or none: read if a slot has it, and otherwise written."""
    if name is None:
        return ('none',)
    slots = [slot for slot in known.slots if known.slots[slot] == name]
    if slots and random.random() > spare:
        return 'read', min(slots)
    if random.random() < wrong:
        return 'read', random.randrange(1, SLOTS + 1)
    empty = [slot for slot in range(1, SLOTS + 1) if slot not in known.slots]
    return 'write', min(empty) if empty else random.randrange(1, SLOTS + 1), name


def random_prices(random, count):
    """Returns prices, mostly one for each of `count` requests and in range."""
    prices = [random.choice((0, 0, 0, 1, 5, GREATEST_PRICE)) for _ in range(count)] if random.random() < 0.5 else [0] * count
    if prices and random.random() < 0.1:
        prices[random.randrange(count)] = random.choice((GREATEST_PRICE + 1, 2 ** 64 - 1))
    if random.random() < 0.05:
        prices = prices[1:] if random.random() < 0.5 else prices + [0]
    return prices
