"""Lists of events for a watcher, on plants of many shapes, with what is owed for them (watching_model.py); watching.py puts them to the calls.

Lists are random ones, ones that put progress off, ones that double the heaviest message, ones of which every other event cannot happen, and long
ones up to the limits of progress rows and doublings. A case is a pair: the bytes for the C program of watching.py, and those that it owes.
"""
import itertools
import struct

import evidence_plants as plants
import quoting
import reading
import weighing
from watching_model import CONTENTS, COUNTS, DOUBLING, LOSS, MOST, ROW, STATES, WORDS, Watcher

SET_WORD, FILL, MOVE = range(3, 6)      # what is done to the struct between two calls
APART, DIRTY, ANY, EXACT = 1, 2, 4, 8   # of a case: lists apart, bytes before opening, judged by rules alone, no bytes around the lists
EVENT = struct.Struct('<IIQ')


# ---- events

def edge_numbers(count):
    return [max(count - 1, 0), count, 63, 64, 255, 256, 1023, 1024, 2 ** 31, 2 ** 32 - 1]


def any_event(rng, w):
    """A row, a loss or a doubling of any number, also of one that the plant lacks."""
    kind = rng.choice((ROW, ROW, ROW, LOSS, DOUBLING))
    count = len(w.rows) if kind == ROW else w.types
    return kind, rng.choice(edge_numbers(count)) if rng.random() < 0.08 else rng.randrange(count + 1)


def possible(w):
    """The rows that can happen."""
    rows, contents = w.rows, w.contents
    return [k for at in enumerate(w.states) for k in w.leaving.get(at, ()) if rows[k][4] is None or contents[rows[k][4]]]


def quiet_event(rng, w):
    """A quiet row where one can happen, else a progress row."""
    can = possible(w) if rng.random() < 0.9 else []
    return (ROW, rng.choice([k for k in can if not w.rows[k][5]] or can)) if can else any_event(rng, w)


def adversarial_event(rng, w):
    """The quiet row after which the messages weigh most; where none can happen, a heaviest message is doubled, and at times a progress row happens."""
    if rng.random() < 0.05:
        return any_event(rng, w)
    can = possible(w)
    quiet, present = [k for k in can if not w.rows[k][5]], [t for t in range(w.types) if w.contents[t]]
    if quiet:
        return ROW, max(quiet, key=lambda k: weighing.row_weight(w.rows[k], w.weights))
    if present and (not can or rng.random() < 0.5):
        return DOUBLING, max(present, key=lambda t: w.weights[t])
    return (ROW, rng.choice(can)) if can else any_event(rng, w)


def half_impossible(rng, w):
    """As often an event that cannot happen: a row in another state or without its message, a message that is absent, a number that the plant lacks."""
    if rng.random() < 0.5:
        return quiet_event(rng, w)
    absent = [t for t in range(w.types) if not w.contents[t]]
    if absent and rng.random() < 0.4:
        return rng.choice((LOSS, DOUBLING)), rng.choice(absent)
    for k in rng.sample(range(len(w.rows)), min(4, len(w.rows))):
        if w.refusal(ROW, k):
            return ROW, k
    return rng.choice((ROW, LOSS, DOUBLING)), 1024 + rng.randrange(5)


WAYS = (any_event, quiet_event, adversarial_event, half_impossible)


def taken(w, events):
    """The bytes of the events, and what the C program owes for them."""
    given, told = [], []
    for kind, number in events:
        given.append(EVENT.pack(kind, number, 0))
        told.append(w.take(kind, number))
    return given, told


def run_of(rng, w, way, count):
    return taken(w, (way(rng, w) for _ in range(count)))


def set_word(w, word, value):
    """The event that changes one word of the struct, as it is changed here."""
    w.words[word - STATES] = value
    return EVENT.pack(SET_WORD, word, value)


def near_limits(rng, w):
    """The bytes of changes to the struct: as many progress rows and doublings as may be, or nearly, with what is left then; some types without a
    message; and, where enough is left for the quiet rows that this allows, more than 2^32 messages of some types."""
    changes = []
    if rng.random() < 0.8:
        w.g, w.d = rng.choice([w.g, MOST, MOST - 1, MOST - 3]), rng.choice([w.d, MOST, MOST - 1, MOST - 2])
        changes += [set_word(w, COUNTS, w.left()), set_word(w, COUNTS + 1, w.g), set_word(w, COUNTS + 2, w.d)]
    for t in range(w.types):
        if rng.random() < 0.4:
            w.contents[t] = rng.choice([2 ** 32, 2 ** 32 - 1, 2 ** 33 + 1, 2 ** 63, 1, 0] if w.left() > 10 ** 5 else [0])
            changes.append(set_word(w, CONTENTS + t, w.contents[t]))
    return changes


# ---- cases: the bytes for the C program, and those that it owes

def case(data, weights, contents, flags, given, told, seed=0):
    head = struct.pack('<6I', len(data), len(weights), len(contents), flags, len(given), seed)
    lists = struct.pack('<%dH%dI' % (len(weights), len(contents)), *weights, *contents)
    return head + data + lists + b''.join(given), b''.join(told)


def watched(rng, data, weights, contents, runs, flags=0):
    """A case of some runs one after the other; between them the struct is moved, and at times brought near its limits."""
    w = Watcher(data, weights, contents)
    given, told = [], [w.opened()]
    for way, count in runs:
        for more in (run_of(rng, w, way, count), ([EVENT.pack(MOVE, 0, 0)], []), (near_limits(rng, w) if not w.fault and rng.random() < 0.3 else [], [])):
            given += more[0]
            told += more[1]
    told += [] if w.fault else [w.quoted()]
    return case(data, weights, contents, flags | rng.choice([0, APART]) | rng.choice([0, DIRTY]), given, told, rng.getrandbits(31))


def ring_plant(machines, states):
    """Rings of rows that take one type and send another, each with one progress row: any weights pass."""
    rows = [(s, (s + 1) % states) for s in range(states)]
    return bytes([machines, 64] + [b for m in range(machines) for b in [states, states] + [
        x for s, e in rows for x in (31 if e == 0 else 15, s, e, (3 * s + m) % 64, (s + m) % 64)]])


ONE_ROW = bytes([1, 1, 1, 1, 16])                           # a progress row
TAKES_TOO = bytes([1, 1, 1, 2, 16, 8, 0])                   # and one that takes
FEEDER = bytes.fromhex('0202 0303 070001 00 1b010201 030200 0203 0f000101 00 0b010100 030100')
ONE_TYPE = bytes.fromhex('0101 0203 0f000100 00 1f010000 00 1b010100')    # rows that take and send one type


def known_plants():
    """Plants with weights that pass: of the documents, with rows that take and send, and at the limits."""
    yield quoting.PLANT_A, [2, 1]
    yield ONE_ROW, [5]
    yield TAKES_TOO, [7]
    yield FEEDER, [2, 1]
    yield ONE_TYPE, [3]
    yield bytes([1, 0, 1, 0]), []
    yield bytes([16, 64] + [64, 0] * 16), [1000] * 64
    yield ring_plant(16, 64), [1000] * 64
    yield ring_plant(16, 64), list(range(64))
    yield reading.longest_file(), [999] * 64


def lively(rng):
    """A machine with a progress row that sends for each type, so that a run need never end, and others that take, send or do both."""
    types = rng.randint(1, 5)
    rows = [(0, 0, t, None, True) for t in range(types)]
    machines = [(s, plants.falling(rng, s, rng.randint(s, 3 * s), types)) for s in rng.choices([1, 2, 3, 5, 9], k=rng.randint(1, 4))]
    machines.insert(rng.randrange(len(machines) + 1), (rng.choice([1, 2]), rows))
    return types, machines


def passing_plants(rng, shapes):
    """Plants of these shapes with weights that pass."""
    while True:
        types, machines = rng.choice(shapes)(rng)
        data = plants.plant_file(rng, types, machines)
        for weights in ([t + 1 for t in range(types)], [rng.randint(0, 1000) for _ in range(types)]):
            if weighing.passes(reading.read_plant(data), weights):
                yield data, weights
                break


SHAPES = [lively, plants.small, plants.one_state, plants.first_not_largest, plants.many_types, plants.many_machines]


def at_limits(rng, data, weights):
    """Every event of a plant, several times in any order, where no further progress row or doubling may happen."""
    w = Watcher(data, weights, contents := [rng.randrange(2) for _ in weights])
    opened, w.g, w.d = w.opened(), MOST, MOST
    changes = [set_word(w, COUNTS, w.left()), set_word(w, COUNTS + 1, MOST), set_word(w, COUNTS + 2, MOST)]
    every = [(ROW, k) for k in range(len(w.rows) + 1)] + [(kind, t) for t in range(w.types + 1) for kind in (LOSS, DOUBLING)]
    given, told = taken(w, (event for _ in range(8) for event in rng.sample(every, len(every))))
    return case(data, weights, contents, 0, changes + given, [opened, *told, w.quoted()])


def opening_contents(rng, types):
    largest = rng.choice([0, 1, 3, 40, MOST])
    return [rng.choice([0, rng.randint(0, largest), largest]) for _ in range(types)]


def openings(rng, count):
    """Files, weights and contents of which many are refused: faults of each number, and files that are damaged."""
    for data in [*reading.edges(), *(reading.counted(255, 255, 255, 255, rest) for rest in range(3, 9))]:
        yield data, [], []
    for data, weights, contents, _, _ in itertools.islice(quoting.cases(rng), 2 * count):
        yield data, weights, contents
    known = list(known_plants())
    for _ in range(count):
        data, weights = rng.choice(known)
        yield rng.choice([reading.damaged, weighing.spoilt])(rng, data), weights, opening_contents(rng, len(weights))


def short_cases(rng, count, flags=0):
    """Every way on the known plants; three ways, one after the other, on others; openings of which many are refused, and events after them."""
    for data, weights in known_plants():
        for way in WAYS:
            runs = [(way, 150), (any_event, 40), (quiet_event, 30), (half_impossible, 40)]
            yield watched(rng, data, weights, opening_contents(rng, len(weights)), runs, flags)
        if len(data) < 99:
            yield at_limits(rng, data, weights)
    for data, weights in itertools.islice(passing_plants(rng, SHAPES), count):
        runs = [(rng.choice(WAYS), rng.choice([5, 60])) for _ in range(3)]
        yield watched(rng, data, weights, opening_contents(rng, len(weights)), runs, flags)
    for given in openings(rng, count):
        yield watched(rng, *given, [(any_event, 6)], flags)


def long_cases(rng, count, events):
    for i, (data, weights) in enumerate(itertools.islice(itertools.chain(known_plants(), passing_plants(rng, [lively])), count)):
        yield watched(rng, data, weights, opening_contents(rng, len(weights)), [(WAYS[i % 4], events)])


def limit_case(data, weights, contents, events):
    w = Watcher(data, weights, contents)
    opened = w.opened()
    given, told = taken(w, events)
    return case(data, weights, contents, 0, given, [opened, *told, w.quoted()])


def drawn(count, seed, *choices):
    """So many of these events, in the order of a generator."""
    for _ in range(count):
        seed = (seed * 6364136223846793005 + 1442695040888963407) & (2 ** 64 - 1)
        yield choices[(seed >> 33) % len(choices)]


def limit_cases():
    """A million progress rows, or doublings, and more: then the other sorts of events still go on."""
    others = [(ROW, 1), (LOSS, 0), (DOUBLING, 0), (ROW, 0), (ROW, 2), (LOSS, 1), (DOUBLING, 1)]
    yield limit_case(TAKES_TOO, [7], [60], [(ROW, 0)] * (MOST + 1) + others * 20)
    yield limit_case(TAKES_TOO, [1000], [1], [(DOUBLING, 0)] * (MOST + 2) + others * 40)
    yield limit_case(quoting.PLANT_A, [2, 1], [3, 4], drawn(MOST, 1, (ROW, 0), (ROW, 1), (ROW, 2), (ROW, 3), (ROW, 4), (LOSS, 1), (DOUBLING, 0), (DOUBLING, 1)))


def any_row(rng):
    """A row of the table that leaves state 0; its machine, state entered, types and progress may be such as no plant has."""
    types = [rng.choice([rng.randrange(64), 64, rng.getrandbits(8)]) for _ in range(2)]
    return int.from_bytes(bytes([rng.choice([rng.randrange(16), rng.getrandbits(6)]), 0, rng.getrandbits(8), *types, rng.choice([0, 0, 1, 9]), 1, 2]), 'little')


def any_words(rng):
    """Words of the struct that are set to anything; or rows that can happen among any bytes, with few progress rows and doublings so far."""
    anything = [0, 1, 5, 64, 1023, 2 ** 64 - 1, 2 ** 64 - 2]
    if rng.random() < 0.5:
        chosen = rng.choices([*range(1024, 1034), *range(2048, WORDS)], k=12)
        return [(word, rng.choice(anything + [rng.getrandbits(64), rng.getrandbits(40)])) for word in chosen]
    words = [(1024 + k, any_row(rng)) for k in range(10)] + [(STATES, 0), (STATES + 1, 0), (COUNTS, rng.choice(anything)), (COUNTS + 1, 9), (COUNTS + 2, 9)]
    return words + [(word, rng.choice(anything)) for word in range(CONTENTS, COUNTS)]


def any_bytes_cases(rng, count, flags=0):
    """Events on a struct of any bytes, or on that of a watcher with some words changed, judged by rules alone."""
    known = list(known_plants())
    for _ in range(count):
        data, weights = rng.choice(known)
        given = [EVENT.pack(FILL, 0, rng.getrandbits(64))] * rng.randrange(2) + [EVENT.pack(SET_WORD, *change) for change in any_words(rng)]
        for _ in range(60):
            number = rng.choice([*range(12), 15, 16, 1023, rng.randrange(1024), rng.randrange(64), *edge_numbers(64)])
            given.append(EVENT.pack(rng.choice((ROW, ROW, LOSS, DOUBLING)), number, 0))
        yield case(data, weights, opening_contents(rng, len(weights)), ANY | flags | rng.choice([0, APART]), given, [struct.pack('<I', len(given))])
