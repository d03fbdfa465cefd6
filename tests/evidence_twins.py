"""Files and lists of numbers with a row that equals an earlier row of its machine, and with rows that nearly do.

The plants are those of evidence_plants.py, and some with as many rows as there may be. A row is put in again at a later place of its machine:
next to the first, far from it, at the end, a third time. A file has the second one in each of its forms, as a state that is implied may be
written or not; whole, cut off within the row and behind it, with each byte of the row wrong, and with a wrong byte and a byte more behind it. A
list of numbers has the same. Rows that differ in one field, or are in another machine, are no twins: these plants are read and written.
"""
import evidence_plants as plants
import reading
import writing
from reading import LONGEST_FILE
from writing import ROW_NUMBERS

BASES = 32
MAKERS = [plants.small, plants.passing, plants.exchange, plants.many_machines, plants.one_state, plants.many_types, plants.short_cuts, plants.first_not_largest]


# ---- plants

def with_row(machines, machine, place, row):
    """The machines with a row put in before the row at a place, or where there is no room for one more, in its place."""
    states, rows = machines[machine]
    full = len(rows) == 255 or sum(len(other) for _, other in machines) == 1024
    place = min(place, len(rows) - full)
    return machines[:machine] + [(states, rows[:place] + [row] + rows[place + full:])] + machines[machine + 1:]


def one_state_rows(count):
    """Rows of a machine of one state and 64 types: any two of them are parallel, and there are more than 255."""
    messages = [(None, None)] + [pair for t in range(64) for pair in ((t, None), (None, t))] + [pair for t in range(0, 64, 4) for pair in ((t, t), (t, t ^ 32))]
    return [(0, 0) + message + (progress,) for progress in (False, True) for message in messages][:count]


def most_rows():
    """Plants with 255 rows in a machine, the last of 16, and with 1,024 rows of five bytes."""
    between = [(k // 64, k % 64, None, None, k % 3 == 0) for k in range(255)]
    yield 64, [(1, one_state_rows(255))]
    yield 0, [(64, between)]
    yield 0, [(2, [(1, 0, None, None, False)])] * 15 + [(64, between)]
    yield 64, [(64, between)] * 4 + [(1, one_state_rows(4))]
    yield 64, [(64, [(63 - k, k, 5 * k % 64, (k + m) % 64, False) for k in range(64)]) for m in range(16)]


def drawn(rng):
    """Small plants of many shapes that have rows."""
    for i in range(BASES):
        types, machines = MAKERS[i % len(MAKERS)](rng)
        while not any(rows for _, rows in machines) or sum(len(rows) for _, rows in machines) > 60:
            types, machines = MAKERS[i % len(MAKERS)](rng)
        yield types, machines


# ---- twins and rows that nearly are

def places(rng, count):
    """Which row of so many is put in again, and before which: next to it, at the end, the first at the end, and anywhere behind it."""
    k = rng.randrange(count)
    return {(k, k + 1), (k, count), (0, count), (k, rng.randint(k + 1, count))}


def with_twins(rng, types, machines):
    """Plants with a row twice in one of the machines or in the last, and some with a row three times: types, machines, and of the later row its
    machine and its place there."""
    having = [m for m, (_, rows) in enumerate(machines) if rows]
    for m in sorted({rng.choice(having), having[-1]}):
        rows = machines[m][1]
        for k, place in sorted(places(rng, len(rows))):
            twin = with_row(machines, m, place, rows[k])
            yield types, twin, m, min(place, len(twin[m][1]) - 1)
        if len(rows) < 254:
            yield types, with_row(with_row(machines, m, 1, rows[0]), m, len(rows) + 1, rows[0]), m, 1


def near_messages(types, sent, taken):
    """What nearly is sent and taken: one of the two is another type, or none, or both are one type, or they are exchanged; the two themselves as well."""
    numbers = {t ^ by for t in (sent, taken) if t is not None for by in (0, 1)}
    yield taken, sent
    for t in [None] + sorted({0, types - 1, *numbers} & set(range(types))):
        yield from ((t, taken), (sent, t), (t, None), (None, t), (t, t))


def near(states, types, row):
    """Rows that differ from a row in the state left, in the state entered, in what is sent or taken, or in progress; the row itself as well."""
    left, entered, sent, taken, progress = row
    for other in sorted({(left + 1) % states, left ^ 32, 0} & set(range(states))):
        yield other, entered, sent, taken, progress
    for other in sorted({(entered + 1) % states, entered ^ 32, left} & set(range(states))):
        yield left, other, sent, taken, progress
    for message in near_messages(types, sent, taken):
        yield (left, entered) + message + (progress,)
    yield left, entered, sent, taken, not progress


def without_twins(rng, types, machines):
    """Plants with one more row that differs from another in one field, with all these rows, and with a machine again."""
    m = rng.choice([m for m, (_, rows) in enumerate(machines) if rows])
    states, rows = machines[m]
    more = [row for row in dict.fromkeys(near(states, types, rng.choice(rows))) if row not in rows]
    for row in more:
        yield types, with_row(machines, m, rng.choice([0, len(rows), rng.randint(0, len(rows))]), row)
    room = min(255, 1024 - sum(len(other) for _, other in machines) + len(rows))
    yield types, machines[:m] + [(states, (more + rows)[:room])] + machines[m + 1:]
    if len(machines) < 16 and len(rows) < room:
        yield types, machines + [(states, rows[:room - len(rows)])]
        yield types, [(states, rows[:room - len(rows)][::-1])] + machines


# ---- files

def file_with(rng, types, machines, machine, place, form):
    """A file in which the row at a place has these bytes, and where they begin."""
    data, begins = [len(machines), types], 0
    for m, (states, rows) in enumerate(machines):
        data += [states, len(rows)]
        for k, row in enumerate(rows):
            begins = len(data) if (m, k) == (machine, place) else begins
            data += form if (m, k) == (machine, place) else plants.row_bytes(rng, rows[k - 1][0] if k else 0, *row)
    return bytes(data), begins


def twin_files(rng, types, machines, machine, place):
    """The files of a plant with a row twice, the second in each of its forms."""
    rows = machines[machine][1]
    for form in reading.row_forms(rows[place], rows[place - 1][0]):
        data, begins = file_with(rng, types, machines, machine, place, form)
        ends = begins + len(form)
        yield data
        yield data + b'\x00'
        for end in range(begins, ends + 1):
            yield data[:end]
        for wrong in (12, 32, 255):
            yield data[:ends] + bytes([wrong]) + data[ends + 1:]
        for i in range(begins, ends):
            for wrong in {data[i] | 12, data[i] | 32, data[i] | 64, 255} - {data[i]}:
                yield data[:i] + bytes([wrong]) + data[i + 1:]


def files(rng):
    for types, machines in [*most_rows(), *drawn(rng)]:
        for twin in with_twins(rng, types, machines):
            yield from twin_files(rng, *twin)
        for plant in [(types, machines), *without_twins(rng, types, machines)]:
            yield plants.plant_file(rng, *plant)


# ---- lists of numbers

def list_of(types, machines):
    """The list of a plant, and for each machine where its rows begin."""
    said = [(states, [writing.row_numbers(*row) for row in rows]) for states, rows in machines]
    counts = [len(rows) for _, rows in machines]
    return writing.list_of(types, said), [4 + 2 * m + ROW_NUMBERS * sum(counts[:m]) for m in range(len(machines))]


def twin_lists(types, machines, machine, place):
    """The lists of a plant with a row twice, with the lengths of buffers: whole, gone on, cut off, and wrong in the later row and behind it."""
    numbers, begin = list_of(types, machines)
    first = begin[machine] + ROW_NUMBERS * place
    for room in (0, 1, LONGEST_FILE):
        yield numbers, room
    for more in ([0], [65535], numbers):
        yield numbers + more, LONGEST_FILE
    for i in range(first, min(first + ROW_NUMBERS + 3, len(numbers))):
        yield numbers[:i], LONGEST_FILE
        for wrong in {2, 3, 64, 65535, numbers[i] + 1, numbers[i] + 256} - {numbers[i]}:
            yield numbers[:i] + [wrong] + numbers[i + 1:], LONGEST_FILE
            yield numbers[:i] + [wrong], LONGEST_FILE


def lists(rng):
    for types, machines in [*most_rows(), *drawn(rng)]:
        for twin in with_twins(rng, types, machines):
            yield from twin_lists(*twin)
        for plant in without_twins(rng, types, machines):
            yield list_of(*plant)[0], LONGEST_FILE
