"""Compare `write` with a second writer, on lists of numbers of many shapes, whole, cut off, damaged and gone on, and on buffers of many lengths.

The writer below was written from requests L2 and L5 of document 02, in another style than the definitions: a generator says which values the
next number may have, and is sent the number; rows are compared with those between the same two states; a row's bytes are searched, the
fewest of all that read back as the row. The C program prints the answer and the buffer afterwards, with the bytes before and behind it.
What was written is read again by the second reader of reading.py, row by row.

That no file of the plant is shorter is held by enumeration. For plants of up to three rows all files are made that have one of the 32 map
bytes for each row, and the row's own fields. For plants of one machine with up to two states, one type and two rows all files over the
bytes 0 to 32 are found, whatever they read as. `tests/compiled.py` runs it.
"""
import functools
import itertools
import random
import struct
import subprocess
import sys

import figures
import reading
from reading import Fault

LISTS = 5000
DRAWN = 6000
TWINS = 200
ROW_NUMBERS = 6
LONGEST_LIST = 2 + 2 * 16 + ROW_NUMBERS * 1024
GUARD = 8
WROTE = 8


# ---- the second writer

def listed_plant():
    """Goes through a list: yields the values that the next number may have, is sent that number, and returns the plant."""
    machines = yield range(1, 17)
    types = yield range(65)
    states, rows = [], []
    for m in range(machines):
        states.append((yield range(1, 65)))
        between = {}
        for _ in range((yield range(min(255, 1024 - len(rows)) + 1))):
            left = yield range(states[m])
            entered = yield range(states[m])
            kind = yield range(4)
            first = yield range(types if kind else 1)
            progress = yield range(2)
            second = yield range(types if kind == 3 else 1)
            parallel = between.setdefault((left, entered), [])
            if (kind, first, progress, second) in parallel:
                raise Fault(26, 2 + 2 * len(states) + ROW_NUMBERS * len(rows))
            parallel.append((kind, first, progress, second))
            rows.append((m, left, entered, {1: first, 3: second}.get(kind), first if kind > 1 else None, progress == 1))
    return types, states, rows


def said(numbers):
    """The plant that a list says, or its first fault."""
    listed = listed_plant()
    values = next(listed)
    for i, x in enumerate(numbers):
        if x not in values:
            raise Fault(24, i)
        try:
            values = listed.send(x)
        except StopIteration as done:
            if i + 1 < len(numbers):
                raise Fault(23, i + 1)
            return done.value
    raise Fault(23, len(numbers))


@functools.lru_cache(None)
def forms(row, implied):
    """All bytes, a map byte and the row's own fields, that read as the row where the machine's previous row leaves the implied state."""
    found = []
    for bits in range(32):
        fields = [field for k, field in enumerate(row[:4]) if bits >> k & 1]
        if None not in fields and reading.read_row(reading.Bytes([bits] + fields), 64, 64, implied) == row:
            found.append(bytes([bits] + fields))
    return found


def parts(plant):
    """The parts of a plant's files in order, each with the forms that it can have: counts have one, rows have several."""
    types, states, rows = plant
    yield [bytes([len(states), types])]
    for m, count in enumerate(states):
        mine = [row[1:] for row in rows if row[0] == m]
        yield [bytes([count, len(mine)])]
        for implied, row in zip([0] + [row[0] for row in mine], mine):
            yield forms(row, implied)


def shortest_file(plant):
    return b''.join(min(part, key=len) for part in parts(plant))


def owed(numbers, before):
    """The answer's kind, number, place and length, and the bytes of the buffer afterwards, with those before and behind it."""
    try:
        data = shortest_file(said(numbers))
        if len(data) > len(before) - 2 * GUARD:
            raise Fault(25, 0)
    except Fault as fault:
        return (0,) + fault.args + (0,), before
    return (WROTE, 0, 0, len(data)), before[:GUARD] + data + before[GUARD + len(data):]


# ---- lists

def list_of(types, machines):
    """The list of machines, each a count of states and rows of state left, state entered, kind, type, progress and the type sent by kind 3."""
    numbers = [len(machines), types]
    for states, rows in machines:
        numbers += [states, len(rows)] + [x for row in rows for x in row]
    return numbers


def row_numbers(left, entered, sent, taken, progress):
    """The six numbers of a row."""
    if sent is None or taken is None:
        return left, entered, 1 if sent is not None else 2 if taken is not None else 0, sent or taken or 0, int(progress), 0
    return left, entered, 3, taken, int(progress), sent


def drawn_rows(rng, states, types, count):
    """Up to so many different rows that often leave the state that the row before leaves, or the one that it enters, and often enter the
    state they leave. One that is there already is drawn again; after some tries there are no more."""
    rows, left, entered, again = {}, 0, 0, 0
    while len(rows) < count and again < reading.TRIES:
        left = rng.choice([left, left, entered, rng.randrange(states), rng.randrange(states)])
        entered = rng.choice([left, rng.randrange(states), rng.randrange(states)])
        kind = rng.choice([0, 1, 2, 3]) if types else 0
        number = rng.randrange(types) if kind else 0
        row = left, entered, kind, number, rng.randrange(2), rng.choice([number, rng.randrange(types)]) if kind == 3 else 0
        again = again + 1 if row in rows else 0
        rows[row] = True
    return list(rows)


def drawn_list(rng, most_machines, most_rows):
    types, machines, room = rng.choice([0, 1, 2, 5, 64]), [], 1024
    for _ in range(rng.randint(1, most_machines)):
        states, count = rng.choice([1, 2, 3, 64]), min(room, rng.randint(0, most_rows))
        room -= count
        machines.append((states, drawn_rows(rng, states, types, count)))
    return list_of(types, machines)


def longest_list():
    """16 machines of 64 states, 64 types and 1,024 rows, no field of which can be left out: its file is a longest one."""
    return list_of(64, [(64, [(63 - k, k, 3, (k + m) % 64, k % 3 // 2, 5 * k % 64) for k in range(64)]) for m in range(16)])


def counted_list(*counts):
    """Machines with so many rows, all different."""
    return list_of(0, [(64, [(k // 64 % 64, k % 64, 0, 0, k // 4096, 0) for k in range(count)]) for count in counts])


def twin_list(rng, numbers):
    """A list that says a plant, with a row twice in one of its machines."""
    types, states, rows = said(numbers)
    machines = [[row_numbers(*row[1:]) for row in rows if row[0] == m] for m in range(len(states))]
    reading.put_twin(rng, machines, (0, 0, 0, 0, 0, 0))
    return list_of(types, list(zip(states, machines)))


def twin_lists(rng):
    """Lists with a row twice: whole, cut off behind it and within it, gone on, and with its numbers and those behind it changed."""
    for i in range(TWINS):
        numbers = twin_list(rng, drawn_list(rng, *rng.choice([(1, 2), (2, 8), (3, 12), (16, 4), (6, 255)] if i % 10 == 0 else [(1, 2), (2, 8), (3, 12)])))
        try:
            said(numbers)
        except Fault as fault:
            first = fault.args[1]
        yield numbers
        yield numbers + [0]
        for end in range(first, min(len(numbers), first + ROW_NUMBERS + 2)):
            yield numbers[:end]
            for other in {2, 3, 64, 65535, numbers[end] + 1} - {numbers[end]}:
                yield numbers[:end] + [other] + numbers[end + 1:]


def edges():
    """Lists at the limits: counts of machines, types, states and rows, a total of 1,024 and 1,025 rows, no types, many numbers more."""
    yield from ([], [0], [1], [16], [17], [65535], [1, 64], [1, 65], [1, 0, 0], [1, 0, 1], [1, 0, 64], [1, 0, 65], [1, 0, 1, 0], [1, 0, 1, 1])
    for counts in ([255], [256], [257], [0] * 16, [0] * 17, [64] * 16, [64] * 15 + [65], [255] * 4 + [4], [255] * 4 + [5], [255] * 4 + [4, 0],
                   [255] * 4 + [4, 1], [255] * 5, [255] * 16, [0, 255, 0, 256], [1024], [1025], [204] * 5 + [4], [204] * 5 + [5]):
        yield counted_list(*counts)
    for last in (4, 5, 255, 256, 65535):
        yield counted_list(255, 255, 255, 255, 0)[:-1] + [last]
    for kind in range(5):
        yield [1, 0, 1, 1, 0, 0, kind]
        yield [1, 0, 1, 1, 0, 0, kind, 0, 0, 0]
        for fourth, progress, sixth in itertools.product((0, 63, 64), (1, 2), (0, 63, 64)):
            yield [1, 64, 1, 1, 0, 0, kind, fourth, progress, sixth]
        yield [1, 64, 1, 1, 0, 0, kind, 0, 1]
    yield longest_list()
    yield [1, 0, 1, 0] + [0] * 65536


def values_at(numbers):
    """The values that each number of a list may have."""
    listed = listed_plant()
    values = [next(listed)]
    for x in numbers[:-1]:
        values.append(listed.send(x))
    return values


def damaged(numbers):
    """Every truncation, each number changed to values at and beyond its ends and others, also where the list ends behind it or the next number is
    wrong too; numbers more."""
    for i, (x, values) in enumerate(zip(numbers, values_at(numbers))):
        yield numbers[:i]
        yield numbers[:i] + numbers[i + 1:]
        others = {0, 1, 2, 3, 4, 16, 17, 63, 64, 65, 255, 256, 65535, x + 1, x + 256, values.start - 1, values.stop - 1, values.stop, values.stop + 1}
        for other in sorted(others - {x, -1}):
            yield numbers[:i] + [other] + numbers[i + 1:]
        for other in (values.stop, 65535):
            yield numbers[:i] + [other]
        yield numbers[:i] + [65535, 65535] + numbers[i + 2:]
    for more in ([0], [1], [65535], [0] * 6, numbers):
        yield numbers + more


def damaged_lists(rng):
    """Damage at every place of small lists, and at some places of the longest."""
    for machines, rows, count in ((1, 3, 10), (2, 4, 7), (4, 6, 5), (16, 3, 2)):
        for _ in range(count):
            yield from damaged(drawn_list(rng, machines, rows))
    longest = longest_list()
    for i in sorted(rng.sample(range(len(longest)), 60)) + list(range(LONGEST_LIST - 14, LONGEST_LIST)):
        yield longest[:i]
        for other in (2, 3, 4, 64, 65535):
            yield longest[:i] + [other] + longest[i + 1:]
    for more in ([0], [65535], [0] * 1000):
        yield longest + more


# ---- cases: a list and the bytes of a buffer, with those before and behind it

def needed(numbers):
    """How long the file is, or a few bytes where there is none."""
    try:
        return len(shortest_file(said(numbers)))
    except Fault:
        return 6


def lent(rng, room):
    return rng.randbytes(room + 2 * GUARD)


def cases(rng):
    for numbers in edges():
        length = needed(numbers)
        for room in {0, 1, length - 2, length - 1, length, length + 1, length + 3}:
            yield numbers, lent(rng, room)
    yield [1, 0, 1, 0], lent(rng, 65536)
    for numbers in damaged_lists(rng):
        yield numbers, lent(rng, needed(numbers) - rng.choice([0, 0, 0, 0, 1, 4]))
    for numbers in twin_lists(rng):
        yield numbers, lent(rng, rng.choice([0, 6, reading.LONGEST_FILE]))
    for i in range(LISTS):
        numbers = drawn_list(rng, *rng.choice([(1, 2), (2, 8), (16, 8), (16, 40), (6, 255)] if i % 10 == 0 else [(1, 2), (2, 8), (3, 12), (8, 4)]))
        length = needed(numbers)
        for room in range(length + 4) if i % 40 == 1 else {max(0, length + rng.choice([-3, -2, -1])), length, length + rng.choice([1, 3, 40])}:
            yield numbers, lent(rng, room)


# ---- small plants and all their files

def all_rows(states, types):
    either, each = [None, *range(types)], range(states)
    return [row_numbers(*row) for row in itertools.product(each, each, either, either, (False, True))]


def with_counts(types, states, counts):
    """All lists with these counts of types, states and rows."""
    for rows in itertools.product(*[itertools.product(all_rows(s, types), repeat=count) for s, count in zip(states, counts)]):
        yield list_of(types, list(zip(states, rows)))


def small_lists(rng):
    """All plants of up to two rows, one or two machines, up to two states and one type, those with a row twice as well; some of three rows, up to
    three states and two types."""
    for states in ((1,), (2,), (1, 1), (1, 2), (2, 1), (2, 2)):
        for counts in itertools.product(range(3), repeat=len(states)):
            if sum(counts) <= 2:
                for types in (0, 1):
                    yield from with_counts(types, states, counts)
    for _ in range(DRAWN):
        first, types = rng.randint(0, 3), rng.choice([0, 1, 2])
        machines = [(s, drawn_rows(rng, s, types, count)) for s, count in zip(rng.choices([2, 3], k=2), (first, 3 - first))]
        yield list_of(types, machines if first < 3 else machines[:1])


def all_files(plant):
    """All files that have a map byte for each row with the row's own fields, and read as the plant."""
    for chosen in itertools.product(*parts(plant)):
        data = b''.join(chosen)
        if reading.read_plant(data) != plant:
            sys.exit('writing.py: %s reads as another plant' % data.hex(' '))
        yield data


def readable(data):
    """All files that begin with these bytes and go on with bytes from 0 to 32. They go on only where a byte is missing: every other fault stays."""
    try:
        reading.read_plant(data)
        yield data
    except Fault as fault:
        if fault.args[0] == 1:
            for b in range(33):
                yield from readable(data + bytes([b]))


def tiny_files():
    """All files of one machine with up to two states, one type and two rows, by the plants that they read as."""
    found = {}
    for head in itertools.product((1,), (0, 1), (1, 2), (0, 1, 2)):
        for data in readable(bytes(head)):
            types, states, rows = reading.read_plant(data)
            found.setdefault((types, tuple(states), tuple(rows)), set()).add(data)
    return found


def hold_shortest(written):
    """No file that reads as what a list says is shorter than the one that was written for it; how many plants and files there are."""
    tiny, count = tiny_files(), 0
    for numbers, data in written:
        plant = said(numbers)
        files = set(all_files(plant))
        if tiny.pop((plant[0], tuple(plant[1]), tuple(plant[2])), files) != files:
            sys.exit('writing.py: not all files that read as %s have its rows\' fields' % numbers)
        least = min(files, key=len)
        if len(least) < len(data) or data not in files:
            sys.exit('writing.py: %s was written for %s, but %s reads as that too' % (data.hex(' '), numbers, least.hex(' ')))
        count += len(files)
    if tiny:
        sys.exit('writing.py: %d plants that files read as were not written' % len(tiny))
    return len(written), count


# ---- the comparison

DRIVER = '''#include <stdio.h>
#include <stdlib.h>
#include <string.h>
#include "hemtaluq.h"
#define GUARD 8
int main(void) {
    uint32_t head[2];
    while (fread(head, 4, 2, stdin) == 2) {
        uint16_t *numbers = malloc(2 * head[0] + 2), *copy = malloc(2 * head[0] + 2);
        uint8_t *out = malloc(head[1] + 2 * GUARD);
        if (fread(numbers, 2, head[0], stdin) != head[0] || fread(out, 1, head[1] + 2 * GUARD, stdin) != head[1] + 2 * GUARD) return 1;
        memcpy(copy, numbers, 2 * head[0]);
        hemtaluq_write_answer w = hemtaluq_write(numbers, head[0], out + GUARD, head[1]);
        printf("%d %d %zu %zu ", w.kind, w.number, w.place, w.length);
        for (size_t i = 0; i < head[1] + 2 * GUARD; i++) printf("%02x", out[i]);
        printf(memcmp(copy, numbers, 2 * head[0]) ? " the list changed\\n" : "\\n");
        free(numbers); free(copy); free(out);
    }
    return 0;
}
'''


def packed(numbers, before):
    return struct.pack('<II%dH' % len(numbers), len(numbers), len(before) - 2 * GUARD, *numbers) + before


def answers(driver, given):
    """For each case kind, number, place and length, and the bytes of the buffer afterwards."""
    printed = subprocess.run([driver], input=b''.join(packed(*c) for c in given), capture_output=True, check=True).stdout.decode().split('\n')[:-1]
    if len(printed) != len(given):
        sys.exit('writing.py: %d answers to %d lists' % (len(printed), len(given)))
    for line in printed:
        *answer, after = line.split(' ', 4)
        if not set(after) <= set('0123456789abcdef'):
            sys.exit('writing.py: %s' % line[-200:])
        yield tuple(int(x) for x in answer), bytes.fromhex(after)


def judged(driver, given):
    """How often each kind and number was met, and for each list that was written the file."""
    met, written = {}, []
    for (numbers, before), (answer, after) in zip(given, answers(driver, given)):
        expected, kept = owed(numbers, before)
        if (answer, after) != (expected, kept):
            sys.exit('writing.py: list %s of %d numbers, room %d: %s, buffer %s, but owed is %s, buffer %s'
                     % (numbers[:60], len(numbers), len(before) - 2 * GUARD, answer, after[:200].hex(), expected, kept[:200].hex()))
        if answer[0] == WROTE:
            data = after[GUARD:GUARD + answer[3]]
            if reading.read_plant(data) != said(numbers):
                sys.exit('writing.py: list %s: %s reads as other rows' % (numbers[:60], data[:200].hex(' ')))
            written.append((numbers, data))
        met[answer[:2]] = met.get(answer[:2], 0) + 1
    return met, written


def compare(driver, seed):
    rng = random.Random(seed)
    given = list(cases(rng))
    met, written = judged(driver, given)
    for kind in ((WROTE, 0), (0, 23), (0, 24), (0, 25), (0, 26)):
        if met.get(kind, 0) < 1000:
            sys.exit('writing.py: kind %d with number %d was met %d times only' % (*kind, met.get(kind, 0)))
    small = [(list(numbers), lent(rng, needed(numbers) + 2)) for numbers in dict.fromkeys(tuple(n) for n in small_lists(random.Random(figures.SEED)))]
    plants, files = hold_shortest(judged(driver, small)[1])
    figures.hold(small_plants=plants, small_files=files)
    print('writing.py: seed %d: %d lists and buffers, of which %d are written, up to %d bytes, and %d, %d, %d and %d refused with 23, 24, 25 and 26; '
          '%d small plants, none of whose %d files is shorter than what was written'
          % (seed, len(given), len(written), max(len(data) for _, data in written), *(met[0, k] for k in (23, 24, 25, 26)), plants, files))
    return len(given) + len(small)
