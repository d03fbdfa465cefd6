"""Compare `confirm` with a second implementation, on random plants and lists of numbers.

The second one takes numbers from an iterator and raises the first fault; a cycle is judged by following its rows in a
dictionary from states to rows, and sums are kept for each type in Python's whole numbers. For sets that are confirmed,
weights of weighing.py are tried: none may pass. `tests/compiled.py` runs it.
"""
import random
import struct
import subprocess
import sys

import listing
import reading
import weighing

CASES = 20000
PLANT_B = bytes.fromhex('0202 0202 060100 0b010001 0202 0a0100 07010001')


# ---- the second implementation

class Numbers:
    def __init__(self, numbers):
        self.numbers, self.at = numbers, 0

    def next(self, low, high):
        if self.at == len(self.numbers):
            raise reading.Fault(15, self.at)
        x = self.numbers[self.at]
        if not low <= x <= high:
            raise reading.Fault(16, self.at)
        self.at += 1
        return x


def is_quiet_cycle(rows, machine, cycle):
    if any(rows[k][0] != machine or rows[k][5] for k in cycle):
        return False
    onward = {rows[k][1]: rows[k][2] for k in cycle}
    state = rows[cycle[0]][1]
    for k in cycle:
        if rows[k][1] != state:
            return False
        state = onward[state]
    return state == rows[cycle[0]][1] and len(onward) == len(cycle)


def owed(data, numbers):
    try:
        types, states, rows = reading.read_plant(data)
        source, sums, entries = Numbers(numbers), [0] * types, 0
        while entries == 0 or source.at < len(numbers):
            first = source.at
            if first == len(numbers) or entries == 256:
                raise reading.Fault(18, first)
            machine, repeats, count = source.next(0, len(states) - 1), source.next(1, 1000000), source.next(1, 64)
            cycle = [source.next(0, len(rows) - 1) for _ in range(count)]
            if not is_quiet_cycle(rows, machine, cycle):
                raise reading.Fault(17, first)
            for k in cycle:
                for t, by in ((rows[k][3], repeats), (rows[k][4], -repeats)):
                    if t is not None:
                        sums[t] += by
            entries += 1
    except reading.Fault as fault:
        return 'refused %d %d' % fault.args
    for t, z in enumerate(sums):
        if z < 0:
            return 'negative %d %d' % (t, z)
    return 'confirmed'


# ---- cases

def entries_of(rng, plant):
    """Entries of quiet cycles, each turned to begin anywhere."""
    _, states, rows = plant
    found = []
    for m in range(len(states)):
        if states[m] <= 9 and sum(r[0] == m for r in rows) <= 8:
            found += [(m, c) for c in listing.cycles(plant, m) or [] if not any(rows[k][5] for k in c)]
    entries = []
    for _ in range(rng.choice([1, 1, 2, 3, 6])):
        if found:
            m, c = rng.choice(found)
            turn = rng.randrange(len(c))
            entries.append([m, rng.choice([1, 1, 2, 3, 1000000]), len(c)] + list(c[turn:] + c[:turn]))
    return entries


def spoilt(rng, numbers):
    numbers = list(numbers)
    kind = rng.randrange(4)
    if kind == 0 and numbers:
        numbers[rng.randrange(len(numbers))] = rng.choice([0, 1, 2, 3, 64, 65, 1000000, 1000001, 4294967295])
    elif kind == 1:
        numbers = numbers[:rng.randint(0, len(numbers))]
    elif kind == 2:
        numbers.insert(rng.randint(0, len(numbers)), rng.randrange(4))
    elif len(numbers) > 4:
        i, j = rng.randrange(3, len(numbers)), rng.randrange(3, len(numbers))
        numbers[i], numbers[j] = numbers[j], numbers[i]
    return numbers


def cases(rng):
    both, panel = [0, 1, 2, 0, 1, 1, 1, 2, 2, 3], [0, 1, 2, 0, 1]
    for numbers in (both, panel, [], [0, 1, 2, 1, 0, 1, 1, 2, 3, 2], panel * 256, panel * 257, panel * 256 + [0], both * 128, both * 128 + [9]):
        yield PLANT_B, numbers
    long = [0, 1000000, 64] + list(range(64))
    yield bytes([1, 1, 64, 64] + [x for s in range(64) for x in (11, s, (s + 1) % 64, 0)]), long * 256
    yield bytes([1, 1, 64, 64] + [x for s in range(64) for x in (7, s, (s + 1) % 64, 0)]), long * 256
    yield bytes([1, 2, 64, 64] + [x for s in range(64) for x in (15, s, (s + 1) % 64, 1, 0)]), long * 256
    yield bytes([1, 1, 64, 64] + [x for s in range(64) for x in (15, s, (s + 1) % 64, 0, 0)]), long * 256
    for _ in range(CASES):
        data = weighing.plant_file(rng)
        if rng.random() < 0.03:
            data = weighing.spoilt(rng, data)
        try:
            entries = entries_of(rng, reading.read_plant(data))
        except reading.Fault:
            entries = [panel]
        numbers = [x for e in entries for x in e]
        if rng.random() < 0.4:
            numbers = spoilt(rng, numbers)
        yield data, numbers


DRIVER = '''#include <stdio.h>
#include <stdlib.h>
#include "hemtaluq.h"
int main(void) {
    uint32_t head[2];
    while (fread(head, 4, 2, stdin) == 2) {
        uint8_t *file = malloc(head[0] + 1);
        uint32_t *set = malloc(4 * head[1] + 4);
        if (fread(file, 1, head[0], stdin) != head[0] || fread(set, 4, head[1], stdin) != head[1]) return 1;
        hemtaluq_confirm_answer a = hemtaluq_confirm(file, head[0], set, head[1]);
        if (a.kind == HEMTALUQ_CONFIRMED) printf("confirmed\\n");
        if (a.kind == HEMTALUQ_NEGATIVE) printf("negative %zu %lld\\n", a.message_type, (long long)a.sum);
        if (a.kind == HEMTALUQ_REFUSED) printf("refused %d %zu\\n", a.number, a.place);
        free(file); free(set);
    }
    return 0;
}
'''


def hold_exclusion(rng, data, numbers):
    plant = reading.read_plant(data)
    for _ in range(3):
        weights = [rng.randint(0, rng.choice([1, 5, 1000])) for _ in range(plant[0])]
        if weighing.passes(plant, weights):
            sys.exit('cycle_sets.py: plant %s has the balanced set %s, and weights %s pass' % (data.hex(' '), numbers, weights))


def compare(driver, seed):
    rng = random.Random(seed)
    given = list(cases(rng))
    stream = b''.join(struct.pack('<II', len(d), len(n)) + d + struct.pack('<%dI' % len(n), *n) for d, n in given)
    printed = subprocess.run([driver], input=stream, capture_output=True, check=True).stdout.decode().split('\n')[:-1]
    if len(printed) != len(given):
        sys.exit('cycle_sets.py: %d answers to %d cases' % (len(printed), len(given)))
    kinds = {}
    for (data, numbers), line in zip(given, printed):
        expected = owed(data, numbers)
        if line != expected:
            sys.exit('cycle_sets.py: plant %s, set %s: %s, but owed is %s' % (data.hex(' '), numbers[:400], line, expected))
        kind = ' '.join(line.split()[:2]) if line.startswith('refused') else line.split()[0]
        kinds[kind] = kinds.get(kind, 0) + 1
        if kind == 'confirmed' and rng.random() < 0.3:
            hold_exclusion(rng, data, numbers)
    if printed[:2] != ['confirmed', 'negative 1 -1']:
        sys.exit('cycle_sets.py: %s and %s in place of the two answers of the scope document' % tuple(printed[:2]))
    if 'negative 0 -16384000000' not in printed:
        sys.exit('cycle_sets.py: the largest sum was not met')
    for kind, least in (('confirmed', 100), ('negative', 100), ('refused 15', 10), ('refused 16', 10), ('refused 17', 10), ('refused 18', 3), ('refused 26', 10)):
        if kinds.get(kind, 0) < least:
            sys.exit('cycle_sets.py: %s was met %d times only' % (kind, kinds.get(kind, 0)))
    print('cycle_sets.py: seed %d: %d cases, of which %d are confirmed and %d have a negative sum' % (seed, len(given), kinds['confirmed'], kinds['negative']))
    return len(given)
