"""Compare `quote` with a second implementation, on random plants, weights, contents and numbers of progress rows and doublings.

The second one adds weights one message at a time and takes the class from the binary digits of the ceiling; whether the
weights pass comes from weighing.py. For quotes that are given, a run that opens with the contents, puts progress off and
doubles messages is held to the ceiling. Every ceiling from one below to one above an edge of the price classes is quoted,
with its class by the edges. `tests/compiled.py` runs it.
"""
import random
import struct
import subprocess
import sys

import reading
import weighing

CASES = 20000
LARGEST = (bytes([16, 64] + [64, 0] * 16), [1000] * 64, [1000000] * 64, 1000000, 1000000)
PLANT_A = bytes.fromhex('0202 0202 060100 1b010001 0202 0a0100 07010001')


# ---- the second implementation

def owed(data, weights, contents, g, d):
    """The line that is owed."""
    try:
        plant = reading.read_plant(data)
        types = plant[0]
        if len(weights) != types:
            raise reading.Fault(9, 0)
        for i, w in enumerate(weights):
            if w > 1000:
                raise reading.Fault(10, i)
        if len(contents) != types:
            raise reading.Fault(20, 0)
        for i, x in enumerate(contents + [g, d]):
            if x > 1000000:
                raise reading.Fault(21, i)
        if not weighing.passes(plant, weights):
            raise reading.Fault(22, 0)
    except reading.Fault as fault:
        return 'refused %d %d' % fault.args
    f, n, per_progress, per_doubling = weighing.figures(plant, weights)
    ceiling = f + n * sum(w * x for w, x in zip(weights, contents)) + per_progress * g + per_doubling * d
    return 'ceiling %d class %d' % (ceiling, len(bin(ceiling)) - 2 if ceiling else 0)


# ---- price classes

def edge_ceilings():
    """One below, at and one above each of the 43 edges; the first is 0, which has class 0."""
    return [2 ** k + by for k in range(43) for by in (-1, 0, 1)]


def class_by_edges(ceiling):
    """How many edges are not above the ceiling."""
    return sum(2 ** k <= ceiling for k in range(43))


def input_with_ceiling(ceiling):
    """A file, weights, contents, g and d with this ceiling. The plant is a machine without rows, of one state while that reaches the
    ceiling, else of 64; weights are 1 for type 0 and 1,000 for 63 others, so that the contents weigh any W up to 63 times 10^9. Doublings
    come to half of the ceiling, or number 1,000,000."""
    states = 1 if ceiling <= 63 * 10 ** 9 else 64
    f, per_progress, per_doubling = (states - 1) * (1 + 1000 * states), states - 1 + 1000 * states ** 2, 1000 * states
    d = min(10 ** 6, (ceiling - f) // (2 * per_doubling))
    rest = ceiling - f - per_doubling * d
    g = max(0, -(-(rest - states * 63 * 10 ** 9) // per_progress))
    while (rest - per_progress * g) % states:
        g += 1
    thousands, ones = divmod((rest - per_progress * g) // states, 1000)
    contents = [ones] + [min(10 ** 6, max(0, thousands - 10 ** 6 * t)) for t in range(63)]
    return bytes([1, 64, states, 0]), [1] + [1000] * 63, contents, g, d


def hold_classes(quoted):
    """Each ceiling beside an edge was quoted, and every class is that of the definition."""
    for ceiling in sorted({*quoted, *edge_ceilings()}):
        if quoted.get(ceiling) != class_by_edges(ceiling):
            sys.exit('quoting.py: for the ceiling %d the class %s, but owed is %d' % (ceiling, quoted.get(ceiling), class_by_edges(ceiling)))


# ---- cases

def limits():
    """Each amount at its limits, alone, with one that is judged before it, and where the count of contents or the weights are wrong. The first four
    ceilings are FIRST."""
    yield LARGEST
    yield *LARGEST[:4], 0
    yield PLANT_A, [2, 1], [3, 4], 1, 0
    yield PLANT_A, [2, 1], [3, 4], 1, 3
    for amount in (999999, 1000000, 1000001, 4294967295):
        yield PLANT_A, [2, 1], [amount, 4], 1, 3
        yield PLANT_A, [2, 1], [3, amount], 1, 3
        yield PLANT_A, [2, 1], [3, 4], amount, 3
        yield PLANT_A, [2, 1], [3, 4], 1, amount
        yield PLANT_A, [2, 1], [3, 4], amount, amount
        yield PLANT_A, [2, 1], [3, amount], 1, amount
        yield PLANT_A, [2, 1], [3], 1, amount
        yield PLANT_A, [1, 1], [3, 4], amount, 3
        yield PLANT_A, [1, 1], [3, 4], 1, amount
        yield bytes([1, 0, 1, 0]), [], [], 0, amount
    yield bytes([1, 0, 1, 0]), [], [], 0, 0


FIRST = ['ceiling 8256127513008 class 43', 'ceiling 8192127513008 class 43', 'ceiling 39 class 6', 'ceiling 51 class 6']


def cases(rng):
    yield from limits()
    yield from map(input_with_ceiling, edge_ceilings())
    for _ in range(CASES):
        data = weighing.plant_file(rng)
        if rng.random() < 0.04:
            data = weighing.spoilt(rng, data)
        try:
            types = reading.read_plant(data)[0]
        except reading.Fault:
            types = rng.randrange(4)
        count = types + rng.choice([0] * 40 + [1])
        largest = rng.choice([1, 3, 1000])
        weights = [rng.randint(0, largest) for _ in range(count)]
        if weights and rng.random() < 0.02:
            weights[rng.randrange(count)] = 1001
        contents = [rng.choice([0, 1, rng.randrange(1000), 1000000]) for _ in range(types + rng.choice([0] * 40 + [1]))]
        if contents and rng.random() < 0.05:
            contents[rng.randrange(len(contents))] = rng.choice([1000001, 4294967295])
        g, d = (rng.choice([0, 1, 2, rng.randrange(1000), 1000000] * 8 + [1000001, 4294967295]) for _ in range(2))
        yield data, weights, contents, g, d


def hold_run(rng, data, weights, contents, g, d, ceiling):
    """A run that opens with the contents, from random states, takes quiet rows while one can happen, and at most g others, with at most d
    doublings; how many of these happen."""
    types, states, rows = reading.read_plant(data)
    state, content, quiet, progress, doubled = [rng.randrange(s) for s in states], list(contents), 0, 0, 0
    for _ in range(400):
        present = [t for t in range(types) if content[t]]
        if present and doubled < d and rng.random() < 0.2:
            content[rng.choice(present)] += 1
            doubled += 1
            continue
        can = [r for r in rows if state[r[0]] == r[1] and (r[4] is None or content[r[4]]) and (not r[5] or progress < g)]
        if not can:
            break
        row = rng.choice([r for r in can if not r[5]] or can)
        state[row[0]] = row[2]
        for t, by in ((row[4], -1), (row[3], 1)):
            if t is not None:
                content[t] += by
        quiet, progress = quiet + (not row[5]), progress + row[5]
    if quiet > ceiling:
        sys.exit('quoting.py: %d quiet rows, but the ceiling is %d: %s, weights %s' % (quiet, ceiling, data.hex(' '), weights))
    return doubled


DRIVER = '''#include <stdio.h>
#include <stdlib.h>
#include "hemtaluq.h"
int main(void) {
    uint32_t head[5];
    while (fread(head, 4, 5, stdin) == 5) {
        uint8_t *file = malloc(head[0] + 1);
        uint16_t *weights = malloc(2 * head[1] + 2);
        uint32_t *contents = malloc(4 * head[2] + 4);
        if (fread(file, 1, head[0], stdin) != head[0] || fread(weights, 2, head[1], stdin) != head[1] || fread(contents, 4, head[2], stdin) != head[2]) return 1;
        hemtaluq_quote_answer q = hemtaluq_quote(file, head[0], weights, head[1], contents, head[2], head[3], head[4]);
        if (q.kind == HEMTALUQ_CEILING) printf("ceiling %llu class %u\\n", (unsigned long long)q.ceiling, (unsigned)q.price_class);
        if (q.kind == HEMTALUQ_REFUSED) printf("refused %d %zu\\n", q.number, q.place);
        free(file); free(weights); free(contents);
    }
    return 0;
}
'''


def compare(driver, seed):
    rng = random.Random(seed)
    given = list(cases(rng))
    stream = b''.join(struct.pack('<IIIII', len(f), len(w), len(c), g, d) + f + struct.pack('<%dH' % len(w), *w) + struct.pack('<%dI' % len(c), *c)
                      for f, w, c, g, d in given)
    printed = subprocess.run([driver], input=stream, capture_output=True, check=True).stdout.decode().split('\n')[:-1]
    if len(printed) != len(given):
        sys.exit('quoting.py: %d answers to %d cases' % (len(printed), len(given)))
    kinds, doubled = {}, 0
    for (data, weights, contents, g, d), line in zip(given, printed):
        expected = owed(data, weights, contents, g, d)
        if line != expected:
            sys.exit('quoting.py: plant %s, weights %s, contents %s, g %d, d %d: %s, but owed is %s'
                     % (data.hex(' '), weights, contents, g, d, line, expected))
        kind = ' '.join(line.split()[:2]) if line.startswith('refused') else 'ceiling'
        kinds[kind] = kinds.get(kind, 0) + 1
        if kind == 'ceiling' and rng.random() < 0.3:
            doubled += hold_run(rng, data, weights, contents, g, d, int(line.split()[1]))
    if printed[:4] != FIRST:
        sys.exit('quoting.py: %s in place of the figures of the documents, %s' % (printed[:4], FIRST))
    if doubled < 1000:
        sys.exit('quoting.py: only %d doublings happened' % doubled)
    hold_classes(dict(map(int, line.split()[1::2]) for line in printed if line.startswith('ceiling')))
    for kind in ('ceiling', 'refused 9', 'refused 10', 'refused 20', 'refused 21', 'refused 22', 'refused 26'):
        if kinds.get(kind, 0) < 10:
            sys.exit('quoting.py: %s was met %d times only' % (kind, kinds.get(kind, 0)))
    print('quoting.py: seed %d: %d cases, of which %d have a ceiling and %d are refused with 22; %d doublings in runs'
          % (seed, len(given), kinds['ceiling'], kinds['refused 22'], doubled))
    return len(given)
