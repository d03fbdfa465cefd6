"""Compare `weigh` with a second implementation, on random plants and weights.

The second one was written from the scope document, in another way than the proved code: it reads with the second reader
of reading.py and finds the greatest mean weight of a machine's quiet cycles (Karp's algorithm, in fractions); weights
pass when every mean is below zero. On small machines it also goes through all simple cycles. A cycle that is shown is
held to the words of the documents: it must have as few rows as any of the plant, which the heaviest walks of each exact
length tell. For weights that pass, random runs that put progress off and double messages are held to the bound.

`tests/compiled.py` runs it.
"""
import random
import struct
import subprocess
import sys
from fractions import Fraction

import reading

CASES = 20000


# ---- the second implementation

def row_weight(row, weights):
    _, _, _, sent, taken, _ = row
    return (weights[sent] if sent is not None else 0) - (weights[taken] if taken is not None else 0)


def quiet_edges(plant, m, weights):
    _, _, rows = plant
    return [(r[1], r[2], row_weight(r, weights)) for r in rows if r[0] == m and not r[5]]


def greatest_mean(states, edges):
    """Karp: the greatest mean weight of a cycle, or None without one."""
    best = None
    walks = [[0] * states]
    for k in range(states):
        new = [None] * states
        for a, b, w in edges:
            if walks[k][a] is not None and (new[b] is None or walks[k][a] + w > new[b]):
                new[b] = walks[k][a] + w
        walks.append(new)
    for s in range(states):
        if walks[states][s] is None:
            continue
        least = min(Fraction(walks[states][s] - walks[k][s], states - k) for k in range(states) if walks[k][s] is not None)
        best = least if best is None else max(best, least)
    return best


def cycles(states, edges):
    """The weights and the numbers of rows of all simple cycles, each from its lowest state."""
    def extend(start, at, left, weight):
        for a, b, w in edges:
            if a != at:
                continue
            if b == start:
                yield weight + w, len(left)
            elif b > start and b not in left:
                yield from extend(start, b, left | {b}, weight + w)
    for s in range(states):
        yield from extend(s, s, {s}, 0)


def on_cycles(edges):
    """The edges without those from a state that nothing enters, or to one that nothing leaves: these are on no cycle."""
    while True:
        left, entered = {a for a, _, _ in edges}, {b for _, b, _ in edges}
        kept = [(a, b, w) for a, b, w in edges if a in entered and b in left]
        if len(kept) == len(edges):
            return kept
        edges = kept


def fewest_rows(states, edges, good=lambda weight: weight < 0):
    """The least number of edges of a closed walk that is not good, or None: a shortest such walk is a simple cycle.

    For each number, and each pair of states, the heaviest walk of exactly so many edges from the one to the other."""
    edges = on_cycles(edges)
    walks = {(s, s): 0 for s, _, _ in edges}
    for k in range(1, states + 1):
        longer = {}
        for (start, at), weight in walks.items():
            for a, b, w in edges:
                if a == at and weight + w > longer.get((start, b), -10 ** 9):
                    longer[start, b] = weight + w
        walks = longer
        if any(start == at and not good(weight) for (start, at), weight in walks.items()):
            return k
    return None


def failing(plant, weights):
    """The count of states and the quiet edges of each machine with a cycle that weighs zero or more."""
    _, states, _ = plant
    for m, n in enumerate(states):
        edges = quiet_edges(plant, m, weights)
        mean = greatest_mean(n, edges)
        fails = mean is not None and mean >= 0
        if n <= 4 and len(edges) <= 8 and fails != any(w >= 0 for w, _ in cycles(n, edges)):
            sys.exit('weighing.py: the two ways to judge a machine differ')
        if fails:
            yield n, edges


def passes(plant, weights):
    return next(failing(plant, weights), None) is None


def fewest_of_all(plant, weights):
    """The least number of rows of a quiet simple cycle that weighs zero or more, of all machines, or None where the weights pass."""
    counts = []
    for n, edges in failing(plant, weights):
        counts.append(fewest_rows(n, edges))
        if n <= 4 and len(edges) <= 8 and counts[-1] != min(k for w, k in cycles(n, edges) if w >= 0):
            sys.exit('weighing.py: the two ways to count the fewest rows differ')
    return min(counts, default=None)


def figures(plant, weights):
    _, states, _ = plant
    n, less, w = max(states), sum(s - 1 for s in states), max(weights, default=0)
    return less + n * w * less, n, n - 1 + n * n * w, n * w


def is_failing_cycle(plant, weights, shown):
    _, _, rows = plant
    if not shown or any(k >= len(rows) for k in shown):
        return False
    cycle = [rows[k] for k in shown]
    return (len({r[0] for r in cycle}) == 1
            and all(r[2] == cycle[(i + 1) % len(cycle)][1] for i, r in enumerate(cycle))
            and len({r[1] for r in cycle}) == len(cycle)
            and not any(r[5] for r in cycle)
            and sum(row_weight(r, weights) for r in cycle) >= 0)


def judge(data, weights, room, before, line):
    """What is wrong with an answer, or None. The line has the answer and then the lent list afterwards."""
    words = line.split()
    answer, after = words[:words.index(':')], [int(x) for x in words[words.index(':') + 1:]]
    try:
        plant = reading.read_plant(data)
        if len(weights) != plant[0]:
            raise reading.Fault(9, 0)
        for i, w in enumerate(weights):
            if w > 1000:
                raise reading.Fault(10, i)
        if room < 64:
            raise reading.Fault(11, 0)
    except reading.Fault as fault:
        if answer != ['refused'] + [str(x) for x in fault.args] or after != before:
            return 'refused %d %d, list kept' % fault.args
        return None
    k = fewest_of_all(plant, weights)
    if k is None:
        owed = 'passed %d %d %d %d' % figures(plant, weights)
        return None if ' '.join(answer) == owed and after == before else owed + ', list kept'
    if answer == ['cycle', str(k)] and is_failing_cycle(plant, weights, after[:k]) and after[k:] == before[k:]:
        return None
    return 'a quiet simple cycle of weight zero or more with %d rows, the rest of the list kept' % k


# ---- runs

def longest_run(rng, plant, weights, steps):
    """The quiet rows of a run that takes a quiet row wherever one can happen, the bound, and the doublings: one of four events where a message
    is there."""
    types, states, rows = plant
    f, n, g, d = figures(plant, weights)
    content = [rng.randrange(4) for _ in range(types)]
    bound = f + n * sum(w * c for w, c in zip(weights, content))
    state, quiet, progress, doubled = [rng.randrange(s) for s in states], 0, 0, 0
    for _ in range(steps):
        present = [t for t in range(types) if content[t]]
        if present and rng.random() < 0.25:
            content[rng.choice(present)] += 1
            doubled += 1
            continue
        can = [r for r in rows if state[r[0]] == r[1] and (r[4] is None or content[r[4]])]
        if not can:
            break
        row = rng.choice([r for r in can if not r[5]] or can)
        state[row[0]] = row[2]
        if row[4] is not None:
            content[row[4]] -= 1
        if row[3] is not None:
            content[row[3]] += 1
        quiet, progress = quiet + (not row[5]), progress + row[5]
        if quiet > bound + g * progress + d * doubled:
            sys.exit('weighing.py: %d quiet rows, %d others and %d doublings, but the bound is %d'
                     % (quiet, progress, doubled, bound + g * progress + d * doubled))
    return quiet, bound + g * progress + d * doubled, doubled


# ---- cases

def row_bytes(rng, states, types):
    bits = 3 | (16 if rng.random() < 0.25 else 0) | (rng.choice([0, 4, 8, 8, 12]) if types else 0)
    return bits, rng.randrange(states), rng.randrange(states), *(rng.randrange(types) for bit in (4, 8) if bits & bit)


def plant_file(rng):
    """Of equal rows of a machine, which have the same bytes here, only one is kept."""
    machines, types = rng.choice([1, 1, 2, 3, 5]), rng.choice([0, 1, 2, 3, 8])
    data = [machines, types]
    for _ in range(machines):
        states = rng.choice([1, 2, 3, 4, 9, 64])
        rows = dict.fromkeys(row_bytes(rng, states, types) for _ in range(rng.choice([0, 1, 2, 4, 8, 30])))
        data += [states, len(rows)] + [b for row in rows for b in row]
    return bytes(data)


def spoilt(rng, data):
    """The file with a row twice, or damaged."""
    return reading.with_twin(rng, data) if rng.random() < 0.4 else reading.damaged(rng, data)


def cases(rng):
    for _ in range(CASES):
        data = plant_file(rng)
        if rng.random() < 0.05:
            data = spoilt(rng, data)
        try:
            types = reading.read_plant(data)[0]
        except reading.Fault:
            types = rng.randrange(4)
        types += rng.choice([0] * 30 + [1])
        largest = rng.choice([1, 3, 1000, 1000])
        weights = [rng.randint(0, largest) for _ in range(types)]
        if weights and rng.random() < 0.03:
            weights[rng.randrange(types)] = rng.choice([1000, 1001, 65535])
        room = rng.choice([64, 64, 64, 65, 70, 63, 0]) if rng.random() < 0.2 else 64
        yield data, weights, room, [rng.randrange(65536) for _ in range(room)]


DRIVER = '''#include <stdio.h>
#include <stdlib.h>
#include "hemtaluq.h"
int main(void) {
    uint32_t head[3];
    while (fread(head, 4, 3, stdin) == 3) {
        uint8_t *file = malloc(head[0] + 1);
        uint16_t *weights = malloc(2 * head[1] + 2), *cycle = malloc(2 * head[2] + 2);
        if (fread(file, 1, head[0], stdin) != head[0] || fread(weights, 2, head[1], stdin) != head[1] || fread(cycle, 2, head[2], stdin) != head[2]) return 1;
        hemtaluq_weigh_answer w = hemtaluq_weigh(file, head[0], weights, head[1], cycle, head[2]);
        unsigned long long base = w.base, most_states = w.most_states, per_progress = w.per_progress, per_doubling = w.per_doubling;
        if (w.kind == HEMTALUQ_PASSED) printf("passed %llu %llu %llu %llu", base, most_states, per_progress, per_doubling);
        if (w.kind == HEMTALUQ_CYCLE) printf("cycle %zu", w.rows);
        if (w.kind == HEMTALUQ_REFUSED) printf("refused %d %zu", w.number, w.place);
        printf(" :");
        for (uint32_t i = 0; i < head[2]; i++) printf(" %d", cycle[i]);
        printf("\\n");
        free(file); free(weights); free(cycle);
    }
    return 0;
}
'''


def compare(driver, seed):
    rng = random.Random(seed)
    given = list(cases(rng))
    stream = b''.join(struct.pack('<III', len(d), len(w), r) + d + struct.pack('<%dH' % len(w), *w) + struct.pack('<%dH' % r, *b) for d, w, r, b in given)
    printed = subprocess.run([driver], input=stream, capture_output=True, check=True).stdout.decode().split('\n')[:-1]
    if len(printed) != len(given):
        sys.exit('weighing.py: %d answers to %d cases' % (len(printed), len(given)))
    kinds, closest, doubled = {}, 0, 0
    for (data, weights, room, before), line in zip(given, printed):
        wrong = judge(data, weights, room, before, line)
        if wrong:
            sys.exit('weighing.py: plant %s, weights %s: %s, but owed is %s' % (data.hex(' '), weights, line, wrong))
        kind = ' '.join(line.split()[:2]) if line.startswith('refused') else line.split()[0]
        kinds[kind] = kinds.get(kind, 0) + 1
        if kind == 'passed' and rng.random() < 0.2:
            quiet, bound, more = longest_run(rng, reading.read_plant(data), weights, 300)
            closest, doubled = max(closest, quiet / bound if bound else 0), doubled + more
    for kind in ('passed', 'cycle', 'refused 9', 'refused 10', 'refused 11', 'refused 26'):
        if kinds.get(kind, 0) < 10:
            sys.exit('weighing.py: %s was met %d times only' % (kind, kinds.get(kind, 0)))
    if doubled < 1000:
        sys.exit('weighing.py: only %d doublings happened' % doubled)
    print('weighing.py: seed %d: %d cases, of which %d pass and %d show a cycle; runs, with %d doublings, came to %d %% of the bound'
          % (seed, len(given), kinds['passed'], kinds['cycle'], doubled, round(100 * closest)))
    return len(given)
