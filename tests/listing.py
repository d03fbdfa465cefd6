"""Compare `list` with a second implementation, on random plants and lent lists.

The second one goes through all closed walks of a machine that leave no state twice, from every state, turns each so that
it begins at its lowest state, drops what comes twice and sorts. `tests/compiled.py` runs it.

The contract of `list` says nothing of time: a search that goes into dead ends is right, and needs seconds for machines without
many cycles. Three such listings are timed here.
"""
import itertools
import os
import random
import struct
import subprocess
import sys

import evidence_product
import figures
import reading
import weighing

sys.path.append(os.path.join(figures.ROOT, 'bench'))
import inputs

CASES = 12000
MOST_CYCLES = 3000
MOST_MILLISECONDS = 10


# ---- the second implementation

def cycles(plant, machine):
    """The cycles of a machine in order, or None where there are too many for this test."""
    _, _, rows = plant
    mine = [(k, r[1], r[2]) for k, r in enumerate(rows) if r[0] == machine]
    found, walks = set(), [((k,), (a,), b) for k, a, b in mine]
    while walks:
        path, left, at = walks.pop()
        if at == left[0]:
            turn = left.index(min(left))
            found.add(path[turn:] + path[:turn])
            if len(found) > MOST_CYCLES:
                return None
        elif at not in left:
            walks += [(path + (k,), left + (a,), b) for k, a, b in mine if a == at]
    return sorted(found)


def owed(data, machine, before):
    """The answer and the list afterwards, or None where this test does not judge."""
    try:
        plant = reading.read_plant(data)
        if machine >= len(plant[1]):
            raise reading.Fault(12, 0)
        if plant[1][machine] > 24 or sum(r[0] == machine for r in plant[2]) > 48:
            raise reading.Fault(13, 0)
        listed = cycles(plant, machine)
        if listed is None:
            return None
        entries = list(itertools.chain.from_iterable((len(c),) + c for c in listed))
        if len(before) < len(entries):
            raise reading.Fault(14, 0)
    except reading.Fault as fault:
        return 'refused %d %d' % fault.args, before
    return 'entries %d' % len(entries), entries + before[len(entries):]


# ---- cases

def tailed(rng):
    """States and rows: a ring, and from one of its states a long tail, which leads back only to a state on the way from the ring's lowest
    state to the tail, so that on this way the tail is a dead end. At times the states are numbered otherwise."""
    ring_states, tail = rng.randint(2, 6), rng.randint(1, 17)
    rows = [(s, (s + 1) % ring_states) for s in range(ring_states)]
    leaves = rng.randrange(ring_states)
    wide = rng.sample(range(tail), min(tail, rng.randint(0, 4)))
    for i in range(tail):
        rows += [(ring_states + i - 1 if i else leaves, ring_states + i)] * (rng.randint(2, 3) if i in wide else 1)
    rows += [(ring_states + tail - 1, rng.randint(0, leaves))] + [(rng.randrange(ring_states), rng.randrange(ring_states)) for _ in range(rng.randint(0, 2))]
    names = list(range(ring_states + tail))
    if rng.random() < 0.3:
        rng.shuffle(names)
    rng.shuffle(rows)
    return ring_states + tail, [(names[a], names[b]) for a, b in rows]


# What the rows between the same two states may be, of a plant with one type: the map byte, and the type sent and the type taken if there are any.
MARKS = [(3, ()), (19, ()), (7, (0,)), (11, (0,)), (15, (0, 0)), (23, (0,)), (27, (0,)), (31, (0, 0))]


def machine_bytes(rng, states, ends):
    """A machine with rows between these states, all different; where there is no mark left for one, it is left out."""
    rows, free = [], {pair: rng.sample(MARKS, len(MARKS)) for pair in ends}
    for pair in ends:
        if free[pair]:
            bits, fields = free[pair].pop()
            rows.append((bits, *pair, *fields))
    return [states, len(rows)] + [b for row in rows for b in row]


def tailed_file(rng):
    return bytes([1, 1] + machine_bytes(rng, *tailed(rng)))


def plant_file(rng):
    machines = rng.choice([1, 1, 2, 3])
    data = [machines, 1]
    for _ in range(machines):
        states = rng.choice([1, 2, 3, 4, 6, 24, 24, 25, 64])
        count = rng.choice([0, 1, 2, 3, 5, 8, 12, 20, 48, 49])
        if count > 12 and states < 24:
            count = 8
        near, ends = rng.random() < 0.5, []
        for _ in range(count):
            left = rng.randrange(states)
            ends.append((left, min(states - 1, rng.randrange(left + 2)) if near and count > 12 else rng.randrange(states)))
        data += machine_bytes(rng, states, ends)
    return bytes(data)


def ring(states, parallel):
    """Of the rows between the same two states some differ in progress, some in the type."""
    rows = [x for s in range(states) for j in range(parallel) for x in (7 + 16 * (j % 2), s, (s + 1) % states, j // 2)]
    return bytes([1, parallel, states, states * parallel] + rows)


def cases(rng):
    plant_a = bytes.fromhex('0202 0202 060100 1b010001 0202 0a0100 07010001')
    for room in range(6):
        yield plant_a, 1, [7] * room
        yield bytes([1, 0, 2, 2, 3, 1, 1, 3, 0, 0]), 0, [7] * room
    for states, rows in ((24, 48), (25, 48), (24, 49), (25, 49)):
        yield bytes([1, 64, states, rows] + [x for k in range(rows) for x in (7, states - 1, 0, k)]), 0, [7] * 8
    for room in (0, 161, 162, 163, 5 * 243 + 243 - 1, 5 * 243 + 243, 2000):
        yield ring(3, 3), 0, [9] * room
        yield ring(5, 3), 0, [9] * room
    for _ in range(CASES):
        data = plant_file(rng) if rng.random() < 0.9 else tailed_file(rng)
        if rng.random() < 0.04:
            data = weighing.spoilt(rng, data)
        machine = rng.choice([0] * 12 + [1, 1, 2, 3, 16, 4294967295])
        answer = owed(data, machine, [0] * 65535)
        if answer is None:
            continue
        needed = int(answer[0].split()[1]) if answer[0].startswith('entries') else 4
        room = max(0, needed + rng.choice([-2, -1, -1, 0, 0, 0, 1, 5]))
        yield data, machine, [rng.randrange(65536) for _ in range(room)]


# With an argument, how many microseconds of CPU time a call takes, in place of the list afterwards.
DRIVER = '''#define _POSIX_C_SOURCE 199309L
#include <stdio.h>
#include <stdlib.h>
#include <time.h>
#include "hemtaluq.h"
static double now(void) { struct timespec t; clock_gettime(CLOCK_PROCESS_CPUTIME_ID, &t); return t.tv_sec * 1e6 + t.tv_nsec / 1e3; }
int main(int argc, char **argv) {
    uint32_t head[3];
    (void)argv;
    while (fread(head, 4, 3, stdin) == 3) {
        uint8_t *file = malloc(head[0] + 1);
        uint16_t *out = malloc(2 * head[2] + 2);
        if (fread(file, 1, head[0], stdin) != head[0] || fread(out, 2, head[2], stdin) != head[2]) return 1;
        double start = now();
        hemtaluq_list_answer l = hemtaluq_list(file, head[0], head[1], out, head[2]);
        double took = now() - start;
        if (l.kind == HEMTALUQ_LISTED) printf("entries %zu", l.entries);
        if (l.kind == HEMTALUQ_REFUSED) printf("refused %d %zu", l.number, l.place);
        printf(" :");
        if (argc > 1) printf(" %.1f", took);
        for (uint32_t i = 0; i < head[2] && argc == 1; i++) printf(" %d", out[i]);
        printf("\\n");
        free(file); free(out);
    }
    return 0;
}
'''


def packed(data, machine, before):
    return struct.pack('<III', len(data), machine, len(before)) + data + struct.pack('<%dH' % len(before), *before)


# ---- time

CHAIN, BLOCKED_CHAIN = inputs.plant(*inputs.chain()), inputs.plant(*inputs.blocked_chain())
TIMED = [('the chain, nothing lent', CHAIN, 0, 'entries 0'), ('the blocked chain, nothing lent', BLOCKED_CHAIN, 0, 'refused 14 0'),
         ('the blocked chain, 1,000,000 entries lent', BLOCKED_CHAIN, 1000000, 'refused 14 0')]
# The calls in C with less marking: what is wrong, the text of bench/peer.c changed, and which of the listings must be too slow.
UNMARKED = [('no state is marked as a dead end', 'return marks | (~live & 0xffffff);', 'return marks;', [0, 1, 2]),
            ('dead ends are marked before the first row only', '? without_dead_ends(l, marks) : marks;', '? marks : marks;', [1, 2])]


def milliseconds(driver, repetitions):
    """The CPU time of each timed listing, the least of the repetitions."""
    least = []
    for name, data, room, owed_answer in TIMED:
        given = repetitions * packed(data, 0, [0] * room)
        printed = subprocess.run([driver, 'timed'], input=given, capture_output=True, check=True).stdout.decode()
        answers = [line.split(' : ') for line in printed.split('\n')[:-1]]
        if [a for a, _ in answers] != [owed_answer] * repetitions:
            sys.exit('listing.py: %s: %s, but owed is %s' % (name, answers, owed_answer))
        least.append(min(float(took) for _, took in answers) / 1000)
    return least


def hold_times(driver):
    """The timed listings are quick enough, and are not with the calls in C that mark less; the longest time."""
    took = milliseconds(driver, 5)
    for (name, _, _, _), each in zip(TIMED, took):
        if each > MOST_MILLISECONDS:
            sys.exit('listing.py: %s: %.1f ms of CPU time, more than %d' % (name, each, MOST_MILLISECONDS))
    for name, old, new, owed_slow in UNMARKED:
        with open(driver + '_peer.c', 'w', encoding='utf-8') as out:
            out.write(evidence_product.peer_source((old, new)))
        command = ['gcc', '-O2', '-w', '-I' + os.path.join(figures.ROOT, 'include'), driver + '.c', driver + '_peer.c', '-o', driver + '_peer']
        subprocess.run(command, check=True)
        if [i for i, each in enumerate(milliseconds(driver + '_peer', 1)) if each > MOST_MILLISECONDS] != owed_slow:
            sys.exit('listing.py: the planted error "%s" is not found by the time that listings take' % name)
    return max(took)


# ---- the comparison

def compare(driver, seed):
    rng = random.Random(seed)
    given = list(cases(rng))
    printed = subprocess.run([driver], input=b''.join(packed(*c) for c in given), capture_output=True, check=True).stdout.decode().split('\n')[:-1]
    if len(printed) != len(given):
        sys.exit('listing.py: %d answers to %d cases' % (len(printed), len(given)))
    kinds, most = {}, 0
    for (data, machine, before), line in zip(given, printed):
        answer, after = line.split(' :')
        expected, kept = owed(data, machine, before)
        if answer != expected or [int(x) for x in after.split()] != kept:
            sys.exit('listing.py: plant %s, machine %d, room %d: %s, but owed is %s :%s'
                     % (data.hex(' '), machine, len(before), line[:400], expected, ''.join(' %d' % x for x in kept)[:400]))
        kind = ' '.join(answer.split()[:2]) if answer.startswith('refused') else 'entries'
        kinds[kind] = kinds.get(kind, 0) + 1
        most = max(most, int(answer.split()[1])) if kind == 'entries' else most
    for kind in ('entries', 'refused 12', 'refused 13', 'refused 14', 'refused 26'):
        if kinds.get(kind, 0) < 10:
            sys.exit('listing.py: %s was met %d times only' % (kind, kinds.get(kind, 0)))
    longest = hold_times(driver)
    print('listing.py: seed %d: %d cases, of which %d list cycles (up to %d entries) and %d are refused with 14; %d chains are listed within %.1f ms '
          'of CPU time each, and %d planted errors that make this slow are found'
          % (seed, len(given), kinds['entries'], most, kinds['refused 14'], len(TIMED), longest, len(UNMARKED)))
    figures.hold(chains=len(TIMED), chain_milliseconds=MOST_MILLISECONDS)
    return len(given)
