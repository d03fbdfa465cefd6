"""Part D: runs, as the documents have them, held to the bound F + n * W + G * g + n * w * d with the figures of hemtaluq_weigh.

- A simulator in C draws event lists and judges the bound after every event: random ones, most of whose events cannot
  happen or name what the plant lacks; greedy ones, which put progress off; adversarial ones, which take the quiet row after
  which most is left to come, and double a heaviest message. The simulator is itself held against the one of definitions.py,
  event by event.
- On small plants a search through all configurations finds the most quiet rows that a run can have with so many progress rows
  and doublings. This never exceeds the ceiling of hemtaluq_quote, meets it at times, also with doublings, and exceeds each of
  seven weaker formulas.
- data/weaker.txt has for each weaker formula runs that exceed it, found by the search. They are run in every test.

    python3 tests/evidence_runs.py        # makes data/weaker.txt anew
"""
import functools
import itertools
import os
import random
import subprocess
import sys
import tempfile

import definitions
import evidence_calls as calls
import evidence_independent
import evidence_plants as plants
from evidence_answers import write_anew

EVENTS = 3000000
REPLAYS = 300
SMALL = 1500
ALLOWED = [(g, d) for g in range(3) for d in range(3) if g + d < 3]    # progress rows and doublings of exact maxima
WEAKER = os.path.join(calls.ROOT, 'tests', 'data', 'weaker.txt')
INDEPENDENT = evidence_independent.Independent()
MODES = ('random', 'greedy', 'adversarial')
EVENT_KINDS = ('row', 'loss', 'doubling')

SIMULATOR = r'''/* Runs of plants. Each job has a plant, weights, figures, and a way to draw events, or a list of events. */
#include <stdint.h>
#include <stdio.h>
#include <stdlib.h>
#define ROWS 1024
#define LACKING 2 /* a list of events may open with messages of so many types that the plant lacks */
static int types, machines, rows, states[16], machine[ROWS], left[ROWS], entered[ROWS], sent[ROWS], taken[ROWS], progress[ROWS];
static int error, state[16];
static long long weight[64], content[64 + LACKING], potential[16][64], f, n, per_progress, per_doubling, factor;
static long long quiet, others, doubled, allowed, lost, doublings, offered, happened, both, opening;
static uint64_t seed;
static unsigned draw(unsigned below) { seed = seed * 6364136223846793005u + 1442695040888963407u; return (unsigned)((seed >> 33) % below); }
/* How many messages of the type that it takes must be there for a row: it takes first, then sends. */
static int needed(int k) { return sent[k] == taken[k] && error == 5 ? 0 : sent[k] == taken[k] && error == 6 ? 2 : 1; }
static int can(int k) {
    if (k < 0 || k >= rows) return 0;
    return (state[machine[k]] == left[k] || error == 3) && (taken[k] < 0 || content[taken[k]] >= needed(k));
}
static void happen(int k) {
    state[machine[k]] = entered[k];
    if (taken[k] >= 0 && error != 1) content[taken[k]]--;
    if (sent[k] >= 0 && (taken[k] < 0 || error != 7)) content[sent[k]]++;
    if (progress[k] && error != 4) others++; else quiet++;
    happened++;
    both += sent[k] >= 0 && taken[k] >= 0;
}
static int event_row(int k) { offered++; if (!can(k)) return 0; happen(k); return 1; }
static int event_loss(int t) { offered++; if (t >= types || content[t] == 0) return 0; content[t]--; lost++; happened++; return 1; }
static int event_doubling(int t) {
    offered++;
    if ((t >= types && error != 9) || (content[t] == 0 && error != 8)) { doubled += error == 11; return 0; }
    content[t] += error == 10 ? 2 : 1;
    doubled += error != 2;
    doublings++;
    happened++;
    return 1;
}
static long long bound(void) { return f + factor * opening + per_progress * others + per_doubling * doubled; }
static void begin(int most) {
    opening = quiet = others = doubled = 0;
    allowed = draw(2) ? 0 : draw(40);
    for (int m = 0; m < machines; m++) state[m] = (int)draw((unsigned)states[m]);
    for (int t = 0; t < types; t++) { content[t] = draw(3) ? 0 : draw((unsigned)most + 1); opening += weight[t] * content[t]; }
}
static long long rise(int k) {
    return n * ((sent[k] >= 0 ? weight[sent[k]] : 0) - (taken[k] >= 0 ? weight[taken[k]] : 0)) + potential[machine[k]][entered[k]] - potential[machine[k]][left[k]];
}
/* A row that can happen: quiet if there is one. The adversary takes the one after which the rank is highest. */
static int choose(int mode) {
    int best = -1, ties = 0;
    for (int k = 0; k < rows; k++) {
        if (!can(k)) continue;
        int better = best < 0 || progress[k] < progress[best] || (mode == 2 && progress[k] == progress[best] && rise(k) > rise(best));
        int equal = best >= 0 && progress[k] == progress[best] && (mode == 1 || rise(k) == rise(best));
        if (better) { best = k; ties = 1; }
        else if (equal && draw((unsigned)++ties) == 0) best = k;
    }
    return best;
}
/* The heaviest type that is present, or one that the plant lacks. */
static int heaviest(void) {
    int best = types;
    for (int t = 0; t < types; t++)
        if (content[t] && (best == types || weight[t] > weight[best])) best = t;
    return best;
}
/* Random runs have any number of doublings, others up to those allowed. */
static int step(int mode) {
    unsigned kind = draw(64);
    if (mode == 0 ? kind < 6 : kind < 1 && mode == 1) { event_loss((int)draw((unsigned)types + 2)); return 1; }
    if (mode == 0 ? kind < 12 : kind < 8 && doubled < allowed) { event_doubling(mode == 2 ? heaviest() : (int)draw((unsigned)types + 2)); return 1; }
    if (mode == 0 || kind >= 56) { event_row((int)draw((unsigned)rows + 3)); return 1; }
    int k = choose(mode);
    if (k < 0) return 0;
    event_row(k);
    return 1;
}
static void drawn(int mode, long long wanted) {
    for (long long runs = 0; happened < wanted && offered + runs < 40 * wanted; runs++) {
        begin(mode == 0 ? 50 : draw(2) ? 5 : 200);
        for (int length = 0; length < 2000 && happened < wanted && step(mode); length++)
            if (quiet > bound()) { printf("exceeded %lld %lld %lld %lld %lld\n", quiet, others, doubled, opening, bound()); return; }
    }
    printf("held %lld %lld %lld %lld %lld\n", offered, happened, lost, doublings, both);
}
static long long number(void) { long long x; if (scanf("%lld", &x) != 1) exit(1); return x; }
/* Prints the run, the quiet rows, the others and the doublings, and the states and contents after it. */
static void replay(void) {
    static const char *const kinds[] = {"row", "loss", "doubling"};
    quiet = others = doubled = 0;
    for (int m = 0; m < machines; m++) state[m] = (int)number();
    for (int t = 0; t < types + LACKING; t++) content[t] = number();
    printf("ran");
    for (int count = (int)number(); count > 0; count--) {
        int kind = (int)number(), k = (int)number();
        if (kind == 0 ? event_row(k) : kind == 1 ? event_loss(k) : event_doubling(k)) printf(" %s%d", kinds[kind], k);
    }
    printf(" counted %lld %lld %lld left", quiet, others, doubled);
    for (int m = 0; m < machines; m++) printf(" %d", state[m]);
    for (int t = 0; t < types + LACKING; t++) printf(" %lld", content[t]);
    printf("\n");
}
int main(void) {
    for (long long jobs = number(); jobs > 0; jobs--) {
        offered = happened = lost = doublings = both = 0;
        types = (int)number(); machines = (int)number(); rows = (int)number();
        for (int m = 0; m < machines; m++) states[m] = (int)number();
        for (int k = 0; k < rows; k++) {
            machine[k] = (int)number(); left[k] = (int)number(); entered[k] = (int)number();
            sent[k] = (int)number(); taken[k] = (int)number(); progress[k] = (int)number();
        }
        for (int t = 0; t < types; t++) weight[t] = number();
        for (int m = 0; m < machines; m++) for (int s = 0; s < states[m]; s++) potential[m][s] = number();
        f = number(); n = number(); per_progress = number(); per_doubling = number(); factor = number();
        error = (int)number(); seed = (uint64_t)number();
        int mode = (int)number();
        if (mode == 3) replay(); else drawn(mode, number());
    }
    return 0;
}
'''


# ---- jobs of the simulator

def potentials(plant, weights):
    """For each machine and state the greatest length of a quiet walk from it, a row having length 1 + n * weight."""
    n, found = max(plant.states), []
    for m, states in enumerate(plant.states):
        edges = [(r.left, r.entered, 1 + n * (weights[r.sent] if r.sent is not None else 0) - n * (weights[r.taken] if r.taken is not None else 0))
                 for r in plant.rows if r.machine == m and not r.progress]
        best = [0] * states
        for _ in range(states - 1):
            best = [max([0] + [length + best[b] for a, b, length in edges if a == s]) for s in range(states)]
        found += best
    return found


@functools.lru_cache(None)
def plant_numbers(data, weights):
    """A plant as the simulator reads it, weights and potentials included."""
    plant = INDEPENDENT.plant(data)
    numbers = [plant.types, len(plant.states), len(plant.rows)] + plant.states
    for r in plant.rows:
        numbers += [r.machine, r.left, r.entered, -1 if r.sent is None else r.sent, -1 if r.taken is None else r.taken, int(r.progress)]
    return numbers + list(weights) + potentials(plant, weights)


def simulated(simulator, jobs):
    text = ' '.join(str(x) for job in [[len(jobs)]] + jobs for x in job)
    done = subprocess.run([simulator], input=text, capture_output=True, text=True)
    lines = done.stdout.split('\n')[:-1]
    if done.returncode != 0 or len(lines) != len(jobs):
        sys.exit('evidence: runs: %d answers to %d jobs' % (len(lines), len(jobs)))
    return [line.split() for line in lines]


# ---- plants with weights that pass

def tight(rng):
    """A ring that takes one message in each round, and may need one that it leaves there; others that send in all their rows and are reset by a
    progress row."""
    n, needs = rng.choice([1, 2, 3, 4]), rng.choice([(None, None), (None, None), (0, 0)])
    ring = [(s, (s + 1) % n, *(needs if s else (None, 0)), False) for s in range(n)]
    machines = [(n, ring)]
    for _ in range(rng.randint(1, 15)):
        states = rng.choice([1, n, n])
        machines.append((states, [(s, s + 1, 0, None, False) for s in range(states - 1)] + [(states - 1, 0, rng.choice([0, None]), None, True)]))
    rng.shuffle(machines)
    return 1, machines


def with_passing_weights(program, rng, makers, count, largest):
    """Plants, weights and the figures F, n, G and n * w that the library gives for them."""
    requests = []
    for _ in range(count):
        types, machines = rng.choice(makers)(rng)
        data = plants.plant_file(rng, types, machines)
        tries = [[t + 1 for t in range(types)]] + [[rng.randint(0, rng.choice([1, 3, largest])) for _ in range(types)] for _ in range(6)]
        tries = [[0] * types] * (rng.random() < 0.3) + tries
        requests += [calls.request(data, [min(w, largest) for w in weights], calls=('weigh',)) for weights in tries]
    found = []
    for q, got in zip(requests, calls.answers(program, requests)):
        words = got['weigh'].split()
        if words[0] == 'passed' and not (found and found[-1][0] == q.file):
            found.append((q.file, q.weights, tuple(int(x) for x in words[1:5])))
    return found


# ---- weaker formulas: F, the factor of W, G, and the factor of d

def weaker(plant, weights):
    n, s, w = max(plant.states), sum(x - 1 for x in plant.states), max(weights, default=0)
    first = plant.states[0]
    return {
        'without-S': (n * w * s, n, n - 1 + n * n * w, n * w),
        'without-nwS': (s, n, n - 1 + n * n * w, n * w),
        'without-n-1': (s + n * w * s, n, n * n * w, n * w),
        'without-nnw': (s + n * w * s, n, n - 1, n * w),
        'n-of-machine-0': (s + first * w * s, first, first - 1 + first * first * w, first * w),
        'W-for-nW': (s + n * w * s, 1, n - 1 + n * n * w, n * w),
        'without-nwd': (s + n * w * s, n, n - 1 + n * n * w, 0),
    }


FORMULAS = list(weaker(evidence_independent.Plant(0, [1], []), []))
# Wrong simulators whose runs exceed the bound, and those of which only the run itself tells.
BOUND_ERRORS = {1: 'a row takes no message away', 2: 'doublings are not counted', 3: 'a row happens in any state', 4: 'progress rows count as quiet'}
RUN_ERRORS = {5: 'a row sends first, then takes', 6: 'a row that takes and sends one type needs two messages', 7: 'a row that takes does not send',
              8: 'a doubling of an absent type happens', 9: 'a doubling of a type that the plant lacks happens', 10: 'a doubling adds two messages',
              11: 'a doubling that cannot happen is counted'}


def job(case, bound, mode, seed, events, error=0):
    """A job of the simulator; the bound has F, the factor of W, G, and the factor of d."""
    data, weights, (_, n, _, _) = case
    f, factor, per_progress, per_doubling = bound
    return plant_numbers(data, tuple(weights)) + [f, n, per_progress, per_doubling, factor, error, seed, mode, events]


def hold_runs(simulator, cases, events):
    """Every case in every mode; how many events were offered, how many losses and rows that take and send happened, and in each mode how many events
    and doublings."""
    each = events // (2 * len(cases)) + 1
    jobs = [job(c, c[2], mode, i, each) for i, c in enumerate(cases) for mode in range(3)]
    offered, lost, both, happened, doubled = 0, 0, 0, [0, 0, 0], [0, 0, 0]
    for i, words in enumerate(simulated(simulator, jobs)):
        if words[0] != 'held':
            data, weights, figures = cases[i // 3]
            sys.exit('evidence: runs: plant %s, weights %s, figures %s, %s: quiet rows, others, doublings, W, bound: %s'
                     % (data.hex(), weights, figures, MODES[i % 3], words[1:]))
        offered, lost, both = offered + int(words[1]), lost + int(words[3]), both + int(words[5])
        happened[i % 3] += int(words[2])
        doubled[i % 3] += int(words[4])
    return offered, lost, both, happened, doubled


def replays(rng, cases):
    """Cases with random lists of events, as the simulator reads them, and with the run that the simulator of definitions.py has, the states and the
    contents after it; there are messages of two types that the plant lacks."""
    found = []
    for case in rng.choices(cases, k=REPLAYS):
        plant = INDEPENDENT.plant(case[0])
        states = [rng.randrange(s) for s in plant.states]
        contents = [rng.randint(0, 3) for _ in range(plant.types)] + definitions.LACKING
        events = definitions.random_events(rng, plant, 200)
        happened, end, left = definitions.simulate(plant, states, contents, events)
        counted = definitions.counted(plant, happened)
        owed = ['ran'] + ['%s%d' % e for e in happened] + ['counted'] + [str(x) for x in counted] + ['left'] + [str(x) for x in end + left]
        listed = states + contents + [len(events)] + [x for kind, k in events for x in (EVENT_KINDS.index(kind), k)]
        found.append((case, listed, owed))
    return found


def difference(simulator, replayed, error=0):
    """The first run of which the two simulators tell otherwise, or None."""
    jobs = [job(case, (0, 0, 0, 0), 3, 0, 0, error)[:-1] + listed for case, listed, _ in replayed]
    for words, (_, _, owed) in zip(simulated(simulator, jobs), replayed):
        if words != owed:
            return '%s and %s' % (words, owed)
    return None


def catches(simulator, cases, replayed):
    """Wrong simulators and weaker bounds: each bound must be exceeded, and the runs that do not exceed it must differ."""
    for error, name in RUN_ERRORS.items():
        if difference(simulator, replayed, error) is None:
            sys.exit('evidence: runs: the planted error "%s" is not found' % name)
    for error, name in BOUND_ERRORS.items():
        if all(w[0] == 'held' for w in simulated(simulator, [job(c, c[2], 1, i, 3000, error) for i, c in enumerate(cases)])):
            sys.exit('evidence: runs: the planted error "%s" is not found' % name)
    for name in FORMULAS:
        jobs = [job(c, weaker(INDEPENDENT.plant(c[0]), c[1])[name], mode, i, 1000) for i, c in enumerate(cases) for mode in (1, 2)]
        if all(w[0] == 'held' for w in simulated(simulator, jobs)):
            sys.exit('evidence: runs: no run exceeds the bound %s' % name)
    return len(RUN_ERRORS) + len(BOUND_ERRORS) + len(FORMULAS)


# ---- exact maxima

def steps(plant, config):
    """What can happen: the event, the quiet rows it counts, and the configuration after it."""
    states, contents, g, d = config
    for k, r in enumerate(plant.rows):
        if states[r.machine] != r.left or r.taken is not None and not contents[r.taken] or r.progress and not g:
            continue
        after = list(contents)
        if r.taken is not None:
            after[r.taken] -= 1
        if r.sent is not None:
            after[r.sent] += 1
        moved = states[:r.machine] + (r.entered,) + states[r.machine + 1:]
        yield ('row', k), int(not r.progress), (moved, tuple(after), g - r.progress, d)
    for t, x in enumerate(contents):
        if x:
            yield ('loss', t), 0, (states, contents[:t] + (x - 1,) + contents[t + 1:], g, d)
        if x and d:
            yield ('doubling', t), 0, (states, contents[:t] + (x + 1,) + contents[t + 1:], g, d - 1)


def best(plant, config, known, most=20000):
    """The most quiet rows of a run from a configuration with at most g progress rows and d doublings, or None where the search is too long."""
    stack = [config]
    while stack:
        at = stack[-1]
        if at in known:
            stack.pop()
            continue
        ways = list(steps(plant, at))
        missing = [c for _, _, c in ways if c not in known]
        if missing:
            stack += missing
        else:
            known[at] = max(((known[c][0] + q, e, c) for e, q, c in ways), default=(0, None, None), key=lambda x: x[0])
            stack.pop()
        if len(known) + len(stack) > most:
            return None
    return known[config][0]


def run_of(config, known):
    """The events of a run that has the most quiet rows."""
    events = []
    while known[config][1] is not None:
        events.append(known[config][1])
        config = known[config][2]
    return events


def small_tight(rng):
    types, machines = tight(rng)
    return types, machines[:2]


def tiny(rng):
    types = rng.choice([0, 1, 1, 2])
    return types, [(s, plants.loose(rng, s, rng.choice([1, 2, 3, 4]), types)) for s in rng.choices([1, 2, 3], k=rng.choice([1, 2]))]


def in_turn(rng):
    """A machine whose rows lead from state to state, some of them with progress."""
    types, states = rng.choice([0, 1]), rng.choice([2, 3])
    rows = [(s, (s + 1) % states) + plants.message(rng, types) + (rng.random() < 0.3,) for s in range(states)]
    return types, [(1, plants.loose(rng, 1, rng.randint(0, 1), types))] * rng.randint(0, 1) + [(states, rows)]


def maxima(program, rng, count):
    """Small plants with all opening states, some contents and up to two progress rows and doublings: the exact maximum (None where the
    search is too long), and what the search knows."""
    cases = with_passing_weights(program, rng, [tiny, tiny, in_turn, small_tight], count, 2)
    found = []
    for data, weights, _ in cases:
        plant, known = INDEPENDENT.plant(data), {}
        contents = tuple(rng.choice([0, 0, 1, 2, 5]) for _ in range(plant.types))
        for states in itertools.product(*(range(s) for s in plant.states)):
            for g, d in ALLOWED:
                found.append((data, weights, states, contents, g, d, best(plant, (states, contents, g, d), known), known))
    return found


def exceeded(plant, weights, contents, g, d, quiet):
    """The weaker formulas that a number of quiet rows exceeds."""
    total = sum(w * x for w, x in zip(weights, contents))
    return [name for name, (f, factor, per_progress, per_doubling) in weaker(plant, weights).items()
            if quiet > f + factor * total + per_progress * g + per_doubling * d]


def hold_maxima(program, found):
    """No maximum exceeds its ceiling; how many meet it, and of these how many by a run with doublings, how near others with n above 1 and w above 0
    come, and how many exceed each weaker formula."""
    answers = calls.answers(program, [calls.request(file, w, contents=c, g=g, d=d, calls=('quote',)) for file, w, _, c, g, d, _, _ in found])
    met, doubled, share, broken = 0, 0, 0, dict.fromkeys(FORMULAS, 0)
    for (data, weights, states, contents, g, d, most, known), got in zip(found, answers):
        words = got['quote'].split()
        if words[0] != 'ceiling' or most > int(words[1]):
            sys.exit('evidence: runs: plant %s, weights %s, states %s, contents %s, g %d, d %d: %d quiet rows, but %s'
                     % (data.hex(), weights, states, contents, g, d, most, words))
        if most == int(words[1]) > 0:
            met += 1
            doubled += max(weights, default=0) > 0 and any(kind == 'doubling' for kind, _ in run_of((states, contents, g, d), known))
        if max(weights, default=0) > 0 and max(INDEPENDENT.plant(data).states) > 1:
            share = max(share, most / int(words[1]))
        for name in exceeded(INDEPENDENT.plant(data), weights, contents, g, d, most):
            broken[name] += 1
    if met < 5 or doubled < 5 or min(broken.values()) < 3:
        sys.exit('evidence: runs: maxima meet the ceiling %d times, %d with doublings, and exceed the weaker formulas %s times' % (met, doubled, broken))
    return met, doubled, share, broken


# ---- stored runs

def parse(line):
    name, data, weights, states, contents, events = (part.strip() for part in line.split(':'))
    numbers = [[int(x) for x in part.split()] for part in (weights, states, contents)]
    kinds = {kind[0]: kind for kind in EVENT_KINDS}
    return [name, bytes.fromhex(data)] + numbers + [[(kinds[e[0]], int(e[1:])) for e in events.split()]]


def counted(plant, states, contents, events):
    """The quiet rows, the progress rows and the doublings of the run."""
    return definitions.counted(plant, definitions.simulate(plant, states, contents, events)[0])


def hold_stored(program, lines):
    """Each stored run exceeds its weaker formula and stays within the ceiling; the weights pass."""
    met = set()
    for name, data, weights, states, contents, events in map(parse, lines):
        plant = INDEPENDENT.plant(data)
        quiet, g, d = counted(plant, states, contents, events)
        got = calls.answers(program, [calls.request(data, weights, contents=contents, g=g, d=d, calls=('quote',))])[0]['quote'].split()
        if got[0] != 'ceiling' or quiet > int(got[1]) or name not in exceeded(plant, weights, contents, g, d, quiet):
            sys.exit('evidence: runs: the stored run for %s has %d quiet rows, %d others and %d doublings; %s' % (name, quiet, g, d, got))
        met.add(name)
    if met != set(FORMULAS):
        sys.exit('evidence: runs: there is no stored run for %s' % (set(FORMULAS) - met))


def stored():
    with open(WEAKER, encoding='ascii') as lines:
        return [line for line in lines if not line.startswith('#')]


def store(program):
    """For each weaker formula the shortest three runs that the search finds."""
    found, lines = [m for m in maxima(program, random.Random(3), 6000) if m[6] is not None], []
    for name in FORMULAS:
        runs = []
        for data, weights, states, contents, g, d, most, known in found:
            events = run_of((states, contents, g, d), known)
            _, *made = counted(INDEPENDENT.plant(data), states, contents, events)
            if name in exceeded(INDEPENDENT.plant(data), weights, contents, *made, most):
                numbers = [' '.join(str(x) for x in part) for part in (weights, states, contents)]
                line = ' : '.join([name, data.hex()] + numbers + [' '.join(kind[0] + str(k) for kind, k in events)])
                runs.append((len(events), len(line), line))
        lines += [line for _, _, line in sorted(set(runs))[:3]]
    with open(WEAKER, 'w', encoding='ascii') as out:
        out.write('# Runs that exceed a weaker formula: its name, plant file, weights, states, contents, events (r: row, l: loss, d: doubling). '
                  'tests/evidence_runs.py makes and runs them.\n')
        out.write('\n'.join(lines) + '\n')


# ---- the part

def main(program, folder, seed, long):
    rng = random.Random(seed + 3)
    simulator = calls.compiled(folder, 'runs', SIMULATOR, library=False)
    makers = [plants.small, plants.passing, plants.exchange, plants.first_not_largest, plants.many_machines, plants.rings, tight, tight, tiny]
    cases = [c for c in with_passing_weights(program, rng, makers, 1200, 1000) if INDEPENDENT.plant(c[0]).rows]
    replayed = replays(rng, cases)
    if difference(simulator, replayed):
        sys.exit('evidence: runs: the two simulators differ: %s' % difference(simulator, replayed))
    offered, lost, both, happened, doubled = hold_runs(simulator, cases, EVENTS * (20 if long else 1))
    if sum(happened) < 2000000 or min(happened) < 500000 or both < 100000 or sum(doubled) < 100000 or min(doubled) < 10000:
        sys.exit('evidence: runs: only %s events happened, %s of them doublings, and %d rows that take and send' % (happened, doubled, both))
    tried = maxima(program, rng, SMALL * (5 if long else 1))
    found = [m for m in tried if m[6] is not None]
    met, with_doublings, share, broken = hold_maxima(program, found)
    searched = {m[0] for m in found}
    with_both = sum(evidence_independent.takes_and_sends(INDEPENDENT.plant(data)) for data in searched)
    if with_both < 100:
        sys.exit('evidence: runs: only %d plants with maxima have rows that take and send' % with_both)
    lines = stored()
    hold_stored(program, lines)
    caught = catches(simulator, cases[:300], replayed)
    exceeding = ', '.join('%s %d' % pair for pair in broken.items())
    print('evidence: runs: %d events that happened (random %d, greedy %d, adversarial %d; %d losses, %d rows that take and send, %d doublings: '
          'random %d, greedy %d, adversarial %d) of %d offered, on %d plants, stay within the bound; '
          '%d exact maxima on %d plants, %d of them with rows that take and send, stay within it (%d left out as too long), %d meet it, %d with doublings '
          '(with n above 1 and w above 0 they come to %d %%), and weaker formulas are exceeded: %s; %d stored runs; %d planted errors found'
          % (sum(happened), *happened, lost, both, sum(doubled), *doubled, offered, len(cases), len(found), len(searched), with_both,
             len(tried) - len(found), met, with_doublings, 100 * share, exceeding, len(lines), caught))
    written = write_anew('runs', program, [data for data, *_ in cases] + [data for data, *_ in tried])
    return dict(events=sum(happened), doublings=sum(doubled), maxima=len(found), maxima_with_doublings=with_doublings, share_of_the_bound=int(100 * share),
                stored_runs=len(lines), planted_in_runs=caught, **written), []


if __name__ == '__main__':
    with tempfile.TemporaryDirectory() as place:
        store(calls.build(place))
