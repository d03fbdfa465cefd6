"""Compare the definitions of crate livelock with a second implementation.

The functions below were written from the documents ("Runs", "Cycles and weighing", "Quoting",
"Cycle sets"; L6 for doublings), in another style than the definitions: cycles are enumerated, runs
are simulated on dictionaries. For random plants this script states as theorems, in a crate
outside of the repository, that the definitions compute the same numbers, and has the kit's
`rt` check them. It also holds runs to the ceiling where weights pass: long random ones, and
ones that put progress off as long as they can, with and without doublings.

    python3 tests/definitions.py [SEED]
"""
import os
import random
import shutil
import subprocess
import sys
import tempfile

from figures import SEED, hold

ROOT = os.path.dirname(os.path.dirname(os.path.abspath(__file__)))
PLANTS = 40
HELD = 800          # plants whose runs are held to the ceiling
LONG_RUN = 20000
LACKING = [3, 1]    # opening contents of two types that a plant lacks


class Row:
    def __init__(self, machine, left, entered, sent, taken, progress):
        self.machine, self.left, self.entered = machine, left, entered
        self.sent, self.taken, self.progress = sent, taken, progress


class Plant:
    def __init__(self, types, states, rows):
        self.types, self.states, self.rows = types, states, rows


def random_plant(rng):
    types = rng.randint(0, 3)
    states = [rng.randint(1, 3) for _ in range(rng.randint(1, 3))]
    rows = []
    for machine, count in enumerate(states):
        for _ in range(rng.randint(0, 4)):
            kind = rng.choice(['neither', 'sends', 'takes', 'takes', 'both']) if types else 'neither'
            sent, taken = (rng.randrange(types), rng.randrange(types)) if types else (None, None)
            rows.append(Row(machine, rng.randrange(count), rng.randrange(count),
                            sent if kind in ('sends', 'both') else None,
                            taken if kind in ('takes', 'both') else None,
                            rng.random() < 0.3))
    return Plant(types, states, rows)


# ---- runs

def simulate(plant, states, contents, events):
    """The events that happen, in their order, and the states and contents after them."""
    state, content = dict(enumerate(states)), dict(enumerate(contents))
    happened = []
    for kind, number in events:
        if kind != 'row':
            if number < plant.types and content[number] > 0:
                content[number] += {'loss': -1, 'doubling': 1}[kind]
                happened.append((kind, number))
            continue
        if number >= len(plant.rows):
            continue
        r = plant.rows[number]
        if state[r.machine] != r.left or (r.taken is not None and content[r.taken] == 0):
            continue
        state[r.machine] = r.entered
        if r.taken is not None:
            content[r.taken] -= 1
        if r.sent is not None:
            content[r.sent] += 1
        happened.append((kind, number))
    return happened, [state[m] for m in range(len(states))], [content[t] for t in range(len(contents))]


def counted(plant, happened):
    """The quiet rows, the progress rows and the doublings among events that happened."""
    marks = [plant.rows[number].progress for kind, number in happened if kind == 'row']
    return marks.count(False), marks.count(True), sum(kind == 'doubling' for kind, _ in happened)


def random_events(rng, plant, count):
    """Losses and doublings are at times of types that the plant lacks, and rows of a number that it lacks."""
    events = []
    for kind in rng.choices(['row', 'loss', 'doubling'], [7, 1.5, 1.5], k=count):
        events.append((kind, rng.randrange(len(plant.rows) + 1 if kind == 'row' else plant.types + 2)))
    return events


# ---- cycles

def simple_cycles(plant, machine):
    """Each simple cycle of a machine, from each of its states."""
    rows = [k for k, r in enumerate(plant.rows) if r.machine == machine]
    found = []

    def extend(start, path, left):
        at = plant.rows[path[-1]].entered
        if at == start:
            found.append(tuple(path))
            return
        if at in left:
            return
        for k in rows:
            if plant.rows[k].left == at:
                extend(start, path + [k], left | {at})

    for k in rows:
        extend(plant.rows[k].left, [k], {plant.rows[k].left})
    return found


def effect(plant, cycle):
    result = [0] * plant.types
    for k in cycle:
        r = plant.rows[k]
        if r.sent is not None:
            result[r.sent] += 1
        if r.taken is not None:
            result[r.taken] -= 1
    return result


def weight(plant, weights, cycle):
    return sum(w * e for w, e in zip(weights, effect(plant, cycle)))


def passes(plant, weights):
    return all(weight(plant, weights, c) < 0
               for m in range(len(plant.states)) for c in simple_cycles(plant, m)
               if not any(plant.rows[k].progress for k in c))


def figures(plant, weights):
    s = sum(n - 1 for n in plant.states)
    n, w = max(plant.states), max(weights, default=0)
    return s + n * w * s, n, n - 1 + n * n * w, n * w


def ceiling(plant, weights, contents, g, d):
    f, n, per_progress, per_doubling = figures(plant, weights)
    return f + n * sum(w * x for w, x in zip(weights, contents)) + per_progress * g + per_doubling * d


def set_sums(plant, entries):
    sums = [0] * plant.types
    for _, repeats, cycle in entries:
        for t, e in enumerate(effect(plant, cycle)):
            sums[t] += repeats * e
    return sums


# ---- theorems

def numbers(xs):
    return '(' + ''.join('%d ∷ ' % x for x in xs) + '[])'


def signed(z):
    return 'pos %d' % z if z >= 0 else 'negsuc %d' % (-z - 1)


def option(x):
    return 'None' if x is None else '(Some %d)' % x


def truth(b):
    return 'true' if b else 'false'


def plant_text(plant):
    rows = ''.join(
        'row_with %d %d %d %s %s %s ∷ '
        % (r.machine, r.left, r.entered, option(r.sent), option(r.taken), truth(r.progress)) for r in plant.rows)
    return 'record { types = %d; states = %s; rows = %s[] }' % (plant.types, numbers(plant.states), rows)


def entry_text(entry):
    return 'record { machine = %d; repeats = %d; cycle = %s }' % (entry[0], entry[1], numbers(entry[2]))


HEADER = '''use mathlib.Core.Path.{◌≡◌, refl}
use mathlib.Core.Bool.{Bool, true, false}
use Rattle.std.specs.Prelude.{Option, None, Some}
use mathlib.Core.List.{List, [], ◌∷◌}
use Prim.Native.Nat.{ℕ}
use lib.ListN.{get_or}
use lib.IntN.{ℤ, pos, negsuc}
use Rattle.livelock.specs.Lists.{below, sum, sumℤ, greatest}
use Rattle.livelock.specs.Plants.{Plant, row_with, has_progress}
use Rattle.livelock.specs.Runs.{Configuration, Event, row, loss, doubling, can_happen, changed, after, after_all, run}
use Rattle.livelock.specs.Runs.{is_quiet_row, is_progress_row, is_doubling, quiet_rows, progress_rows, doublings}
use Rattle.livelock.specs.Weights.{cycle_weight}
use Rattle.livelock.specs.Figures.{most_states, base, per_progress, per_doubling, figures_of, contents_weight, ceiling_of}
use Rattle.livelock.specs.CycleSets.{Entry, set_effect}
use Rattle.livelock.specs.Tests.{every, is_distinct, is_walk, is_simple_cycle, is_quiet_cycle}
use Rattle.livelock.proofs.Tests.{is_well_formed}
use Rattle.livelock.specs.Graphs.{via}
use Rattle.livelock.proofs.Graphs.{longest}
use Rattle.livelock.proofs.Decision.{state_potential, is_passing}
'''
UNFOLD = ('below sum sumℤ greatest has_progress can_happen changed after after_all run is_quiet_row is_progress_row is_doubling '
          'cycle_weight set_effect every is_distinct is_walk via longest state_potential')


def events_text(events):
    return ''.join('%s %d ∷ ' % e for e in events) + '[]'


class Theorems:
    def __init__(self):
        self.text, self.count = HEADER, 0

    def define(self, name, kind, value):
        self.text += '\n%s : %s\n%s = %s\n' % (name, kind, name, value)

    def equal(self, name, sides, unfold):
        statement = ' × '.join('(%s ≡ %s)' % side for side in sides)
        proof = 'refl' if len(sides) == 1 else '(' + ', '.join(['refl'] * len(sides)) + ')'
        self.text += '\n%s : %s\nunfolding %s %s\n%s = %s\n' % (name, statement, unfold, UNFOLD, name, proof)
        self.count += len(sides)


def state(theorems, rng, i, plant):
    """The theorems about one plant."""
    p, c = 'plant%d' % i, 'start%d' % i
    weights = [rng.randint(0, 4) for _ in range(plant.types)]
    ws = numbers(weights)
    theorems.define(p, 'Plant', plant_text(plant))
    f, n, per_progress, per_doubling = figures(plant, weights)
    theorems.equal('figures%d' % i, [('base %s %s' % (p, ws), str(f)), ('most_states %s' % p, str(n)), ('per_progress %s %s' % (p, ws), str(per_progress)),
                                     ('per_doubling %s %s' % (p, ws), str(per_doubling)), ('is_well_formed %s' % p, 'true'),
                                     ('is_passing %s %s' % (p, ws), truth(passes(plant, weights)))], p)

    states = [rng.randrange(count) for count in plant.states]
    contents = [rng.randint(0, 3) for _ in range(plant.types)] + LACKING
    events = random_events(rng, plant, 25)
    happened, end, left = simulate(plant, states, contents, events)
    quiet, progress, doubled = counted(plant, happened)
    theorems.define(c, 'Configuration', 'record { state = λ m. get_or %s m 0; content = λ t. get_or %s t 0 }' % (numbers(states), numbers(contents)))
    theorems.define('events%d' % i, 'List Event', events_text(events))
    counts = [('%s %s %s events%d' % (name, p, c, i), str(x)) for name, x in (('quiet_rows', quiet), ('progress_rows', progress), ('doublings', doubled))]
    owed = ('ceiling_of (figures_of %s %s) (contents_weight %s %s %s.content) %d %d' % (p, ws, p, ws, c, progress, doubled),
            str(ceiling(plant, weights, contents, progress, doubled)))
    theorems.equal('run%d' % i, counts + [owed]
                   + [('(after_all %s %s events%d).state %d' % (p, c, i, m), str(s)) for m, s in enumerate(end)]
                   + [('(after_all %s %s events%d).content %d' % (p, c, i, t), str(x)) for t, x in enumerate(left)]
                   + [('run %s %s events%d' % (p, c, i), events_text(happened))], '%s %s events%d' % (p, c, i))

    every = [(m, list(x)) for m in range(len(plant.states)) for x in simple_cycles(plant, m)]
    chosen = rng.sample(every, min(len(every), 4))
    for j, (m, cycle) in enumerate(chosen):
        sides = [('is_simple_cycle %s %d %s' % (p, m, numbers(cycle)), 'true'),
                 ('is_quiet_cycle %s %s' % (p, numbers(cycle)), truth(not any(plant.rows[k].progress for k in cycle))),
                 ('cycle_weight %s %s %s' % (p, ws, numbers(cycle)), signed(weight(plant, weights, cycle)))]
        theorems.equal('cycle%d-%d' % (i, j), sides, p)
    for j in range(3):
        m, cycle = rng.randrange(len(plant.states)), [rng.randrange(len(plant.rows) + 1) for _ in range(rng.randint(0, 3))]
        theorems.equal('list%d-%d' % (i, j), [('is_simple_cycle %s %d %s' % (p, m, numbers(cycle)), truth(tuple(cycle) in simple_cycles(plant, m)))], p)
    if chosen and plant.types:
        entries = [(m, rng.randint(1, 9), cycle) for m, cycle in chosen]
        theorems.define('set%d' % i, 'List Entry', ''.join(entry_text(e) + ' ∷ ' for e in entries) + '[]')
        theorems.equal('sums%d' % i, [('set_effect %s set%d %d' % (p, i, t), signed(z)) for t, z in enumerate(set_sums(plant, entries))], '%s set%d' % (p, i))


def check(text):
    """Have `rt` check the theorems in a copy of the repository, as one crate more."""
    with tempfile.TemporaryDirectory() as folder:
        shutil.copytree(os.path.join(ROOT, 'crates', 'livelock'), os.path.join(folder, 'crates', 'livelock'), ignore=shutil.ignore_patterns('out'))
        crate = os.path.join(folder, 'crates', 'agreement')
        for part in ('src', 'specs', 'proofs'):
            os.makedirs(os.path.join(crate, part))
        for path, content in (('src/lib.rt', '// Theorems only.\n#![tactic(auto)]\n'), ('specs/Lib.antt', ''), ('proofs/Lib.antt', 'pub mod Agreement\n'), ('proofs/Agreement.antt', text)):
            with open(os.path.join(crate, path), 'w', encoding='utf-8') as out:
                out.write(content)
        with open(os.path.join(folder, 'crates.txt'), 'w', encoding='utf-8') as out:
            out.write('livelock:\nagreement: livelock\n')
        done = subprocess.run(['rt', 'check'], cwd=crate, capture_output=True, text=True)
        if done.returncode != 0:
            lines = [line for line in (done.stdout + done.stderr).split('\n') if 'error' in line or line.startswith('rt:')]
            sys.exit('definitions.py: rt does not find the numbers of the second implementation:\n' + '\n'.join(lines[:20]))


def delay_progress(rng, plant, weights, states, contents, limit, doublings):
    """A run that takes quiet rows as long as one is possible, at most `limit` progress rows, and doubles up to so many messages, of a heaviest type
    that is present; the events."""
    state, content, events, progress = list(states), list(contents), [], 0
    while len(events) < LONG_RUN:
        present = [t for t, x in enumerate(content) if x]
        if present and doublings and rng.random() < 0.2:
            doublings -= 1
            events.append(('doubling', max(present, key=lambda t: weights[t])))
            content[events[-1][1]] += 1
            continue
        possible = [k for k, r in enumerate(plant.rows)
                    if state[r.machine] == r.left and (r.taken is None or content[r.taken] > 0)]
        quiet = [k for k in possible if not plant.rows[k].progress]
        if not possible or (not quiet and progress == limit):
            return events
        k = rng.choice(quiet or possible)
        r = plant.rows[k]
        progress += r.progress
        state[r.machine] = r.entered
        if r.taken is not None:
            content[r.taken] -= 1
        if r.sent is not None:
            content[r.sent] += 1
        events.append(('row', k))
    return events


def hold_to_the_ceiling(rng, plant):
    """Runs of a plant with weights that pass, if some are found: how many, and the largest share of a ceiling that was used, of all runs and of those
    whose doublings count."""
    for _ in range(20):
        weights = [rng.randint(0, rng.choice([1, 6])) for _ in range(plant.types)]
        if plant.rows and passes(plant, weights):
            break
    else:
        return 0, 0.0, 0.0
    shares, with_doublings = [0.0], [0.0]
    for attempt in range(4):
        states = [rng.randrange(count) for count in plant.states]
        contents = [rng.randint(0, 20) for _ in range(plant.types)]
        events = random_events(rng, plant, LONG_RUN) if attempt == 0 else delay_progress(rng, plant, weights, states, contents, 50, 20 * (attempt - 1))
        quiet, progress, doubled = counted(plant, simulate(plant, states, contents, events)[0])
        bound = ceiling(plant, weights, contents, progress, doubled)
        if quiet > bound:
            sys.exit('definitions.py: %d quiet rows, but the ceiling is %d: %s' % (quiet, bound, plant_text(plant)))
        shares.append(quiet / bound if bound else 0.0)
        with_doublings += shares[-1:] * (bound > ceiling(plant, weights, contents, progress, 0))
    return 4, max(shares), max(with_doublings)


def main():
    seed = int(sys.argv[1]) if len(sys.argv) > 1 else SEED
    rng = random.Random(seed)
    theorems = Theorems()
    for i in range(PLANTS):
        state(theorems, rng, i, random_plant(rng))
    runs, shares, with_doublings = zip(*(hold_to_the_ceiling(rng, random_plant(rng)) for _ in range(HELD)))
    check(theorems.text)
    print('definitions.py: seed %d: %d plants, %d numbers agree; %d runs within their ceilings, the closest at %d %%, and at %d %% with doublings'
          % (seed, PLANTS, theorems.count, sum(runs), 100 * max(shares), 100 * max(with_doublings)))
    if seed == SEED and max(with_doublings) < 1:
        sys.exit('definitions.py: no run with doublings comes to its ceiling')
    if seed == SEED:
        hold(defined_numbers=theorems.count)


if __name__ == '__main__':
    main()
