"""`weights`: on the plants of the stored certificates it finds the side that the certificate has, and never a larger largest weight; where there
are few types, by all weights up to that one, the smallest largest weight and then the smallest sum.

Beside them stand plants whose weights or sets are just within the limits of the calls, and beyond them, and a solver that answers anything: what
`weights` calls weights or a set was judged by a proved call, so nothing wrong may come of it. The search for cycles under weights of any size, and
the effects of the cycles found, are compared with the independent implementation, which must find the errors that are planted there.
"""
import itertools
import random
import subprocess
import sys
from concurrent.futures import ThreadPoolExecutor
from unittest import mock

import building
import evidence_plants
import evidence_solver
from command_texts import drawn, exchanged_if_both, forgetful, loaded
from evidence_independent import Independent, TooMany

from hemtaluq import binding, cycle_sets, outcomes, solver, weight_search
from hemtaluq.plants import Plant

LYING = 400
HEAVY = 1500
MOST_TRIED = 300


def found(library, plant):
    return weight_search.Search(library, plant, lambda *progress: None).found()


# ---- certificates

def smaller(independent, plant, weights):
    """Weights that pass with a smaller largest weight, or with the same and a smaller sum, where there are few to try."""
    largest = max(weights, default=0)
    if (largest + 1) ** len(weights) > MOST_TRIED:
        return None
    tried = (other for other in itertools.product(range(largest + 1), repeat=len(weights)) if (max(other), sum(other)) < (largest, sum(weights)))
    return next((other for other in tried if independent.passes(plant, other)), None)


def certificates(library):
    stored = evidence_solver.stored()
    with ThreadPoolExecutor(2) as pool:
        answers = list(pool.map(lambda one: found(library, loaded(library, one[0])), stored))
    for (data, side, numbers), got in zip(stored, answers):
        if not isinstance(got, weight_search.Weights if side == 'weights' else weight_search.Balanced):
            sys.exit('command.py: weights: plant %s has a certificate of %s, and this was found: %s' % (data.hex(), side, got))
        if side == 'weights' and max(got.weights, default=0) > max(numbers, default=0):
            sys.exit('command.py: weights: plant %s has weights %s, and %s were found' % (data.hex(), numbers, got.weights))
        if side == 'weights' and got.weights and smaller(Independent(), Independent().plant(data), got.weights):
            sys.exit('command.py: weights: plant %s has smaller weights than %s' % (data.hex(), got.weights))
    return len(stored)


# ---- limits

def ring(name, marks):
    """A machine that goes round through these marks."""
    return ['machine ' + name] + ['s%d -> s%d %s' % (i, (i + 1) % len(marks), mark) for i, mark in enumerate(marks)]


def apart(sent, taken):
    """A ring that takes one type and sends another twice, each message by a row of its own."""
    return 2 * ['sends t%d' % sent] + ['takes t%d' % taken]


def together(sent, taken):
    """The same, where a row takes and sends; and one that takes and sends a type, which changes nothing."""
    return ['sends t%d' % sent, 'takes t%d sends t%d' % (taken, sent), 'sends t%d takes t%d' % (taken, taken)]


def doubling(types, marks=apart):
    """Each type must weigh more than twice the type before it, so the last of k types weighs 2^k - 1 at least."""
    lines = ['types ' + ' '.join('t%d' % t for t in range(types))] + ring('first', ['takes t0'])
    for t in range(1, types):
        lines += ring('m%d' % t, marks(t - 1, t))
    return '\n'.join(lines)


def repeating(steps):
    """A balanced set repeats the cycle of `first` at least 60^steps times as often as that of `last`."""
    lines = ['types ' + ' '.join('%s%d' % (kind, i) for kind in 'rz' for i in range(steps + 1))]
    lines += ring('first', ['takes z%d' % steps, 'sends r0']) + ring('last', ['takes r%d' % steps] + 60 * ['sends z0'])
    for i in range(steps):
        lines += ring('fewer%d' % i, 60 * ['takes r%d' % i] + ['sends r%d' % (i + 1)])
        lines += ring('more%d' % i, ['takes z%d' % i] + 60 * ['sends z%d' % (i + 1)])
    return '\n'.join(lines)


def limits(library):
    for marks in (apart, together):
        within, beyond = [found(library, loaded(library, doubling(types, marks))) for types in (9, 10)]
        if not isinstance(within, weight_search.Weights) or within.weights != [2 ** (t + 1) - 1 for t in range(9)]:
            sys.exit('command.py: weights: 511 is the least largest weight, and this was found: %s' % (within,))
        if not isinstance(beyond, weight_search.Beyond) or beyond.entries or beyond.weights != [2 ** (t + 1) - 1 for t in range(10)]:
            sys.exit('command.py: weights: 1,023 is beyond the limit, and this was found: %s' % (beyond,))
    hold_repeats(library)


def hold_repeats(library):
    for steps in (3, 4):
        within = found(library, loaded(library, repeating(steps)))
        if not isinstance(within, weight_search.Balanced) or sum(entry.repeats for entry in within.entries) < 60 ** steps:
            sys.exit('command.py: weights: 60^%d repeats are within the limits, in several entries, and this was found: %s' % (steps, within))
    beyond = found(library, loaded(library, repeating(5)))
    if not isinstance(beyond, weight_search.Beyond) or max(entry.repeats for entry in beyond.entries) < 60 ** 5:
        sys.exit('command.py: weights: 777,600,000 repeats are more than 256 entries hold, and this was found: %s' % (beyond,))


# ---- a solver that answers anything

def lies(rng):
    """Answers in place of the solver's: none, or any small numbers."""
    def whole(problem):
        return None if rng.random() < 0.2 else [rng.choice([0, 0, 1, 1, 2, 5, -65535]) for _ in range(problem.count)]

    def exact(problem):
        return None if rng.random() < 0.1 else [solver.Fraction(rng.choice([0, 1, 1, 2]), rng.choice([1, 2, 3])) for _ in range(problem.count)]
    return mock.patch.multiple(solver, whole_solution=whole, exact_solution=exact)


def holds(independent, plant, got):
    """Whether the independent implementation agrees: weights pass, and a set is confirmed."""
    if isinstance(got, weight_search.Weights):
        return independent.weigh(plant, got.weights, 64) is not None
    return independent.confirm(plant, cycle_sets.numbers_of(got.entries)) == 'confirmed'


def lying(library, seed):
    """How many lies came to weights or a set. Each of these holds."""
    rng, independent, answers = random.Random(seed), Independent(), []
    for data, _, _ in evidence_solver.stored()[:LYING]:
        try:
            with lies(rng):
                answers.append((independent.plant(data), found(library, loaded(library, data))))
        except outcomes.NotDone:
            continue
    answers = [(plant, got) for plant, got in answers if not isinstance(got, weight_search.Beyond)]
    for plant, got in answers:
        if not holds(independent, plant, got):
            sys.exit('command.py: weights: a lie of the solver is passed on: %s' % (got,))
    return len(answers)


def hold_refused(library, name, whole, exact, plant):
    """A solver with which the search ends, and not with an answer."""
    try:
        with mock.patch.multiple(solver, whole_solution=whole, exact_solution=exact):
            got = found(library, loaded(library, plant))
    except outcomes.BadInput:
        return
    sys.exit('command.py: weights: with a solver that %s this was found: %s' % (name, got))


def hold_lies(library):
    """Solvers that always lie in the same way: the search does not go on for ever."""
    def none(_problem):
        return None

    def weights(*numbers):
        return lambda problem: None if problem.rows[-1].sign == '=' else [solver.Fraction(number) for number in numbers]
    hold_refused(library, 'answers 0', lambda problem: [0] * problem.count, none, doubling(10))
    hold_refused(library, 'finds all sets empty', none, lambda problem: [solver.Fraction(0)] * problem.count, doubling(10))
    hold_refused(library, 'finds weights that do not hold', none, weights(*[1] * 10), doubling(10))
    hold_refused(library, 'knows small weights that it did not propose', none, weights(1, 0), evidence_plants.PLANT_A)


def hold_solver():
    """What is read of the solver's file: rounded numbers, solutions that may not be the best, none, and neither."""
    def read(function, *lines):
        with mock.patch.object(solver, 'answer_of', lambda *arguments: [line.split() for line in lines]):
            return function(solver.Problem(2, [1, 1], [solver.Row([1, 2], '=', 3), solver.Row([2, 4], '=', 6)], None, False))
    good = [read(solver.whole_solution, 's mip 1 2 %s 3' % status, 'j 1 0.9999999', 'j 2 2.0000001') for status in 'of']
    none = [read(solver.whole_solution, 's mip 1 2 n 0'), read(solver.exact_solution, 's bas 1 2 n n 0')]
    corner = read(solver.exact_solution, 's bas 2 2 f f 0', 'i 1 s 3 0', 'i 2 b 6 0', 'j 1 l 0 0', 'j 2 b 1.5 0')
    if good != [[1, 2], [1, 2]] or none != [None, None] or corner != [0, solver.Fraction(3, 2)]:
        sys.exit('command.py: weights: the solver\'s file is read as %s, %s, %s' % (good, none, corner))
    for function, lines in ((solver.whole_solution, ['s mip 1 2 u 0']), (solver.whole_solution, ['s mip 1 2 o 0', 'j 1 2', 'j 2 -65535']),
                            (solver.whole_solution, ['s mip 1 2 o 0', 'j 1 2']), (solver.whole_solution, ['s mip 1 2 o 0', 'j 1 nan', 'j 2 1']),
                            (solver.whole_solution, ['other words']), (solver.whole_solution, []), (solver.exact_solution, ['s bas 1 2 u u 0']),
                            (solver.exact_solution, ['s bas 2 2 f f 0', 'i 1 s 3 0', 'i 2 s 6 0', 'j 1 b 1 0', 'j 2 b 1 0'])):
        try:
            sys.exit('command.py: weights: what the solver did not decide is read as %s' % (read(function, *lines),))
        except solver.NotDecided:
            pass


def hold_heavy(library, seed, count=HEAVY):
    """Under weights of any size: a quiet cycle that weighs zero or more is found exactly where the independent implementation has one."""
    rng, independent = random.Random(seed), Independent()
    for _ in range(count):
        data = evidence_plants.plant_file(rng, *drawn(rng, rng.choice([evidence_plants.small, evidence_plants.exchange, evidence_plants.passing])))
        plant, other = loaded(library, data), independent.plant(data)
        weights = [rng.choice([0, 1, 2, 3, 5000]) for _ in plant.types]
        try:
            passes = independent.passes(other, weights)
        except TooMany:
            continue
        cycles = [rows for m in range(len(plant.machines)) for rows in [weight_search.heavy_cycle(plant, m, weights)] if rows]
        if passes != (not cycles) or not all(independent.is_quiet_cycle(other, other.rows[rows[0]].machine, rows) for rows in cycles) \
                or any(independent.weight(other, weights, rows) < 0 for rows in cycles) \
                or any(weight_search.effect(plant, rows) != independent.effect(other, rows) for rows in cycles):
            sys.exit('command.py: weights: plant %s, weights %s: the cycles %s' % (data.hex(), weights, cycles))


def with_rows(change, function):
    """The function, on a plant whose rows are changed."""
    def changed(plant, *more):
        machines = [machine._replace(rows=[change(row) for row in machine.rows]) for machine in plant.machines]
        return function(Plant(plant.path, plant.types, machines), *more)
    return changed


PLANTED = [(name, attribute, with_rows(change, getattr(weight_search, attribute)))
           for name, change in (('what is sent is forgotten where something is taken', forgetful),
                                ('the types of a row that takes and sends are exchanged', exchanged_if_both)) for attribute in ('effect', 'lengths')]


def catches(library):
    """How many planted errors are found."""
    for name, attribute, wrong in PLANTED:
        try:
            with mock.patch.object(weight_search, attribute, wrong):
                hold_heavy(library, 1, 300)
        except SystemExit:
            continue
        sys.exit('command.py: weights: the planted error "%s", in %s, is not found' % (name, attribute))
    return len(PLANTED)


def without_solver():
    """Without the solver the package is named."""
    done = subprocess.run([sys.executable, 'tools/hemtaluq', 'weights', 'examples/plant_a/plant.txt'], cwd=building.ROOT, env={'PATH': ''},
                          capture_output=True, text=True, check=False)
    if done.returncode != 2 or 'Debian\'s package glpk-utils' not in done.stderr or done.stdout:
        sys.exit('command.py: weights without a solver: %s' % (done,))


def hold(seed):
    """On how many plants weights were looked for, and how many planted errors were found."""
    library = binding.load()
    without_solver()
    right = lying(library, seed)
    if right < 20:
        sys.exit('command.py: weights: only %d lies of the solver came to an answer' % right)
    hold_lies(library)
    hold_solver()
    hold_heavy(library, seed)
    planted = catches(library)
    if solver.shutil.which('glpsol') is None:
        return 0, planted
    limits(library)
    return certificates(library), planted
