"""Part B: an outside solver, GLPK's glpsol, on the published test, and what the proved calls say to its solutions.

For each plant two linear programs go to the solver. The sets' side has inequalities (1) to (4): the sum of x times effect
is >= 0 for each type (1), the sum of all x is >= 1 (2), only quiet simple cycles, of every machine, have repeats x (3), and
x >= 0 (4). The weights' side has a weight w >= 0 for each type and, for every quiet simple cycle, the sum of w times
effect is <= -1. Exactly one of them has a solution.
Made whole, the solver's weights must pass hemtaluq_weigh, and its set must be confirmed by hemtaluq_confirm.

data/certificates.txt has solutions of the solver, one to a line: the side, the plant, the numbers. Every fourth is of a plant with a row that takes
and sends. They are judged in every run. Where glpsol is installed, plants are solved anew.

    python3 tests/evidence_solver.py        # makes those of data/certificates.txt anew whose plants do not fit their places, and those that are missing
"""
import math
import os
import random
import shutil
import subprocess
import sys
import tempfile
from concurrent.futures import ThreadPoolExecutor
from fractions import Fraction

import evidence_calls as calls
import evidence_independent
import evidence_plants as plants
from evidence_answers import write_anew
from evidence_independent import Refused, TooMany, takes_and_sends

ANEW = 2200
STORED = 600
MOST_CYCLES = 150
CERTIFICATES = os.path.join(calls.ROOT, 'tests', 'data', 'certificates.txt')


class Wrong(Exception):
    pass


# ---- the two linear programs

def sum_text(factors, names):
    return ''.join(' %+d %s' % (f, n) for f, n in zip(factors, names) if f) or ' 0 z'


class Test:
    """The published test, with one method for each thing that a planted error changes."""
    other = evidence_independent.Independent()

    def cycles(self, plant):
        return [(m, c) for m in range(len(plant.states)) for c in self.other.quiet_cycles(plant, m)]

    def set_side(self, types, effects):
        """Inequalities over the repeats x0, x1, ..."""
        names = ['x%d' % i for i in range(len(effects))]
        rows = ['%s >= 0' % sum_text([e[t] for e in effects], names) for t in types]
        return names, rows + ['%s >= 1' % sum_text([1] * len(names), names)]

    def weights_side(self, types, effects):
        """Inequalities over the weights w0, w1, ..."""
        names = ['w%d' % t for t in types]
        return names, ['%s <= -1' % sum_text(e, names) for e in effects]


def program_text(names, rows):
    lines = ['Minimize', ' total: 0 z' + ''.join(' + ' + n for n in names), 'Subject To']
    return '\n'.join(lines + [' r%d:%s' % (i, r) for i, r in enumerate(rows)] + [' last: z = 0', 'End', ''])


def solution(folder, names, rows):
    """The solver's values, or None where it says that there is no solution."""
    with tempfile.TemporaryDirectory(dir=folder) as place:
        given, found = os.path.join(place, 'given'), os.path.join(place, 'found')
        with open(given, 'w', encoding='ascii') as out:
            out.write(program_text(names, rows))
        subprocess.run(['glpsol', '--nopresol', '--lp', given, '-w', found], stdout=subprocess.DEVNULL, check=True)
        with open(found, encoding='ascii') as lines:
            words = [line.split() for line in lines]
    status = next(w[4] for w in words if w[:2] == ['s', 'bas'])
    if status not in 'fn':
        raise Wrong('the solver does not decide: %s' % status)
    values = [Fraction(w[3]).limit_denominator(100000) for w in words if w[0] == 'j']
    return values[1:] if status == 'f' else None


def whole(values):
    """Whole numbers in the same proportion."""
    scale = math.lcm(*(v.denominator for v in values)) if values else 1
    numbers = [int(v * scale) for v in values]
    return [x // (math.gcd(*numbers) or 1) for x in numbers] if numbers else []


def solved(test, folder, plant):
    """The side that has a solution, and its whole numbers: weights, or the entries of a set."""
    cycles, types = test.cycles(plant), range(plant.types)
    effects = [test.other.effect(plant, c) for _, c in cycles]
    repeats = solution(folder, *test.set_side(types, effects))
    weights = solution(folder, *test.weights_side(types, effects))
    if (repeats is None) == (weights is None):
        raise Wrong('both sides have a solution' if weights is not None else 'no side has a solution')
    if weights is not None:
        return 'weights', whole(weights)
    return 'set', [x for (m, c), r in zip(cycles, whole(repeats)) if r for x in (m, r, len(c)) + tuple(c)]


def within_limits(side, numbers):
    if side == 'weights':
        return max(numbers, default=0) <= 1000
    return max(entry[1] for entry in entries(numbers)) <= 1000000


def entries(numbers):
    at, found = 0, []
    while at < len(numbers):
        found.append(numbers[at:at + 3 + numbers[at + 2]])
        at += 3 + numbers[at + 2]
    return found


# ---- the judgement of the proved calls

def request(data, side, numbers):
    if side == 'weights':
        return calls.request(data, numbers, calls=('weigh',))
    return calls.request(data, set=numbers, calls=('confirm',))


def judge(program, certificates):
    """Stop at the first certificate that a proved call turns down."""
    answers = calls.answers(program, [request(*c) for c in certificates])
    for (data, side, numbers), got in zip(certificates, answers):
        good = got['weigh'].startswith('passed') if side == 'weights' else got['confirm'] == 'confirmed'
        if not good:
            raise Wrong('plant %s, %s %s: %s' % (data.hex(), side, numbers, got))


# ---- plants

def random_plant(rng):
    return rng.choice([plants.exchange] * 6 + [plants.small, plants.first_not_largest, plants.many_types, plants.rings, plants.passing, plants.one_state])(rng)


def some_plants(rng, count):
    """Files of plants whose quiet cycles can be gone through, no file twice."""
    found, other = {}, evidence_independent.Independent()
    while len(found) < count:
        data = plants.plant_file(rng, *random_plant(rng))
        plant = other.plant(data)
        try:
            if sum(len(other.quiet_cycles(plant, m)) for m in range(len(plant.states))) <= MOST_CYCLES:
                found[data] = True
        except TooMany:
            continue
    return list(found)


def solve_all(test, files):
    """Certificates of plants in their order, and how many were beyond the limits."""
    other = evidence_independent.Independent()
    with tempfile.TemporaryDirectory() as folder, ThreadPoolExecutor(2) as pool:
        sides = list(pool.map(lambda data: solved(test, folder, other.plant(data)), files))
    good = [(data, side, numbers) for data, (side, numbers) in zip(files, sides) if within_limits(side, numbers)]
    return good, len(files) - len(good)


# ---- planted errors

def first_type_left_out(self, types, effects):
    return Test.set_side(self, list(types)[1:], effects)


def weight_zero(self, types, effects):
    names, rows = Test.weights_side(self, types, effects)
    return names, [r.replace('<= -1', '<= 0') for r in rows]


SOLVER_ERRORS = [
    ('the first type has no inequality', {'set_side': first_type_left_out}),
    ('a cycle may weigh zero', {'weights_side': weight_zero}),
    ('a cycle with one progress row is quiet', {'other': dict(evidence_independent.WEIGHING_ERRORS)['a cycle with one progress row is quiet']}),
    ('only cycles through state 0', {'other': dict(evidence_independent.WEIGHING_ERRORS)['only cycles through state 0 are judged']}),
]


def without_heaviest(side, numbers):
    return [0 if w == max(numbers) else w for w in numbers] if side == 'weights' else numbers


def repeats_forgotten(side, numbers):
    return numbers if side == 'weights' else [x for e in entries(numbers) for x in [e[0], 1] + e[2:]]


def without_last_entry(side, numbers):
    return numbers if side == 'weights' or len(entries(numbers)) < 2 else [x for e in entries(numbers)[:-1] for x in e]


STORED_ERRORS = [('the heaviest weight is 0', without_heaviest), ('repeats are forgotten', repeats_forgotten), ('the last entry is dropped', without_last_entry)]


def catches(program, certificates, files):
    """How many planted errors are found: changed certificates, and with the solver changed inequalities."""
    for name, change in STORED_ERRORS:
        try:
            judge(program, [(data, side, change(side, numbers)) for data, side, numbers in certificates])
        except Wrong:
            continue
        sys.exit('evidence: solver: the planted error "%s" is not found' % name)
    for name, methods in SOLVER_ERRORS if files else []:
        try:
            judge(program, solve_all(type('Planted', (Test,), methods)(), files)[0])
        except Wrong:
            continue
        sys.exit('evidence: solver: the planted error "%s" is not found' % name)
    return len(STORED_ERRORS) + (len(SOLVER_ERRORS) if files else 0)


# ---- the part

def stored():
    with open(CERTIFICATES, encoding='ascii') as lines:
        found = [line.split() for line in lines if not line.startswith('#')]
    return [(bytes.fromhex(words[1]), words[0], [int(x) for x in words[2:]]) for words in found]


def fits(place, data):
    """Whether a plant may have its certificate in this place: it is read, and in every fourth place it has a row that takes and sends."""
    try:
        plant = evidence_independent.Independent().plant(data)
    except Refused:
        return False
    return place % 4 != 3 or takes_and_sends(plant)


def store():
    """Each certificate whose plant fits its place stays there; the others are made anew."""
    kept = {i: c for i, c in enumerate(stored() if os.path.exists(CERTIFICATES) else []) if fits(i, c[0])}
    known = {data for data, _, _ in kept.values()}
    files = [data for data in some_plants(random.Random(4), 2 * STORED + len(known)) if data not in known and fits(3, data)]
    anew = iter(solve_all(Test(), files[:STORED])[0])
    certificates = [kept.get(i) or next(anew) for i in range(STORED)]
    with open(CERTIFICATES, 'w', encoding='ascii') as out:
        out.write('# Solutions of glpsol: side, plant file, then weights or the entries of a set. tests/evidence_solver.py makes and judges them.\n')
        for data, side, numbers in certificates:
            out.write(' '.join([side, data.hex()] + [str(x) for x in numbers]) + '\n')


def main(program, seed, long):
    kept = stored()
    present = shutil.which('glpsol') is not None
    files = some_plants(random.Random(seed + 1), ANEW * (5 if long else 1)) if present else []
    try:
        judge(program, kept)
        anew, beyond = solve_all(Test(), files)
        judge(program, anew)
    except Wrong as wrong:
        sys.exit('evidence: solver: %s' % wrong)
    if not all(fits(i, c[0]) for i, c in enumerate(kept)):
        sys.exit('evidence: solver: not every fourth stored certificate is of a plant with a row that takes and sends')
    for side in ('weights', 'set'):
        if sum(c[1] == side for c in kept) < 100 or present and sum(c[1] == side for c in anew) < 100:
            sys.exit('evidence: solver: too few plants with %s' % side)
    found = catches(program, kept, files[:150])
    print('evidence: solver: %d stored certificates judged (%d weights, %d sets); solved anew: %s; %d planted errors found'
          % (len(kept), sum(c[1] == 'weights' for c in kept), sum(c[1] == 'set' for c in kept),
             '%d plants, exactly one side each (%d weights, %d sets judged, %d beyond the limits)'
             % (len(files), sum(c[1] == 'weights' for c in anew), sum(c[1] == 'set' for c in anew), beyond) if present
             else 'NOT RUN, glpsol is not installed: no plant of %d is solved, and %d planted errors are not taken on' % (ANEW, len(SOLVER_ERRORS)), found))
    counted = dict(certificates=len(kept), solved_anew=len(files), planted_in_solutions=found,
                   **write_anew('solver', program, [data for data, _, _ in kept] + files))
    return counted, [] if present else ['solved_anew', 'planted_in_solutions', 'planted_in_all', 'written_anew', 'written_shorter']


if __name__ == '__main__':
    store()
