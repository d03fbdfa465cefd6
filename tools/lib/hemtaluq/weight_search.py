"""Weights for a plant, or a balanced set of its cycles, by asking the solver and the proved calls in turn.

The solver knows some quiet cycles. It proposes weights under which these weigh below zero, and the proved call judges them for the whole plant:
they pass, or it shows a quiet cycle that weighs zero or more, which the solver did not know. Each round adds a cycle, so the rounds end. Where
no weights exist for the cycles known, some of them, repeated, send at least what they take (Farkas' lemma): that set the proved call confirms.

Weights above the limit no proved call takes. Where only such are left, the search goes on with a search for cycles of its own, which nobody
believes: it ends with a set for the proved call, or says that what there is lies beyond the limits.
"""
import math
from collections import namedtuple

from . import cycle_sets, solver
from .calls import confirmed, weighed
from .outcomes import BadInput
from .solver import Problem, Row

# No more parts of one number are made than no set has entries.
LONGEST = 1000

# What was found, after how many rounds and with how many cycles known. Weights come with the figures of the proved call.
Weights = namedtuple('Weights', 'weights figures rounds cycles')
Balanced = namedtuple('Balanced', 'entries rounds cycles')
# What lies beyond the limits of the calls, weights or the entries of a set, and so was judged by none.
Beyond = namedtuple('Beyond', 'weights entries rounds cycles')


def effect(plant, rows):
    """Messages sent less messages taken, for each type."""
    found = [0] * len(plant.types)
    for _, row in (plant.rows[k] for k in rows):
        if row.sent is not None:
            found[row.sent] += 1
        if row.taken is not None:
            found[row.taken] -= 1
    return found


# ---- the solver's problems

def below_zero(effects, extra=()):
    """Every cycle weighs below zero; a weight is a whole number, so at most -1."""
    return [Row(one + list(extra), '<=', -1) for one in effects]


def lightest(types, effects, largest):
    """Weights of at most `largest` with the smallest sum, or None."""
    return solver.whole_solution(Problem(types, [1] * types, below_zero(effects), largest, True))


def least_largest(types, effects, limit):
    """The smallest largest weight that is enough, or None where the limit is not. It is the last variable, and no weight is above it."""
    rows = below_zero(effects, [0]) + [Row([int(t == own) for t in range(types)] + [-1], '<=', 0) for own in range(types)]
    found = solver.whole_solution(Problem(types + 1, [0] * types + [1], rows, limit, True))
    return None if found is None else found[-1]


def balance(types, effects):
    """No type's sum is below zero."""
    return [Row([one[t] for one in effects], '>=', 0) for t in range(types)]


def balanced_corner(types, effects, lengths):
    """Repeats of the cycles, as fractions that add up to 1, with few rows in all; None where there are none."""
    rows = balance(types, effects) + [Row([1] * len(effects), '=', 1)]
    return solver.exact_solution(Problem(len(effects), lengths, rows, None, False))


def fewest_repeats(types, effects, limit):
    """Whole repeats within a limit, as few as possible; None where there are none, or the solver does not get to them."""
    rows = balance(types, effects) + [Row([1] * len(effects), '>=', 1)]
    try:
        return solver.whole_solution(Problem(len(effects), [1] * len(effects), rows, limit, True))
    except solver.NotDecided:
        return None


def larger_weights(types, effects):
    """Weights of any size, with the smallest sum; they are as many fractions, made whole."""
    return whole(solver.exact_solution(Problem(types, [1] * types, below_zero(effects), None, False)) or [])


def whole(fractions):
    """Whole numbers in the same proportion, as small as possible."""
    scale = math.lcm(*(one.denominator for one in fractions))
    numbers = [int(one * scale) for one in fractions]
    if not any(numbers):
        raise BadInput('glpsol\'s numbers are all 0')
    return [number // math.gcd(*numbers) for number in numbers]


# ---- cycles under weights of any size

def lengths(plant, m, weights):
    """A machine's quiet rows: each its number, the states, and 1 + n × weight. A simple cycle of at most n rows is longer than 0 exactly when
    it weighs zero or more."""
    machine = plant.machines[m]
    for number, row in enumerate(machine.rows, plant.first_row(m)):
        if not row.progress:
            weight = (weights[row.sent] if row.sent is not None else 0) - (weights[row.taken] if row.taken is not None else 0)
            yield number, row.left, row.entered, 1 + len(machine.states) * weight


def heavy_cycle(plant, m, weights):
    """A quiet cycle of a machine that weighs zero or more, or None: by relaxation, after Bellman and Ford."""
    states, rows = len(plant.machines[m].states), list(lengths(plant, m, weights))
    heights, into, raised = [0] * states, {}, None
    for _ in range(states):
        raised = None
        for number, left, entered, length in rows:
            if heights[left] + length > heights[entered]:
                heights[entered], into[entered], raised = heights[left] + length, (number, left), entered
        if raised is None:
            return None
    for _ in range(states):
        raised = into[raised][1]
    number, at = into[raised]
    cycle = [number]
    while at != raised:
        number, at = into[at]
        cycle.insert(0, number)
    return cycle


# ---- the search

def parts_of(number, limit):
    """A number as a sum of numbers within a limit."""
    return [min(limit, number - part) for part in range(0, min(number, LONGEST * limit), limit)]


class Search:
    """The rounds. `told(rounds, cycles, largest)` is called before each."""

    def __init__(self, library, plant, told):
        self.library, self.plant, self.told, self.types = library, plant, told, len(plant.types)
        self.cycles, self.effects, self.rounds, self.largest = [], [], 0, 0

    def begin_round(self):
        self.rounds += 1
        self.told(self.rounds, len(self.cycles), self.largest)

    def add(self, rows):
        self.cycles.append(rows)
        self.effects.append(effect(self.plant, rows))

    def found(self):
        solver.needed()
        return self.within() or self.beyond()

    def within(self):
        """Weights that pass, or None where no weights within the limit do for the cycles known."""
        weights = [0] * self.types
        while weights is not None:
            self.begin_round()
            answer, rows = weighed(self.library, self.plant, weights)
            if self.library.kind(answer) == 'PASSED':
                return Weights(weights, answer, self.rounds, len(self.cycles))
            self.add(rows)
            weights = self.proposed()
        return None

    def proposed(self):
        """Weights for the cycles known: the smallest largest weight, then the smallest sum. None where there are none within the limit.

        More cycles never make a smaller largest weight enough, so it is looked for anew only where the last one is not.
        """
        if not self.types:
            return None
        found = lightest(self.types, self.effects, self.largest)
        if found is None:
            larger = least_largest(self.types, self.effects, self.library.limits['LARGEST_WEIGHT'])
            if larger is not None:
                self.largest, found = larger, lightest(self.types, self.effects, larger)
        if found is not None and any(sum(weight * number for weight, number in zip(found, one)) >= 0 for one in self.effects):
            raise BadInput('glpsol\'s weights do not hold for a cycle that it knows')
        return found

    def beyond(self):
        """A balanced set, or what there is beyond the limits."""
        while True:
            corner = balanced_corner(self.types, self.effects, [len(rows) for rows in self.cycles])
            if corner is not None:
                return self.balanced(whole(corner))
            weights = larger_weights(self.types, self.effects)
            rows = next((rows for m in range(len(self.plant.machines)) for rows in [heavy_cycle(self.plant, m, weights)] if rows), None)
            if rows in self.cycles or rows is None and max(weights) <= self.library.limits['LARGEST_WEIGHT']:
                raise BadInput('glpsol contradicts itself')
            if rows is None:
                return Beyond(weights, [], self.rounds, len(self.cycles))
            self.add(rows)
            self.begin_round()

    def balanced(self, repeats):
        """The set with these repeats, if the proved call confirms it, or with the fewest where it takes no set with so many."""
        entries, limits = self.entries(repeats), self.library.limits
        if len(entries) > limits['MOST_ENTRIES']:
            entries = self.entries(fewest_repeats(self.types, self.effects, limits['MOST_ENTRIES'] * limits['LARGEST_AMOUNT']) or repeats)
        if len(entries) > limits['MOST_ENTRIES']:
            return Beyond([], [self.entry(rows, number) for rows, number in zip(self.cycles, repeats) if number], self.rounds, len(self.cycles))
        if self.library.kind(confirmed(self.library, self.plant, 'the set', entries)) != 'CONFIRMED':
            raise BadInput('glpsol\'s set is not balanced')
        return Balanced(entries, self.rounds, len(self.cycles))

    def entry(self, rows, repeats):
        return cycle_sets.Entry(self.plant.rows[rows[0]][0], repeats, rows, 0)

    def entries(self, repeats):
        """The entries of a set. A cycle may stand in several, each with repeats within the limit."""
        limit = self.library.limits['LARGEST_AMOUNT']
        return [self.entry(rows, part) for rows, number in zip(self.cycles, repeats) for part in parts_of(number, limit)]
