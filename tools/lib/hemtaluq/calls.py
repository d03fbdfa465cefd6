"""The proved calls on a plant. A refusal is raised, with what stands at its place."""
from . import binding
from .cycle_sets import numbers_of, where_in_set
from .outcomes import accepted
from .texts import counted, grouped
from .words import where_in_amounts

SHORTEST_LISTING = 4096


def weighed(library, plant, weights):
    """The answer for weights, and the rows of the cycle that it shows."""
    cycle = binding.room('uint16_t', library.limits['CYCLE_ENTRIES'])
    answer = accepted(library, library.weigh(plant.data, weights, cycle), where_in_amounts(plant, weights))
    return answer, list(cycle[:answer.rows])


def quoted(library, plant, weights, contents, g, d):
    return accepted(library, library.quote(plant.data, weights, contents, g, d), where_in_amounts(plant, weights, contents, g, d))


def listed(library, plant, machine, most):
    """The simple cycles of a machine. While the list that is lent is refused as too short, a longer one is, up to `most` entries."""
    def where(number, _place):
        if number == 12:
            return 'the machines are %s' % ' '.join(m.name for m in plant.machines)
        if number == 13:
            return 'it has %s and %s' % (counted(len(plant.machines[machine].states), 'state'), counted(len(plant.machines[machine].rows), 'row'))
        return '%s entries were lent, and --most N lends more' % grouped(most)
    length = min(SHORTEST_LISTING, most)
    while True:
        out = binding.room('uint16_t', length)
        answer = library.list(plant.data, machine, out)
        if answer.number != 14 or length == most:
            return cycles_in(out[:accepted(library, answer, where).entries])
        length = min(8 * length, most)


def cycles_in(entries):
    """The cycles of a listing: each its row count, then its rows."""
    at, found = 0, []
    while at < len(entries):
        found.append(entries[at + 1:at + 1 + entries[at]])
        at += 1 + entries[at]
    return found


def confirmed(library, plant, path, entries):
    """The answer for a set that was read at a path."""
    return accepted(library, library.confirm(plant.data, numbers_of(entries)), where_in_set(plant, path, entries, library.limits))
