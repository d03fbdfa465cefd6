"""Part C: hemtaluq_list held against networkx, an outside library for graphs.

A machine becomes a directed graph with a node for each state and one for each row, so that parallel rows stay apart: a row
is entered from the state that it leaves, and leads to the state that it enters. The simple cycles that networkx finds in
this graph are the machine's. Turned to begin at their lowest states and sorted, they are what the call owes.
"""
import random
import sys

import evidence_calls as calls
import evidence_independent
import evidence_plants as plants
import listing
from evidence_answers import write_anew
from evidence_independent import TooMany

try:
    import networkx
except ImportError:
    networkx = None

MACHINES = 6000
INDEPENDENT = evidence_independent.Independent()


class Listing:
    """The listing that networkx gives, with one method for each thing that a planted error changes."""

    def row_node(self, number, row):
        return 'row', number

    def numbers(self, plant, machine):
        return [k for k, r in enumerate(plant.rows) if r.machine == machine]

    def graph(self, plant, machine):
        graph = networkx.DiGraph()
        for k in self.numbers(plant, machine):
            row = plant.rows[k]
            node = self.row_node(k, row)
            graph.add_edge(('state', row.left), node)
            graph.add_edge(node, ('state', row.entered))
            graph.nodes[node]['row'] = k
        return graph

    def turned(self, plant, cycle):
        """The rows of a cycle from its lowest state on."""
        turn = min(range(len(cycle)), key=lambda i: plant.rows[cycle[i]].left)
        return cycle[turn:] + cycle[:turn]

    def ordered(self, cycles):
        return sorted(cycles)

    def entries(self, plant, machine):
        graph = self.graph(plant, machine)
        cycles = [[graph.nodes[n]['row'] for n in c if n[0] == 'row'] for c in networkx.simple_cycles(graph)]
        return [x for c in self.ordered([self.turned(plant, c) for c in cycles]) for x in [len(c)] + c]


# ---- planted errors

def without_self_loops(self, plant, machine):
    return [k for k in Listing.numbers(self, plant, machine) if plant.rows[k].left != plant.rows[k].entered]


def quiet_only(self, plant, machine):
    return [k for k in Listing.numbers(self, plant, machine) if not plant.rows[k].progress]


ERRORS = [
    ('parallel rows are one', {'row_node': lambda self, k, row: ('row', row.left, row.entered)}),
    ('self loops are left out', {'numbers': without_self_loops}),
    ('only quiet cycles', {'numbers': quiet_only}),
    ('a cycle begins with its lowest row', {'turned': lambda self, plant, c: c[c.index(min(c)):] + c[:c.index(min(c))]}),
    ('cycles stand as they are found', {'ordered': lambda self, cycles: cycles}),
]


# ---- machines

def machine(rng):
    """A plant of one or two machines that can be listed; the second has other row numbers."""
    if rng.random() < 0.1:
        states, ends = listing.tailed(rng)
        return 2, [(states, plants.different(len(ends), lambda i: ends[i] + plants.message(rng, 2) + (rng.random() < 0.3,)))]
    states = rng.choice([1, 2, 3, 4, 5, 8, 24])
    count = rng.choice([0, 1, 3, 6, 9, 12] if states < 8 else [8, 16, 30, 48])
    near = states >= 8

    def draw(i):
        left = rng.randrange(states)
        entered = min(states - 1, rng.randrange(left + 2)) if near else rng.randrange(states)
        return (left, entered) + plants.message(rng, 2) + (rng.random() < 0.3,)

    return 2, rng.choice([[], [(2, plants.loose(rng, 2, 3, 2))]]) + [(states, plants.different(count, draw))]


def some_machines(rng, count):
    """Plants whose last machine is listed, no file twice, with the entries needed."""
    found = {}
    while len(found) < count:
        data = plants.plant_file(rng, *machine(rng))
        plant = INDEPENDENT.plant(data)
        try:
            found[data] = (data, plant, len(plant.states) - 1, len(INDEPENDENT.entries(plant, len(plant.states) - 1)))
        except TooMany:
            continue
    return list(found.values())


# ---- the part

def disagreement(listing, cases, answers):
    """The first machine whose listing is another, or None."""
    for (data, plant, number, _), got in zip(cases, answers):
        owed = ' '.join(['listed'] + [str(x) for x in listing.entries(plant, number)] + ['kept'])
        if got['list'] != owed:
            return 'plant %s, machine %d: %s, but networkx has %s' % (data.hex(), number, got['list'][:300], owed[:300])
    return None


def main(program, seed, long):
    if networkx is None:
        print('evidence: cycles: NOT RUN, networkx is not installed: no machine of %d is listed by it, and %d planted errors are not taken on'
              % (MACHINES, len(ERRORS)))
        return {}, ['listed_machines', 'planted_in_implementations', 'planted_in_all', 'written_anew', 'written_shorter']
    cases = some_machines(random.Random(seed + 2), MACHINES * (10 if long else 1))
    answers = calls.answers(program, [calls.request(data, machine=m, list_room=room + 3, calls=('list',)) for data, _, m, room in cases])
    wrong = disagreement(Listing(), cases, answers)
    if wrong:
        sys.exit('evidence: cycles: %s' % wrong)
    for name, methods in ERRORS:
        if disagreement(type('Planted', (Listing,), methods)(), cases[:500], answers) is None:
            sys.exit('evidence: cycles: the planted error "%s" is not found' % name)
    print('evidence: cycles: %d machines listed as by networkx, %d of them with cycles, up to %d entries; %d planted errors found'
          % (len(cases), sum(room > 0 for _, _, _, room in cases), max(room for _, _, _, room in cases), len(ERRORS)))
    written = write_anew('cycles', program, [data for data, _, _, _ in cases])
    return dict(listed_machines=len(cases), planted_in_implementations=len(ERRORS), **written), []
