"""The inputs of the benchmarks: plants, weights, cycle sets, lists of numbers, runs of events, and the small plants as Promela models and linear programs.

A machine is a count of states and a list of rows; a row is (state left, state entered, type sent or None, type taken or
None, progress). Every row is written with both states. No machine has a row twice, for a twin row is refused.
"""
import random
import struct


# ---- plants

def plant(types, machines):
    data = [len(machines), types]
    for states, rows in machines:
        data += [states, len(rows)]
        for left, entered, sent, taken, progress in rows:
            data.append(3 | (4 if sent is not None else 0) | (8 if taken is not None else 0) | (16 if progress else 0))
            data += [left, entered] + [t for t in (sent, taken) if t is not None]
    return bytes(data)


def numbers(types, machines):
    """The list of numbers that says a plant."""
    said = [len(machines), types]
    for states, rows in machines:
        said += [states, len(rows)]
        for left, entered, sent, taken, progress in rows:
            kind = (sent is not None) + 2 * (taken is not None)
            said += [left, entered, kind, (0, sent, taken, taken)[kind], int(progress), sent if kind == 3 else 0]
    return said


def sends(a, b, t):
    return (a, b, t, None, False)


def takes(a, b, t, progress=False):
    return (a, b, None, t, progress)


def takes_and_sends(a, b, taken, sent, progress=False):
    return (a, b, sent, taken, progress)


def steps(a, b, progress=False):
    return (a, b, None, None, progress)


PLANT_A = 2, [(2, [sends(0, 1, 0), takes(1, 0, 1, True)]), (2, [takes(0, 1, 0), sends(1, 0, 1)])]

TWO_CLIENTS_IN_TURN = 6, [
    (4, [sends(0, 1, 0), takes(1, 2, 1), steps(2, 3, True), sends(3, 0, 2)]),
    (4, [sends(0, 1, 3), takes(1, 2, 4), steps(2, 3), sends(3, 0, 5)]),
    (6, [takes(0, 1, 0), sends(1, 2, 1), takes(2, 3, 2), takes(3, 4, 3), sends(4, 5, 4), takes(5, 0, 5)])]

RELAY = 3, [
    (2, [sends(0, 1, 0), takes(1, 0, 2, True)]),
    (3, [takes(0, 1, 0), steps(1, 2), sends(2, 0, 1)]),
    (2, [takes(0, 1, 1), sends(1, 0, 2)])]

POLLING = 6, [(6, [r for i in range(3) for r in (sends(2 * i, 2 * i + 1, i), takes(2 * i + 1, (2 * i + 2) % 6, 3 + i, True))])] + [
    (2, [takes(0, 1, i), sends(1, 0, 3 + i)]) for i in range(3)]

FEEDER = 2, [
    (3, [sends(0, 1, 0), takes(1, 2, 1, True), steps(2, 0)]),
    (2, [takes_and_sends(0, 1, 0, 1), takes(1, 1, 0), steps(1, 0)])]

# Name, plant, weights that pass, the capacity of each channel in the Promela model, and SPIN's options -w (its table has 2 to
# this power places) and -m (the depth that it reserves), from state 0 and from anywhere: cut to what the model needs.
SMALL = [
    ('plant A', PLANT_A, [2, 1], 4, ((10, 100), (11, 1000))),
    ('two clients in turn', TWO_CLIENTS_IN_TURN, [2, 0, 0, 0, 1, 0], 1, ((10, 100), (16, 1000))),
    ('relay of three', RELAY, [3, 2, 1], 4, ((10, 100), (15, 1000))),
    ('panel and three probes', POLLING, [2] * 3 + [1] * 3, 1, ((10, 100), (16, 2000))),
    ('control and feeder', FEEDER, [2, 1], 4, ((10, 100), (11, 1000))),
]


def ordinary():
    """Ten machines of eight states in a ring of messages, each with a way round; the first one's take is progress."""
    machines = []
    for m in range(10):
        rows = [takes(0, 1, m, m == 0), steps(1, 2), steps(2, 3), steps(2, 4), steps(3, 5), steps(4, 5), steps(5, 6),
                sends(6, 7, (m + 1) % 10), steps(7, 0), steps(5, 5, True)]
        machines.append((8, rows))
    return 10, machines


ORDINARY_PASSES = [1, 10, 9, 8, 7, 6, 5, 4, 3, 2]
ORDINARY_FAILS = [10, 9, 8, 7, 6, 5, 4, 3, 2, 1]  # the last machine's cycle weighs 9


# The most parallel rows of `chains`, and so the count of its light types and that of its heavy ones, which stand behind them.
PARALLEL = 16


def chains(machines, states, rows, open_ends=0):
    """Machines with a chain of rows that send light types, in the order that needs all rounds; the rows back take heavy types.

    The rows of a machine are parallel ones, as many for each state as can be, each with another type of the same weight. So many of the last
    machines have rows back that take light types: their cycles, of as many rows as there are states, do not weigh below zero."""
    made = []
    for m in range(machines):
        back = PARALLEL if m < machines - open_ends else 0
        made.append((states, [sends(s, s + 1, t) if s + 1 < states else takes(s, 0, back + t)
                              for s in range(states) for t in range(rows * (s + 1) // states - rows * s // states)]))
    return 2 * PARALLEL, made


CHAIN_WEIGHTS = [1] * PARALLEL + [1000] * PARALLEL


def different(count, draw):
    """So many rows of a machine, each drawn with the rows before it, no two of them equal."""
    rows = []
    while len(rows) < count:
        row = draw(rows)
        if row not in rows:
            rows.append(row)
    return rows


def with_messages(rng, left, entered, kinds):
    """A row between these states of one of these kinds, with types of 64."""
    kind = rng.choice(kinds)
    return kind(left, entered, *(rng.randrange(64) for _ in range({steps: 0, sends: 1, takes: 1, takes_and_sends: 2}[kind])))


MESSAGES = [sends, takes, takes_and_sends]


def any_states(seed, kinds):
    """16 machines, 1,024 rows of these kinds between any states."""
    rng = random.Random(seed)
    return 64, [(64, different(64, lambda rows: with_messages(rng, rng.randrange(64), rng.randrange(64), kinds))) for _ in range(16)]


def largest():
    """The longest file: all rows have all fields, as each takes and sends."""
    return any_states(5154, [takes_and_sends])


def one_message():
    """As many rows, which send or take in no regular order."""
    return any_states(4130, [sends, takes])


def one_state_left():
    """1,024 rows, 255 of each machine but the last, and all of a machine leave one state: a row must be compared with every row before it."""
    rng = random.Random(255)
    return 64, [(64, different(count, lambda rows: with_messages(rng, 0, rng.randrange(64), MESSAGES))) for count in (255, 255, 255, 255, 4)]


def other_than(rng, state):
    return (state + rng.randrange(1, 64)) % 64


def implied(rows):
    """The state that a row behind these leaves without a byte for it."""
    return rows[-1][0] if rows else 0


def longest_row(rng, rows):
    """A row, behind others, of a machine of 64 states and 64 types that takes and sends, and of which no state can be left out."""
    left = other_than(rng, implied(rows))
    return with_messages(rng, left, other_than(rng, left), [takes_and_sends])


def mixed_row(rng, rows):
    """A row, behind others, of which each field is in the shortest file or not, at random."""
    left = other_than(rng, implied(rows)) if rng.random() < 0.5 else implied(rows)
    entered = other_than(rng, left) if rng.random() < 0.5 else left
    return with_messages(rng, left, entered, [steps] + MESSAGES)[:4] + (rng.random() < 0.5,)


def longest_list():
    """16 machines with rows of five bytes each: the longest list, of 6,178 numbers, and the longest file."""
    rng = random.Random(6178)
    return 64, [(64, different(64, lambda rows: longest_row(rng, rows))) for _ in range(16)]


def mixed():
    """As many machines and rows, and as long a list; the rows have one to five bytes in the shortest file, in no regular order."""
    rng = random.Random(2025)
    return 64, [(64, different(64, lambda rows: mixed_row(rng, rows))) for _ in range(16)]


def ring(states, parallel):
    """A ring of so many states; parallel rows send another type each."""
    return parallel, [(states, [sends(s, (s + 1) % states, t) for s in range(states) for t in range(parallel)])]


def parallel_rows(counts):
    """So many rows from state 0 to 1, from 1 to 2, and so on; parallel ones send another type each."""
    return [sends(s, s + 1, t) for s, count in enumerate(counts) for t in range(count)]


def chain():
    """19 states and 48 rows without any cycle: every way through it is a dead end."""
    return 3, [(19, parallel_rows([1, 2] + [3] * 14 + [2, 1]))]


def blocked_chain():
    """18 states and 47 rows. From each state of the chain a way leads back to state 0, but only over state 1, which is left by then."""
    return 3, [(18, parallel_rows([1, 1] + [3] * 14 + [1]) + [steps(17, 1), steps(1, 0)])]


def full_set():
    """A plant of 16 rings of 64 rows that send and take by turns, and 256 entries: each ring sixteen times."""
    machines = [(64, [(sends if s % 2 else takes)(s, (s + 1) % 64, (s // 2 + m) % 64) for s in range(64)]) for m in range(16)]
    entries = [x for e in range(256) for x in [e % 16, 1 + 3906 * e, 64] + [64 * (e % 16) + (e + i) % 64 for i in range(64)]]
    return (64, machines), entries


# ---- runs of events; the contents at opening are 1,000 of each type

RUN = 4096  # rows of a run
# Plant A's four rows in turn: the panel asks, the probe answers.
RUN_OF_A = [0, 2, 3, 1] * (RUN // 4)


def rings():
    """16 rings of 64 rows that take one type and send another, and of which the last has progress: the longest file. In a round of a ring as many
    messages of each type are sent as taken, and any weights pass."""
    return 64, [(64, [takes_and_sends(s, (s + 1) % 64, (s + m) % 64, (3 * s + m) % 64, s == 63) for s in range(64)]) for m in range(16)]


def run_of_rings():
    """Rows of the rings: in no regular order of the machines, each moves on by one."""
    rng, at, rows = random.Random(1024), [0] * 16, []
    for _ in range(RUN):
        m = rng.randrange(16)
        rows.append(64 * m + at[m])
        at[m] = (at[m] + 1) % 64
    return rows


def run_of_types():
    """Types in no regular order, none more than 1,000 times."""
    rng = random.Random(64)
    return [rng.randrange(64) for _ in range(RUN)]


def weight_bytes(weights):
    return struct.pack('<%dH' % len(weights), *weights)


def list_bytes(numbers):
    return struct.pack('<%dH' % len(numbers), *numbers)


def set_bytes(numbers):
    """Of a cycle set, and of a run of events."""
    return struct.pack('<%dI' % len(numbers), *numbers)


# ---- the small plants for SPIN and GLPK

def simple_cycles(states, rows):
    """Whether a cycle has progress, and its rows."""
    def extend(start, at, path, left):
        for row in rows:
            if row[0] != at:
                continue
            if row[1] == start:
                yield path + [row]
            elif row[1] > start and row[1] not in left:
                yield from extend(start, row[1], path + [row], left | {row[1]})
    for s in range(states):
        yield from extend(s, s, [], {s})


def effects(types, machines):
    """For each simple cycle of each machine: whether it has progress, and its effect for each type."""
    for states, rows in machines:
        for cycle in simple_cycles(states, rows):
            effect = [0] * types
            for _, _, sent, taken, _ in cycle:
                if sent is not None:
                    effect[sent] += 1
                if taken is not None:
                    effect[taken] -= 1
            yield any(r[4] for r in cycle), effect


def cycles_text(types, machines):
    found = list(effects(types, machines))
    return '%d %d\n' % (types, len(found)) + ''.join('%d %s\n' % (progress, ' '.join(map(str, effect))) for progress, effect in found)


def lp_text(types, machines):
    """The inequalities (1) to (4) for glpsol --lp; the strict one as 'at least 1', which is the same for a homogeneous system."""
    found = list(effects(types, machines))
    lines = ['Minimize', ' cost: 0 x0', 'Subject To']
    for t in range(types):
        terms = ' '.join('%+d x%d' % (effect[t], i) for i, (_, effect) in enumerate(found) if effect[t])
        if terms:
            lines.append(' type%d: %s >= 0' % (t, terms))
    lines.append(' some: ' + ' '.join('+ x%d' % i for i in range(len(found))) + ' >= 1')
    quiet = ' '.join('+ x%d' % i for i, (progress, _) in enumerate(found) if progress)
    if quiet:
        lines.append(' progress: %s = 0' % quiet)
    return '\n'.join(lines + ['End', ''])


def act_of(sent, taken):
    """What a row does to the channels: it takes first, then sends."""
    acts = ['t%s%s' % one for one in ((taken, '?_'), (sent, '!0')) if one[0] is not None]
    return 'atomic { %s; %s }' % tuple(acts) if len(acts) == 2 else acts[0] if acts else 'skip'


def promela(types, machines, capacity, anywhere):
    """One channel for each type, one process for each machine, with SPIN's progress labels. Sending to a full channel waits. A row that takes and
    sends can begin when there is a message to take, and no other process moves between the two.

    The processes begin in state 0 with empty channels; or, anywhere, in any state, after any contents up to the capacity."""
    lines = ['chan t%d = [%d] of { bit };' % (t, capacity) for t in range(types)]
    if anywhere:
        lines += ['bool ready;', 'init {']
        for t in range(types):
            lines += ['    do', '    :: nfull(t%d) -> t%d!0' % (t, t), '    :: break', '    od;']
        lines += ['    ready = true', '}']
    for m, (states, rows) in enumerate(machines):
        lines += ['active proctype machine%d() {' % m]
        if anywhere:
            lines += ['    ready;', '    if'] + ['    :: goto s%d' % s for s in range(states)] + ['    fi;']
        for s in range(states):
            lines += ['s%d: if' % s]
            for k, (left, entered, sent, taken, progress) in enumerate(rows):
                if left == s:
                    mark = ' progress_%d: skip;' % k if progress else ''
                    lines.append('    :: %s;%s goto s%d' % (act_of(sent, taken), mark, entered))
            lines += ['    fi;']
        lines += ['}']
    return '\n'.join(lines) + '\n'
