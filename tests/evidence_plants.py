"""Plants of many shapes, as files, with the values that the tests put to them. No machine has two equal rows."""
PLANT_A = bytes.fromhex('0202 0202 060100 1b010001 0202 0a0100 07010001')
PLANT_B = bytes.fromhex('0202 0202 060100 0b010001 0202 0a0100 07010001')


# ---- files

def row_bytes(rng, previous, left, entered, sent, taken, progress):
    """A row; a field that may be left out is left out at times."""
    bits = 16 if progress else 0
    fields = []
    if left != previous or rng.random() < 0.5:
        bits, fields = bits | 1, fields + [left]
    if entered != left or rng.random() < 0.5:
        bits, fields = bits | 2, fields + [entered]
    if sent is not None:
        bits, fields = bits | 4, fields + [sent]
    if taken is not None:
        bits, fields = bits | 8, fields + [taken]
    return [bits] + fields


def plant_file(rng, types, machines):
    """A file of machines, each a count of states and a list of rows (left, entered, sent, taken, progress)."""
    data = [len(machines), types]
    for states, rows in machines:
        data += [states, len(rows)]
        previous = 0
        for row in rows:
            data += row_bytes(rng, previous, *row)
            previous = row[0]
    return bytes(data)


# ---- machines

TRIES = 40


def different(count, draw):
    """Up to so many rows, as drawn for 0, 1, 2, ...: one that equals an earlier one is drawn again, and after some tries left out."""
    rows = {}
    for i in range(count):
        for _ in range(TRIES):
            row = draw(i)
            if row not in rows:
                rows[row] = True
                break
    return list(rows)


def message(rng, types):
    """What a row sends and takes; where it does both, often one type."""
    if not types:
        return None, None
    kind, sent, taken = rng.choice(['sends', 'takes', 'takes', 'neither', 'both']), rng.randrange(types), rng.randrange(types)
    if kind == 'both':
        return sent, rng.choice([sent, taken, taken])
    return (sent if kind == 'sends' else None, taken if kind == 'takes' else None)


def between_any(rng, states, types, progress):
    return (rng.randrange(states), rng.randrange(states)) + message(rng, types) + (rng.random() < progress,)


def loose(rng, states, count, types):
    """Rows between any states: parallel rows, self loops and states that nothing enters come about by themselves."""
    return different(count, lambda i: between_any(rng, states, types, 0.2))


def ring(rng, states, count, types):
    """One ring through all states, some of its rows in parallel, most of it quiet."""
    rows = different(count, lambda i: (i % states, (i + 1) % states) + message(rng, types) + (rng.random() < 0.05,))
    rng.shuffle(rows)
    return rows


def falling(rng, states, count, types):
    """Rows onward send a light type, or one for another that is as heavy or a little lighter, or nothing; rows back take a heavier one, and may send
    one that is much lighter: weights 1, 2, 3, ... pass, or just fail."""
    def draw(i):
        left, entered, t = rng.randrange(states), rng.randrange(states), rng.randrange(types)
        entered = min(entered, left + rng.choice([1, 1, 2])) if entered > left else max(entered, left - types)
        if entered > left:
            return (left, entered) + rng.choice([(0, None), (None, None), (min(types - 1, t + rng.randrange(2)), t)]) + (rng.random() < 0.1,)
        heavy = min(types - 1, left - entered + (0 if rng.random() < 0.03 else 1))
        taken = rng.randint(heavy, types - 1)
        lighter = taken - heavy - 1
        return left, entered, rng.randint(0, lighter) if lighter >= 0 and rng.random() < 0.5 else None, taken, rng.random() < 0.1

    return different(count, draw)


# ---- shapes: a name, how many of 1,000, and the plant

def small(rng):
    types = rng.choice([0, 1, 2, 3, 8])
    return types, [(s, loose(rng, s, rng.choice([0, 1, 2, 4, 8]), types)) for s in rng.choices([1, 2, 3, 4, 9], k=rng.choice([1, 1, 2, 3]))]


def many_machines(rng):
    types = rng.choice([0, 1, 5, 64])
    return types, [(s, loose(rng, s, rng.randint(0, 3), types)) for s in rng.choices([1, 1, 2, 3, 64], k=rng.randint(4, 16))]


def first_not_largest(rng):
    types = rng.choice([1, 2, 3])
    return types, [(1, [])] + [(s, falling(rng, s, rng.randint(1, 6), types)) for s in rng.choices([2, 3, 5, 24], k=rng.randint(1, 3))]


def one_state(rng):
    types = rng.choice([0, 1, 64])
    return types, [(1, loose(rng, 1, rng.randint(0, 12), types)) for _ in range(rng.choice([1, 2, 16]))]


def many_types(rng):
    return 64, [(s, different(rng.randint(0, 10), lambda i: between_any(rng, s, 64, 0.3))) for s in rng.choices([1, 2, 3, 6], k=rng.randint(1, 4))]


def rings(rng):
    types = rng.choice([0, 1, 2, 6])
    return types, [(s, ring(rng, s, s + rng.choice([0, 0, 1, 2, 5]), types)) for s in rng.choices([1, 2, 3, 7, 24, 64], k=rng.choice([1, 2, 3]))]


def passing(rng):
    types = rng.choice([2, 3, 6])
    return types, [(s, falling(rng, s, rng.choice([1, 3, 6, 12, 24]), types)) for s in rng.choices([1, 2, 3, 4, 24, 64], k=rng.choice([1, 2, 3]))]


def large(rng):
    """Up to 64 states, 255 rows of a machine and 1,024 rows in all."""
    types, kind = rng.choice([6, 64]), rng.choice([loose, falling, falling, ring])
    counts = rng.choice([[255, 255, 255, 255, 4], [64] * 16, [255], [255, 9], [48] * 3])
    return types, [(s, kind(rng, s, c, types)) for s, c in zip(rng.choices([64, 64, 24, 33], k=len(counts)), counts)]


def exchange(rng):
    """Machines with one quiet ring each, or two that share a state, which take some types and send others."""
    types, machines = rng.choice([2, 3, 4]), []
    for _ in range(rng.randint(2, 5)):
        states, loop = rng.choice([2, 3, 4, 5]), rng.random() < 0.2

        def draw(left):
            if left < states:
                return (left, (left + 1) % states) + message(rng, types) + (rng.random() < 0.04,)
            return (0, 0, None, rng.randrange(types), False) if loop else (states - 1, 0) + message(rng, types) + (False,)

        machines.append((states, different(states + 1, draw)))
    return types, machines


def quiet_ring(states, sent=None):
    """A ring through so many states; its first row sends a type or nothing."""
    return states, [(s, (s + 1) % states, sent if s == 0 else None, None, False) for s in range(states)]


def detours():
    """Plants whose shortest failing cycle is not the first, the last or the lightest; types 0 and 1 weigh 1 and 2, and no other row is sent or taken."""
    passing, loop = (2, [(0, 1, 0, None, False), (1, 0, None, 1, False)]), (1, [(0, 0, None, None, False)])
    yield [quiet_ring(3), quiet_ring(2, 1)]
    yield [quiet_ring(2, 1), quiet_ring(3)]
    yield [quiet_ring(64), loop]
    yield [loop, quiet_ring(64)]
    yield [quiet_ring(64), quiet_ring(63), quiet_ring(64)]
    yield [quiet_ring(5), quiet_ring(5, 0), quiet_ring(5)]
    yield [passing, quiet_ring(4), passing, quiet_ring(3), passing]
    yield [passing, quiet_ring(64), passing]
    # Rows that take and send: one type, which weighs nothing, and two types there and back.
    yield [quiet_ring(2), passing, (1, [(0, 0, 1, 1, False)])]
    yield [quiet_ring(3), (2, [(0, 1, 0, 1, False), (1, 0, 1, 0, False)])]
    yield [quiet_ring(64)] * 16
    # From state 0 the cycle found has three rows and weighs 0; one of two rows, which weighs 2, goes from state 1.
    yield [(3, [(0, 1, None, None, False), (1, 2, None, None, False), (2, 0, None, None, False), (2, 1, 1, None, False)])]
    # A row cuts the first ring short, to 41 rows; there is no cycle in the second machine, and one of 42 rows in the third.
    yield [(64, quiet_ring(64)[1] + [(40, 0, 0, None, False)]), (2, []), quiet_ring(42)]


def short_cuts(rng):
    """Machines with a ring of many states and rows that cut it short, most of it quiet: failing cycles of many lengths and weights."""
    types, machines = rng.choice([1, 2, 3]), []
    for _ in range(rng.randint(1, 5)):
        states = rng.choice([1, 2, 3, 5, 8, 13, 64])

        def draw(i):
            return (i, (i + 1) % states) + message(rng, types) + (rng.random() < 0.04,) if i < states else between_any(rng, states, types, 0.3)

        rows = different(states + rng.randint(0, 4), draw)
        rng.shuffle(rows)
        machines.append((states, rows))
    return types, machines


SHAPES = [(small, 300), (short_cuts, 60), (exchange, 50), (many_machines, 90), (first_not_largest, 100), (one_state, 70), (many_types, 80), (rings, 90), (passing, 140), (large, 20)]


def weights_for(rng, types):
    """Weights of several sizes; those of `falling` most often, at times too large or too many."""
    kind = rng.random()
    if kind < 0.5:
        weights = [min(1000, t + 1) for t in range(types)]
    elif kind < 0.7:
        weights = [(t + 1) * rng.choice([1, 10, 15]) for t in range(types)]
    else:
        largest = rng.choice([0, 1, 3, 1000])
        weights = [rng.randint(0, largest) for _ in range(types)]
    if weights and rng.random() < 0.02:
        weights[rng.randrange(types)] = rng.choice([1000, 1001, 65535])
    if rng.random() < 0.02:
        weights = weights[1:] if rng.random() < 0.5 else weights + [0]
    return weights


def contents_for(rng, types):
    contents = [rng.choice([0, 0, 1, 2, rng.randrange(1000), 1000000]) for _ in range(types)]
    if contents and rng.random() < 0.02:
        contents[rng.randrange(types)] = rng.choice([1000001, 4294967295])
    return contents + [0] if rng.random() < 0.02 else contents
