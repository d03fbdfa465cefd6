"""Part E: the program `ceiling` as a process, its line held against the independent implementation of evidence_independent.py.

Each case is a folder with plant.bin and weights.bin, whole, damaged, of odd length, empty or missing; in place of a file
there may also be a link to nothing or a folder, which cannot be read and counts as empty. Where standard output is full or
closed, a line on standard error says that nothing was written; the exit code is 0 then too, for the program has no other.
The stored runs of the gate are held so too, and a stored cycle must be the only shortest one of its plant, of one row: a cycle may begin at
any of its rows, so that no other line is right.
"""
import os
import random
import subprocess
import sys
import tempfile

import building
import evidence_independent
import evidence_plants as plants
import reading
import weighing

CASES = 600
INDEPENDENT = evidence_independent.Independent()
NOT_WRITTEN = b'ceiling: the line could not be written to standard output\n'
# Errors planted in the program's line: what is wrong, the line's first word, and the other words changed.
LINE_ERRORS = [
    ('n and G are exchanged', 'passed', lambda f, n, g, d: [f, g, n, d]),
    ('F is one too low', 'passed', lambda f, n, g, d: [str(int(f) - 1), n, g, d]),
    ('n * w is left out', 'passed', lambda f, n, g, d: [f, n, g]),
    ('n * w comes twice', 'passed', lambda f, n, g, d: [f, n, g, d, d]),
    ('G and n * w are exchanged', 'passed', lambda f, n, g, d: [f, n, d, g]),
    ('n * w comes first', 'passed', lambda f, n, g, d: [d, f, n, g]),
    ('w stands for n * w', 'passed', lambda f, n, g, d: [f, n, g, str(int(d) // int(n))]),
    ('n * w is left out where it is 0', 'passed', lambda f, n, g, d: [f, n, g] + [d] * (d != '0')),
    ('a place is one too far', 'refused', lambda number, place: [number, str(int(place) + 1)]),
    ('the last row of a cycle is left out', 'cycle', lambda *rows: rows[:-1]),
    ('a number has a zero before it', 'cycle', lambda first, *rows: ['0' + first, *rows]),
]


def weights_bytes(weights):
    return b''.join(bytes([w % 256, w // 256]) for w in weights)


def fixed_cases():
    """The examples of the scope document, and files at their edges."""
    for weights in ([2, 1], [1, 0], [1, 1], [1, 2], [1000, 1], [1001, 1], [1, 65535], [2], [2, 1, 0], [], [256, 1], [1, 256]):
        yield plants.PLANT_A, weights_bytes(weights)
        yield plants.PLANT_B, weights_bytes(weights)
    for weights in (None, b'', b'\x02', b'\x02\x00\x01', b'\x02\x00\x01\x00\x00', b'\x02\x00\x01\x04'):
        for plant in (None, b'', plants.PLANT_A, plants.PLANT_A + b'\x00', bytes([1, 0, 1, 0]), bytes([1, 0, 1, 1, 0]), bytes([1, 0, 1, 1, 16])):
            yield plant, weights
    for data in reading.edges():
        yield data, bytes(2 * 64)
        yield data, bytes(2 * 64 + 1)
        yield data, b''
    for machines in plants.detours():
        yield plants.plant_file(random.Random(0), 2, machines), weights_bytes([1, 2])
    for length in (126, 127, 128, 129, 130, 131, 4095, 4096, 4097, 70000):
        yield bytes([1, 64, 1, 0]), b'\x01\x00' * (length // 2) + b'\x01' * (length % 2)


def drawn_cases(rng, count):
    makers = [plants.small, plants.short_cuts, plants.passing, plants.rings, plants.exchange, plants.first_not_largest, plants.many_types, plants.large]
    for _ in range(count):
        types, machines = rng.choice(makers)(rng)
        data = plants.plant_file(rng, types, machines)
        weights = weights_bytes(plants.weights_for(rng, types))
        if rng.random() < 0.2:
            data = weighing.spoilt(rng, data)
        if rng.random() < 0.1:
            weights = reading.damaged(rng, weights)
        yield data if rng.random() < 0.96 else None, weights if rng.random() < 0.96 else None


def put(folder, name, data, odd):
    """Write a file; a missing one is at times a link to nothing, or a folder."""
    path = os.path.join(folder, name)
    if data is not None:
        with open(path, 'wb') as out:
            out.write(data)
    elif odd == 1:
        os.symlink('nowhere', path)
    elif odd == 2:
        os.mkdir(path)


def line_of(plant, weights, odd):
    with tempfile.TemporaryDirectory() as folder:
        put(folder, 'plant.bin', plant, odd)
        put(folder, 'weights.bin', weights, odd)
        done = subprocess.run([building.ceiling()], cwd=folder, capture_output=True, timeout=60)
    if done.returncode != 0 or done.stderr:
        sys.exit('evidence: program: exit code %d, %s' % (done.returncode, done.stderr[-300:]))
    return done.stdout.decode('ascii')


def hold_not_written():
    for output in ('> /dev/full', '>&-'):
        done = subprocess.run(['sh', '-c', 'exec "$0" ' + output, building.ceiling()], cwd=os.path.join(building.ROOT, 'examples', 'plant_a'),
                              capture_output=True, timeout=60)
        if (done.returncode, done.stdout, done.stderr) != (0, b'', NOT_WRITTEN):
            sys.exit('evidence: program: ceiling %s: exit code %d, %r, %r' % (output, done.returncode, done.stdout, done.stderr))


def stored(crate, *names):
    """A file of a stored run, or None."""
    path = os.path.join(building.ROOT, 'crates', crate, *names)
    if not os.path.exists(path):
        return None
    with open(path, 'rb') as source:
        return source.read()


def hold_stored():
    """The stored runs: each line is a right one, and the only one."""
    shown = 0
    for crate in sorted(os.listdir(os.path.join(building.ROOT, 'crates'))):
        line = stored(crate, 'stdout') if crate.startswith('ceiling') else None
        if line is None:
            continue
        plant, weights = stored(crate, 'data', 'plant.bin'), stored(crate, 'data', 'weights.bin')
        owed = INDEPENDENT.judge_line(plant, weights, line.decode('ascii'))
        if owed:
            sys.exit('evidence: program: the stored run of %s has %r, but owed is %s' % (crate, line, owed))
        if line.startswith(b'cycle'):
            read, numbers = INDEPENDENT.plant(plant), INDEPENDENT.weights_of(weights)
            if INDEPENDENT.fewest(read, numbers) != 1 or sum(INDEPENDENT.shows(read, numbers, [k]) for k in range(len(read.rows))) != 1:
                sys.exit('evidence: program: the stored run of %s shows a cycle where several qualify' % crate)
            shown += 1
    if not shown:
        sys.exit('evidence: program: no stored run shows a cycle')


def changed_line(line, first, change):
    words = line.split()
    return ' '.join([first, *change(*words[1:])]) + '\n' if words[0] == first else line


def catches(pairs):
    """How many planted errors are found: in the independent implementation, and in the program's line."""
    for name, other in evidence_independent.PROGRAM_ERRORS:
        if not any(other.judge_line(*pair) for pair in pairs):
            sys.exit('evidence: program: the planted error "%s" is not found' % name)
    for name, first, change in LINE_ERRORS:
        if not any(INDEPENDENT.judge_line(plant, weights, changed_line(line, first, change)) for plant, weights, line in pairs):
            sys.exit('evidence: program: the error "%s", planted in the product, is not found' % name)
    return len(evidence_independent.PROGRAM_ERRORS), len(LINE_ERRORS)


def main(seed, long):
    hold_not_written()
    hold_stored()
    cases = list(fixed_cases()) + list(drawn_cases(random.Random(seed + 4), CASES * (5 if long else 1)))
    pairs = [(plant, weights, line_of(plant, weights, i % 3)) for i, (plant, weights) in enumerate(cases)]
    kinds = {}
    for plant, weights, line in pairs:
        owed = INDEPENDENT.judge_line(plant, weights, line)
        if owed:
            sys.exit('evidence: program: plant %s, weights %s: %r, but owed is %s'
                     % (plant and plant.hex(), weights and weights.hex(), line[:300], owed))
        kinds[line.split()[0]] = kinds.get(line.split()[0], 0) + 1
    twins = sum(line.startswith('refused 26 ') for _, _, line in pairs)
    if pairs[0][2] != 'passed 10 2 9 4\n' or len(kinds) != 3 or min(twins, *kinds.values()) < 30:
        sys.exit('evidence: program: %r for plant A; %s, %d of them with 26' % (pairs[0][2], kinds, twins))
    found, in_product = catches(pairs)
    missing = sum(plant is None or weights is None for plant, weights in cases)
    print('evidence: program: %d runs of ceiling (%d pass, %d show a cycle, %d are refused, %d with 26; a file is missing in %d); '
          '%d errors planted in the independent implementation are found, and %d in the program\'s line'
          % (len(pairs), kinds['passed'], kinds['cycle'], kinds['refused'], twins, missing, found, in_product))
    return dict(program_runs=len(pairs), program_missing=missing, planted_in_implementations=found, planted_in_the_product=in_product), []
