"""Compare `read` and `decode` with a second reader, on whole, damaged and random files.

The reader below was written from the scope document's section "The plant file", its table of faults and requests L4 and L5, in another
style than the definitions: it reads a file with an iterator and raises the first fault; a row is compared with each earlier
row of its machine. The C program reads files from its standard input and prints what the two functions answer.
`tests/compiled.py` runs it.
"""
import itertools
import random
import struct
import subprocess
import sys

FILES = 30000
TRIES = 12
LONGEST_FILE = 2 + 2 * 16 + 5 * 1024


# ---- the second reader

class Fault(Exception):
    pass


class Bytes:
    def __init__(self, data):
        self.data, self.at = data, 0

    def next(self, accepts, number):
        if self.at == len(self.data):
            raise Fault(1, len(self.data))
        b = self.data[self.at]
        if not accepts(b):
            raise Fault(number, self.at)
        self.at += 1
        return b


def read_row(source, states, types, previous):
    bits = source.next(lambda b: b >> 5 == 0, 4)
    left = source.next(lambda b: b < states, 5) if bits & 1 else previous
    entered = source.next(lambda b: b < states, 5) if bits & 2 else left
    sent = source.next(lambda b: b < types, 6) if bits & 4 else None
    taken = source.next(lambda b: b < types, 6) if bits & 8 else None
    return left, entered, sent, taken, bool(bits & 16)


def read_plant(data):
    source = Bytes(data)
    machines = source.next(lambda b: 1 <= b <= 16, 2)
    types = source.next(lambda b: b <= 64, 2)
    states, rows = [], []
    for m in range(machines):
        states.append(source.next(lambda b: 1 <= b <= 64, 3))
        count = source.next(lambda b: len(rows) + b <= 1024, 7)
        previous, mine = 0, []
        for _ in range(count):
            begins = source.at
            row = read_row(source, states[-1], types, previous)
            if row in mine:
                raise Fault(26, begins)
            mine.append(row)
            previous = row[0]
        rows += [(m,) + row for row in mine]
    if source.at < len(data):
        raise Fault(8, source.at)
    return types, states, rows


def expected(data):
    """The line that the C program owes for a file: the answer of `read`, then a checksum of what `decode` holds."""
    try:
        types, states, rows = read_plant(data)
    except Fault as fault:
        return 'refused %d %d' % fault.args
    first = [sum(1 for r in rows if r[0] < m) for m in range(len(states) + 1)]
    numbers = states + first
    for m, left, entered, sent, taken, progress in rows:
        numbers += [m, left, entered, 64 if sent is None else sent, 64 if taken is None else taken, int(progress)]
    total = 0
    for x in numbers:
        total = (total * 131 + x + 1) % 4294967291
    return 'counts %d %d %d %d' % (len(states), types, len(rows), total)


# ---- files

def write_row(rng, states, types, previous):
    """A row and its bytes."""
    bits = rng.choice([0, 16]) | rng.choice([0, 0, 1, 2, 3, 3])
    if types:
        bits |= rng.choice([0, 4, 8, 12])
    left = rng.randrange(states) if bits & 1 else previous
    entered = rng.randrange(states) if bits & 2 else left
    sent = rng.randrange(types) if bits & 4 else None
    taken = rng.randrange(types) if bits & 8 else None
    return (left, entered, sent, taken, bits > 15), [bits] + [field for bit, field in ((1, left), (2, entered), (4, sent), (8, taken)) if bits & bit]


def write_rows(rng, states, types, count):
    """The bytes of up to so many rows: one that reads as an earlier one is drawn again, and after some tries there are no more."""
    found, previous, again = {}, 0, 0
    while len(found) < count and again < TRIES:
        row, data = write_row(rng, states, types, previous)
        again = again + 1 if row in found else 0
        if not again:
            found[row], previous = data, row[0]
    return list(found.values())


def whole_file(rng, largest):
    machines, types = rng.randint(1, 16), rng.choice([0, 1, 2, 5, 64])
    data, room = [machines, types], 1024
    for _ in range(machines):
        states = rng.choice([1, 2, 3, 64])
        rows = write_rows(rng, states, types, min(room, rng.randint(0, largest)))
        room -= len(rows)
        data += [states, len(rows)] + [b for row in rows for b in row]
    return bytes(data)


def row_forms(row, previous):
    """All bytes that a row can have behind one that leaves the previous state: an implied state may be written or not."""
    left, entered, sent, taken, progress = row
    message = [(4, sent)] * (sent is not None) + [(8, taken)] * (taken is not None)
    for first in [(), ((1, left),)] if left == previous else [((1, left),)]:
        for second in [(), ((2, entered),)] if entered == left else [((2, entered),)]:
            pairs = [*first, *second, *message]
            yield [16 * progress + sum(bit for bit, _ in pairs)] + [field for _, field in pairs]


def put_twin(rng, machines, row):
    """Puts a copy of a row at a later place of its machine, also in place of the last row where there is no room; where no machine has a row, this
    row twice."""
    chosen = rng.choice([rows for rows in machines if rows] or machines)
    del chosen[254 if sum(map(len, machines)) < 1024 else max(1, len(chosen) - 1):]
    chosen += [row] * (not chosen)
    i = rng.choice([0, len(chosen) - 1, rng.randrange(len(chosen))])
    chosen.insert(rng.choice([i + 1, len(chosen), rng.randint(i + 1, len(chosen))]), chosen[i])


def with_twin(rng, data):
    """A file that reads as a plant, with a row twice in one of its machines."""
    types, states, rows = read_plant(data)
    machines = [[row[1:] for row in rows if row[0] == m] for m in range(len(states))]
    put_twin(rng, machines, (0, 0, None, None, False))
    return file_of(rng, types, states, machines)


def file_of(rng, types, states, machines):
    """A file of these rows, each in one of its forms."""
    data = [len(states), types]
    for count, rows in zip(states, machines):
        data += [count, len(rows)]
        for previous, row in zip([0] + [row[0] for row in rows], rows):
            data += rng.choice(list(row_forms(row, previous)))
    return bytes(data)


def damaged(rng, data):
    """The data with up to three bytes changed, put in or taken out, or cut off. 44, 76 and 140 are bits 2 and 3 with one of the bits 5 to 7."""
    data = bytearray(data)
    for _ in range(rng.randint(1, 3)):
        kind = rng.randrange(4)
        if kind == 0 and data:
            data[rng.randrange(len(data))] = rng.choice([0, 1, 2, 12, 16, 17, 31, 32, 44, 63, 64, 65, 76, 140, 255, rng.randrange(256)])
        elif kind == 1:
            data = data[:rng.randint(0, len(data))]
        elif kind == 2:
            data.insert(rng.randint(0, len(data)), rng.randrange(256))
        elif data:
            del data[rng.randrange(len(data))]
    return bytes(data)


def shapes():
    """One machine with rows of each map byte, each with as many bytes as its bits ask for: 255 equal ones, and up to 255 different ones."""
    for bits in range(256):
        count = sum(1 for v in (1, 2, 4, 8) if bits & v)
        yield bytes([1, 2, 2, 255] + ([bits] + [1] * count) * 255)
        rows = list(itertools.islice(itertools.product([bits], *[range(64)] * count), 255))
        yield bytes([1, 64, 64, len(rows)] + [b for row in rows for b in row])


def counted(*counts):
    """Machines with so many rows, all of them different."""
    rows = [(19 if k % 3 else 3, k // 64, k % 64) for k in range(255)]
    return bytes([len(counts), 0] + [b for count in counts for b in [64, count] + [b for row in rows[:count] for b in row]])


def twins_at_ends():
    """Of a machine with 255 rows an early or a late one again, as its last row or as the next; the same in the last of 16 machines."""
    whole = counted(255)
    rows = [whole[k:k + 3] for k in range(4, len(whole), 3)]
    for k in (0, 1, 252, 253):
        for data in (rows[:254] + [rows[k]], rows[:k + 1] + [rows[k]] + rows[k + 2:]):
            yield whole[:4] + b''.join(data)
            yield bytes([16, 0] + [64, 0] * 15) + whole[2:4] + b''.join(data)


def row_pairs():
    """All files of a machine with two rows, two states and one type, and those with one row more between the two, which leaves another state than
    the first."""
    messages = [(None, None), (0, None), (None, 0), (0, 0)]
    rows = [(left, entered) + message + (progress,) for left in (0, 1) for entered in (0, 1) for message in messages for progress in (False, True)]
    for first, second in itertools.product(rows, repeat=2):
        for data in row_forms(first, 0):
            for more in row_forms(second, first[0]):
                yield bytes([1, 1, 2, 2] + data + more)
            for more in row_forms(second, 1 - first[0]):
                yield bytes([1, 1, 2, 3] + data + [3, 1 - first[0], first[0]] + more)


def longest_file():
    """16 machines of 64 states, 64 types and 1,024 rows, each with all its fields."""
    return bytes([16, 64] + [b for m in range(16) for b in [64, 64] + [b for k in range(64) for b in (31, 63 - k, 63, 63, (k + m) % 64)]])


def edges():
    yield from (b'', b'\x00', b'\x01', b'\x11\x00', bytes([1, 65]), bytes([1, 0, 65, 0]), bytes([1, 0, 64, 0]), bytes([16, 64] + [64, 0] * 16))
    yield longest_file()
    yield longest_file() + b'\x00'
    yield longest_file()[:-1]
    yield counted(255, 255, 255, 255, 4)
    yield counted(255, 255, 255, 255, 5)
    yield bytes([5, 0] + ([1, 255] + [0] * 255) * 4 + [1, 4] + [0] * 4)
    yield from twins_at_ends()
    yield bytes(65536)
    yield bytes([1, 0, 1, 0]) + bytes(65532)
    yield b'\xff' * 65536


def files(rng):
    yield from edges()
    yield from shapes()
    yield from row_pairs()
    for _ in range(FILES):
        kind = rng.randrange(10)
        if kind == 0:
            yield bytes(rng.choice([0, 1, 2, 3, 16, rng.randrange(256)]) for _ in range(rng.randint(0, 40)))
        elif kind < 3:
            yield whole_file(rng, rng.choice([2, 8, 80, 255]))
        elif kind == 3:
            data = with_twin(rng, whole_file(rng, rng.choice([2, 8, 80, 255])))
            yield data if rng.random() < 0.5 else damaged(rng, data)
        else:
            yield damaged(rng, whole_file(rng, rng.choice([2, 8, 40])))


# ---- the compiled reader

PROBE = '''
#[repr(C)]
pub struct Held {
    pub states: [u8; 16],
    pub first: [u16; 17],
    pub table: [u8; 8192],
}

#[unsafe(no_mangle)]
pub extern "C" fn probe_table(file: &[u8]) -> Held {
    let mut table = [0; 8192];
    let mut states = [0; 16];
    let mut first = [0; 17];
    if let Ok(shape) = decoding::decode(file, &mut table) {
        states = shape.states;
        first = shape.first;
    }
    Held { states, first, table }
}
'''

DRIVER = '''#include <stdio.h>
#include <stdlib.h>
#include "hemtaluq.h"
typedef struct { uint8_t states[16]; uint16_t first[17]; uint8_t table[8192]; } Held;
Held probe_table(const uint8_t *file, size_t length);
static uint64_t total;
static void add(unsigned x) { total = (total * 131 + x + 1) % 4294967291u; }
int main(void) {
    uint8_t head[4];
    while (fread(head, 1, 4, stdin) == 4) {
        size_t n = head[0] | head[1] << 8 | head[2] << 16;
        uint8_t *file = malloc(n ? n : 1);
        if (fread(file, 1, n, stdin) != n) return 1;
        hemtaluq_read_answer c = hemtaluq_read(file, n);
        if (c.kind == HEMTALUQ_REFUSED) {
            printf("refused %d %zu\\n", c.number, c.place);
        } else {
            Held t = probe_table(file, n);
            total = 0;
            for (size_t m = 0; m < c.machines; m++) add(t.states[m]);
            for (size_t m = 0; m <= c.machines; m++) add(t.first[m]);
            for (size_t k = 0; k < c.rows; k++) {
                for (size_t i = 0; i < 6; i++) add(t.table[8 * k + i]);
            }
            printf("counts %zu %d %zu %llu\\n", c.machines, c.types, c.rows, (unsigned long long)total);
        }
        free(file);
    }
    return 0;
}
'''


def compare(driver, seed):
    cases = list(files(random.Random(seed)))
    given = b''.join(struct.pack('<I', len(c)) + c for c in cases)
    printed = subprocess.run([driver], input=given, capture_output=True, check=True).stdout.decode().split('\n')[:-1]
    owed = [expected(c) for c in cases]
    if len(printed) != len(owed):
        sys.exit('reading.py: %d answers to %d files' % (len(printed), len(owed)))
    for case, line, other in zip(cases, printed, owed):
        if line != other:
            sys.exit('reading.py: %s: %s, but the second reader says %s' % (case[:60].hex(' '), line, other))
    met = sorted({int(line.split()[1]) for line in owed if line.startswith('refused')})
    if met != [*range(1, 9), 26]:
        sys.exit('reading.py: only the faults %s were met' % met)
    print('reading.py: seed %d: %d files, of which %d read and %d are refused with 26; every number from 1 to 8 was met'
          % (seed, len(cases), sum(line.startswith('counts') for line in owed), sum(line.startswith('refused 26 ') for line in owed)))
    return len(cases)
