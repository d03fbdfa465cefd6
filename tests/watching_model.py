"""A second implementation of the watcher, from the documents ("Runs", "Quoting", requests L6 and L7); watching.py compares the calls with it.

It reads with the second reader of reading.py and opens with the checks of quoting.py, keeps states and contents in lists, counts quiet rows,
progress rows and doublings, and works out F + n * W + G * g + n * w * d less the quiet rows anew at each event.
"""
import struct
import sys
from collections import Counter

import quoting
import reading
import weighing

MOST = 10 ** 6                      # progress rows, and doublings, of a watcher
ROW, LOSS, DOUBLING = range(3)
TOLD = [struct.Struct('<BBHQQ' + 'HQ' * count) for count in range(6)]    # kind, number, how many words changed, place, left; then these words
STATES, CONTENTS, COUNTS, WORDS = 2053, 2055, 2119, 2122                 # words of the struct, eight bytes each
MET = Counter()                     # how often an event of each kind, or an opening, got each number; 0 where it was accepted


class Watcher:
    """A watcher that keeps what the documents speak of; the words of the struct are made of it."""

    def __init__(self, data, weights, contents):
        kind, *said = quoting.owed(data, weights, contents, 0, 0).split()
        self.fault = (int(said[0]), int(said[1])) if kind == 'refused' else None
        MET['opening', self.fault[0] if self.fault else 0] += 1
        self.data, self.quiet, self.g, self.d = data, 0, 0, 0
        self.types, states, self.rows = (0, [], []) if self.fault else reading.read_plant(data)
        self.base, self.n, self.per_progress, self.per_doubling = (0, 0, 0, 0) if self.fault else weighing.figures((self.types, states, self.rows), weights)
        self.weights, self.states, self.contents = weights, [0] * 16, [0] * 64
        self.contents[:self.types] = contents[:self.types]
        self.opening_weight = sum(w * x for w, x in zip(weights[:self.types], contents))
        self.leaving = {}
        for k, (machine, left, *_) in enumerate(self.rows):
            self.leaving.setdefault((machine, left), []).append(k)
        self.words = [0, 0, *self.contents, self.left(), 0, 0]

    def left(self):
        return self.base + self.n * self.opening_weight + self.per_progress * self.g + self.per_doubling * self.d - self.quiet

    def opened(self):
        """The answer to opening, and the whole struct."""
        if self.fault:
            return TOLD[0].pack(0, self.fault[0], 0, self.fault[1], 0) + bytes(8 * WORDS)
        table = b''.join(bytes([*row[:3], *(64 if t is None else t for t in row[3:5]), row[5], 0, 0]) for row in self.rows)
        sizes = struct.pack('<5Q', len(self.data), len(self.rows), self.types, self.per_progress, self.per_doubling)
        return TOLD[0].pack(9, 0, 0, 0, self.left()) + self.data.ljust(8192, b'\0') + table.ljust(8192, b'\0') + sizes + struct.pack('<69Q', *self.words)

    def refusal(self, kind, number):
        """The number of the refusal of an event, or 0."""
        if kind != ROW:
            if number >= self.types or not self.contents[number]:
                return 28
            return 29 if kind == DOUBLING and self.d >= MOST else 0
        if number >= len(self.rows):
            return 27
        machine, left, _, _, taken, progress = self.rows[number]
        if self.states[machine] != left or taken is not None and not self.contents[taken]:
            return 27
        return 29 if progress and self.g >= MOST else 0

    def take(self, kind, number):
        """What the C program tells of an event: the answer, and the words that it changed."""
        refused = self.refusal(kind, number)
        MET[kind, refused] += 1
        if refused:
            return TOLD[0].pack(0, refused, 0, 0, 0)
        touched = [number]
        if kind == ROW:
            machine, _, entered, sent, taken, progress = self.rows[number]
            self.states[machine] = entered
            for t, by in ((taken, -1), (sent, 1)):
                if t is not None:
                    self.contents[t] += by
            self.g, self.quiet = self.g + progress, self.quiet + (not progress)
            half = machine // 8
            new = [(half, int.from_bytes(bytes(self.states[8 * half:8 * half + 8]), 'little'))]
            touched = sorted({sent, taken} - {None})
        else:
            self.contents[number] += {LOSS: -1, DOUBLING: 1}[kind]
            self.d, new = self.d + (kind == DOUBLING), []
        left, counts = self.left(), COUNTS - STATES
        if left < 0:
            sys.exit('watching_model.py: more quiet rows than the ceiling: plant %s, weights %s' % (self.data.hex(' '), self.weights))
        new += [(2 + t, self.contents[t]) for t in touched] + [(counts, left), (counts + 1, self.g), (counts + 2, self.d)]
        words, changed = self.words, []
        for i, x in new:
            if words[i] != x:
                words[i] = x
                changed += (STATES + i, x)
        return TOLD[len(changed) // 2].pack(9, 0, len(changed) // 2, 0, left, *changed)

    def quoted(self):
        """What `quote` answers for the opening contents and the progress rows and doublings so far."""
        ceiling = self.left() + self.quiet
        return TOLD[0].pack(4, 0, ceiling.bit_length(), 0, ceiling)
