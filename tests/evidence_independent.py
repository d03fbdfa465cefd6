"""An independent implementation of the documents: reading, weighing, quoting, listing, confirming, writing, and the line of `ceiling`.

It was written from the documents, not from the definitions or the code, and goes through all cycles wherever that is
feasible: weights are judged on every quiet simple cycle, the fewest rows of one are counted there, listings are made by
enumeration and sorting. Where a machine has too many cycles for that, weights are judged by the greatest mean weight of a
quiet cycle, and the fewest rows by walks of exact lengths (weighing.py).

Each decision that a reader of the documents could get wrong is a method of its own. PLANTED has copies with one error
each; the comparisons in evidence_answers.py and evidence_program.py must find every one of them.
"""
from collections import namedtuple

import weighing

Row = namedtuple('Row', 'machine left entered sent taken progress')
Plant = namedtuple('Plant', 'types states rows')
STEPS = 4000
ROW_NUMBERS = 6    # of a row in a list


def takes_and_sends(plant):
    """Whether a row of the plant does both."""
    return any(r.sent is not None and r.taken is not None for r in plant.rows)


class Refused(Exception):
    def __str__(self):
        return 'refused %d %d' % self.args


class TooMany(Exception):
    """A machine has more cycles than this implementation goes through."""


class Independent:
    most_rows = 1024
    judged = None
    by_mean = 0

    # ---- reading

    def map_fits(self, b):
        return b < 32

    def type_bits(self):
        """The bits of the type sent and of the type taken, in the order of their fields."""
        return 4, 8

    def moved(self, sent, taken):
        """What a row with these fields sends and takes."""
        return sent, taken

    def state_fits(self, b, states):
        return b < states

    def next_left(self, row):
        """The state that a row without its bit 0 leaves, after this row of the same machine."""
        return row.left

    def compared(self, row):
        """What of a row is compared with the earlier rows of its machine."""
        return row[1:]

    def known_before(self, known):
        """Of the rows read so far, those that a machine's first row is compared with."""
        return {}

    def with_row(self, known, key, place):
        """The rows that the next row of the machine is compared with, and where they begin."""
        known[key] = place
        return known

    def twin_place(self, first, begins, ends):
        """The place of a row that equals an earlier one, which begins at the first place."""
        return begins

    def known_with(self, known, row, begins, ends):
        """The known rows and this one, which must not be among them."""
        key = self.compared(row)
        if key in known:
            raise Refused(26, self.twin_place(known[key], begins, ends))
        return self.with_row(known, key, begins)

    def plant(self, data):
        at = 0

        def byte(number, fits):
            nonlocal at
            if at == len(data):
                raise Refused(1, at)
            b = data[at]
            if not fits(b):
                raise Refused(number, at)
            at += 1
            return b

        machines = byte(2, lambda b: 1 <= b <= 16)
        types = byte(2, lambda b: b <= 64)
        states, rows, known = [], [], {}
        for m in range(machines):
            states.append(byte(3, lambda b: 1 <= b <= 64))
            count = byte(7, lambda b: len(rows) + b <= self.most_rows)
            left, known = 0, self.known_before(known)
            for _ in range(count):
                begins = at
                rows.append(self.row(byte, m, states[m], types, left))
                known = self.known_with(known, rows[-1], begins, at)
                left = self.next_left(rows[-1])
        if at < len(data):
            raise Refused(8, at)
        return Plant(types, states, rows)

    def row(self, byte, machine, states, types, left):
        bits = byte(4, self.map_fits)
        if bits & 1:
            left = byte(5, lambda b: self.state_fits(b, states))
        entered = byte(5, lambda b: self.state_fits(b, states)) if bits & 2 else left
        fields = {bit: byte(6, lambda b: b < types) for bit in self.type_bits() if bits & bit}
        return Row(machine, left, entered, *self.moved(fields.get(4), fields.get(8)), bits & 16 != 0)

    def read(self, plant):
        return 'counts %d %d %d' % (len(plant.states), plant.types, len(plant.rows))

    # ---- cycles

    def is_quiet(self, rows):
        return not any(r.progress for r in rows)

    def starts(self, states):
        """The lowest states that cycles are looked for from."""
        return range(states)

    def candidates(self, plant, numbers):
        return numbers

    def cycles(self, plant, machine, quiet_only=False):
        """All simple cycles of a machine as tuples of row numbers, each from its lowest state, in ascending order."""
        mine = [k for k, r in enumerate(plant.rows) if r.machine == machine and not (quiet_only and r.progress)]
        onward = {}
        for k in self.candidates(plant, mine):
            onward.setdefault(plant.rows[k].left, []).append((k, plant.rows[k].entered))
        found, steps = [], 0
        for start in self.starts(plant.states[machine]):
            paths = [((), (), start)]
            while paths:
                path, left, at = paths.pop()
                for k, entered in onward.get(at, ()):
                    if entered == start:
                        found.append(path + (k,))
                    elif entered > start and entered not in left:
                        paths.append((path + (k,), left + (entered,), entered))
                steps += 1
                if steps > STEPS:
                    raise TooMany()
        return self.ordered(found)

    def ordered(self, cycles):
        return sorted(cycles)

    def quiet_cycles(self, plant, machine):
        try:
            every = self.cycles(plant, machine)
        except TooMany:
            every = self.cycles(plant, machine, quiet_only=True)
        return [c for c in every if self.is_quiet([plant.rows[k] for k in c])]

    def effect(self, plant, cycle):
        effect = [0] * plant.types
        for k in cycle:
            if plant.rows[k].sent is not None:
                effect[plant.rows[k].sent] += 1
            if plant.rows[k].taken is not None:
                effect[plant.rows[k].taken] -= 1
        return effect

    # ---- weighing

    def good(self, weight):
        return weight < 0

    def machine_passes(self, plant, machine, weights):
        try:
            cycles = self.quiet_cycles(plant, machine)
        except TooMany:
            self.by_mean += 1
            mean = weighing.greatest_mean(plant.states[machine], weighing.quiet_edges(plant, machine, weights))
            return mean is None or self.good(mean)
        return all(self.good(self.weight(plant, weights, c)) for c in cycles)

    def passes(self, plant, weights):
        """Weighing and quoting ask the same of one plant; the last answer is kept."""
        if self.judged is None or self.judged[0] is not plant or self.judged[1] != weights:
            self.judged = plant, list(weights), all(self.machine_passes(plant, m, weights) for m in range(len(plant.states)))
        return self.judged[2]

    def most_states(self, plant):
        return max(plant.states)

    def per_doubling(self, n, w):
        return n * w

    def figures(self, plant, weights):
        n, s, w = self.most_states(plant), sum(x - 1 for x in plant.states), max(weights, default=0)
        return s + n * w * s, n, n - 1 + n * n * w, self.per_doubling(n, w)

    def check_weights(self, plant, weights):
        if len(weights) != plant.types:
            raise Refused(9, 0)
        for i, w in enumerate(weights):
            if w > 1000:
                raise Refused(10, i)

    def weight(self, plant, weights, cycle):
        return sum(w * e for w, e in zip(weights, self.effect(plant, cycle)))

    def fewest_in(self, cycles):
        """The fewest rows of cycles that are given with their weights."""
        return min(len(c) for c, _ in cycles)

    def searched(self, counts):
        """Of the fewest rows of each machine that fails, those that are compared."""
        return counts

    def fewest(self, plant, weights):
        """The fewest rows of a quiet simple cycle that weighs zero or more, of all machines."""
        counts = []
        for m in range(len(plant.states)):
            try:
                failing = [(c, w) for c, w in ((c, self.weight(plant, weights, c)) for c in self.quiet_cycles(plant, m)) if not self.good(w)]
                counts += [self.fewest_in(failing)] if failing else []
            except TooMany:
                count = weighing.fewest_rows(plant.states[m], weighing.quiet_edges(plant, m, weights), self.good)
                counts += [count] if count else []
        return min(self.searched(counts))

    def shows(self, plant, weights, cycle):
        """Whether a list of rows is a quiet simple cycle that weighs zero or more, and none has fewer rows."""
        if not cycle or any(k >= len(plant.rows) for k in cycle):
            return False
        rows = [plant.rows[k] for k in cycle]
        turned = rows[1:] + rows[:1]
        return (all(r.machine == rows[0].machine and r.entered == t.left for r, t in zip(rows, turned))
                and len({r.left for r in rows}) == len(rows) and self.is_quiet(rows)
                and not self.good(self.weight(plant, weights, cycle)) and len(rows) == self.fewest(plant, weights))

    def weigh(self, plant, weights, room):
        """What is owed: figures, or None where a cycle is to be shown."""
        self.check_weights(plant, weights)
        if room < 64:
            raise Refused(11, 0)
        return 'passed %d %d %d %d' % self.figures(plant, weights) if self.passes(plant, weights) else None

    # ---- quoting

    def price_class(self, ceiling):
        return sum(2 ** k <= ceiling for k in range(43))

    def amounts(self, contents, g, d):
        """The numbers that 21 judges, with their places, in the order in which they are judged."""
        return list(enumerate([*contents, g, d]))

    def amount_fits(self, place, amount, types):
        return amount <= 1000000

    def check_amounts(self, plant, contents, g, d):
        if len(contents) != plant.types:
            raise Refused(20, 0)
        for place, x in self.amounts(contents, g, d):
            if not self.amount_fits(place, x, plant.types):
                raise Refused(21, place)

    def ceiling(self, figures, content_weight, g, d):
        f, n, per_progress, per_doubling = figures
        return f + n * content_weight + per_progress * g + per_doubling * d

    def quote(self, plant, weights, contents, g, d):
        self.check_weights(plant, weights)
        self.check_amounts(plant, contents, g, d)
        if not self.passes(plant, weights):
            raise Refused(22, 0)
        ceiling = self.ceiling(self.figures(plant, weights), sum(w * x for w, x in zip(weights, contents)), g, d)
        return 'ceiling %d %d' % (ceiling, self.price_class(ceiling))

    # ---- listing

    def entries(self, plant, machine):
        if machine >= len(plant.states):
            raise Refused(12, 0)
        if plant.states[machine] > 24 or sum(r.machine == machine for r in plant.rows) > 48:
            raise Refused(13, 0)
        return [x for c in self.cycles(plant, machine) for x in (len(c),) + c]

    def list(self, plant, machine, room):
        entries = self.entries(plant, machine)
        if room < len(entries):
            raise Refused(14, 0)
        return ' '.join(['listed'] + [str(x) for x in entries])

    # ---- cycle sets

    def is_quiet_cycle(self, plant, machine, cycle):
        rows = [plant.rows[k] for k in cycle]
        at = rows[0].left
        for r in rows:
            if r.machine != machine or r.left != at:
                return False
            at = r.entered
        return at == rows[0].left and len({r.left for r in rows}) == len(rows) and self.is_quiet(rows)

    def too_many_entries(self, count):
        return count == 256

    def confirm(self, plant, numbers):
        at, entries, sums = 0, 0, [0] * plant.types

        def number(low, high):
            nonlocal at
            if at == len(numbers):
                raise Refused(15, at)
            if not low <= numbers[at] <= high:
                raise Refused(16, at)
            at += 1
            return numbers[at - 1]

        while at < len(numbers) or not entries:
            begins = at
            if at == len(numbers) or self.too_many_entries(entries):
                raise Refused(18, at)
            machine = number(0, len(plant.states) - 1)
            repeats = number(1, 1000000)
            cycle = [number(0, len(plant.rows) - 1) for _ in range(number(1, 64))]
            if not self.is_quiet_cycle(plant, machine, cycle):
                raise Refused(17, begins)
            sums = [s + repeats * e for s, e in zip(sums, self.effect(plant, cycle))]
            entries += 1
        return self.verdict(sums)

    def verdict(self, sums):
        for t, s in enumerate(sums):
            if s < 0:
                return 'negative %d %d' % (t, s)
        return 'confirmed'

    # ---- writing

    def numbers(self, plant):
        """The list that says a plant."""
        numbers = [len(plant.states), plant.types]
        for m, states in enumerate(plant.states):
            mine = [r for r in plant.rows if r.machine == m]
            numbers += [states, len(mine)]
            for r in mine:
                kind = (r.sent is not None) + 2 * (r.taken is not None)
                numbers += [r.left, r.entered, kind, (0, r.sent, r.taken, r.taken)[kind], int(r.progress), r.sent if kind == 3 else 0]
        return numbers

    def most_of_rows(self, before):
        """The most rows of a machine, after so many rows of others."""
        return min(255, 1024 - before)

    def most_in_row(self, states, types, kind):
        """The greatest values of a row's six numbers."""
        return states - 1, states - 1, 3, types - 1 if kind else 0, 1, types - 1 if kind == 3 else 0

    def limits(self, numbers):
        """The least and the greatest value of each number of a list, as far as the numbers say how many there are, and for each machine where its
        rows begin; a missing number counts as 0."""
        def number(i):
            return numbers[i] if i < len(numbers) else 0

        limits, rows, begin = [(1, 16), (0, 64)], 0, []
        for _ in range(min(16, number(0))):
            first = len(limits) + 2
            states, count = number(first - 2), number(first - 1)
            limits += [(1, 64), (0, self.most_of_rows(rows))]
            if count > limits[-1][1]:
                break
            begin.append(range(first, first + ROW_NUMBERS * count, ROW_NUMBERS))
            for k in begin[-1]:
                limits += [(0, most) for most in self.most_in_row(states, number(1), number(k + 2))]
            rows += count
        return limits, begin

    def length_fits(self, count, needed):
        return count == needed

    def length_place(self, count, needed):
        """The index of the missing or the first extra number."""
        return min(count, needed)

    def compared_numbers(self, row):
        """What of a row's numbers is compared with the earlier rows of its machine."""
        return row

    def listed_twin_place(self, first, begins):
        """The place of a row that equals an earlier one; where the two begin."""
        return begins

    def judged_before(self, begins, wrong):
        """Whether the row that begins there is compared before the number at the wrong place is judged."""
        return begins + ROW_NUMBERS <= wrong

    def hold_different(self, numbers, begin, wrong):
        """No row that is compared before the wrong place has the numbers of an earlier one of its machine: they are looked for among all of them."""
        for machine in begin:
            rows = [self.compared_numbers(numbers[k:k + ROW_NUMBERS]) for k in machine if self.judged_before(k, wrong)]
            for i, row in enumerate(rows):
                if rows.index(row) < i:
                    raise Refused(26, self.listed_twin_place(machine[rows.index(row)], machine[i]))

    def types_said(self, kind, fourth, sixth):
        """The types that a row of this kind sends and takes."""
        return (None, fourth, None, sixth)[kind], (None, None, fourth, fourth)[kind]

    def listed(self, numbers):
        """The plant that a list says."""
        limits, begin = self.limits(numbers)
        wrong = [i for i, (x, (least, most)) in enumerate(zip(numbers, limits)) if not least <= x <= most]
        self.hold_different(numbers, begin, (wrong + [len(numbers)])[0])
        if wrong:
            raise Refused(24, wrong[0])
        if not self.length_fits(len(numbers), len(limits)):
            raise Refused(23, self.length_place(len(numbers), len(limits)))
        states, rows, at = [], [], 2
        for m in range(numbers[0]):
            states.append(numbers[at])
            end = at + 2 + ROW_NUMBERS * numbers[at + 1]
            for left, entered, kind, fourth, progress, sixth in (numbers[k:k + ROW_NUMBERS] for k in range(at + 2, end, ROW_NUMBERS)):
                rows.append(Row(m, left, entered, *self.types_said(kind, fourth, sixth), progress == 1))
            at = end
        return Plant(numbers[1], states, rows)

    def left_before(self, rows, k):
        """The state that row k leaves where its file does not say which."""
        return rows[k - 1].left if k > 0 and rows[k - 1].machine == rows[k].machine else 0

    def unwritten(self, left_before, row):
        """What the fields of a row are where they are not written."""
        return left_before, row.left, None, None

    def file(self, plant):
        """The shortest file of a plant: no field is written that is read as what it is without that."""
        data, k = [len(plant.states), plant.types], 0
        for m, states in enumerate(plant.states):
            count = sum(r.machine == m for r in plant.rows)
            data += [states, count]
            for row in plant.rows[k:k + count]:
                pairs = list(zip(row[1:5], self.unwritten(self.left_before(plant.rows, k), row)))
                data += [sum(2 ** i for i, (field, absent) in enumerate(pairs) if field != absent) + 16 * row.progress]
                data += [field for field, absent in pairs if field != absent]
                k += 1
        return bytes(data)

    def write(self, numbers, room):
        data = self.file(self.listed(numbers))
        if room < len(data):
            raise Refused(25, 0)
        return ' '.join(['wrote'] + [str(b) for b in data])

    # ---- the program

    def weights_of(self, data):
        if len(data) % 2:
            raise Refused(9, 0)
        return [data[i] + 256 * data[i + 1] for i in range(0, len(data), 2)]

    def judge_line(self, plant_file, weights_file, line):
        """None for a right line of the program, else what is owed. A file is None where it is missing."""
        try:
            plant = self.plant(plant_file or b'')
            weights = self.weights_of(weights_file or b'')
            owed = self.weigh(plant, weights, 64)
        except Refused as refused:
            owed = str(refused)
        if owed is not None:
            return None if line == owed + '\n' else owed
        words = line[:-1].split(' ')
        right = line.endswith('\n') and words[0] == 'cycle' and all(w.isdigit() and str(int(w)) == w for w in words[1:])
        return None if right and self.shows(plant, weights, [int(w) for w in words[1:]]) else 'a shortest cycle that weighs zero or more'


# ---- planted errors

def planted(name, **methods):
    return name, type('Planted', (Independent,), methods)()


def without_parallel_rows(self, plant, numbers):
    """Of the rows with the same two states only the first."""
    ends = {}
    for k in numbers:
        ends.setdefault((plant.rows[k].left, plant.rows[k].entered), k)
    return sorted(ends.values())


def only_taken(sent, taken):
    """What is sent and taken where a row that takes does not send."""
    return None if taken is not None else sent, taken


def effect_with(moved):
    """The effect of a cycle, with other types that its rows send and take."""
    def effect(self, plant, cycle):
        changed = {k: plant.rows[k]._replace(**dict(zip(('sent', 'taken'), moved(plant.rows[k].sent, plant.rows[k].taken)))) for k in cycle}
        return Independent.effect(self, plant._replace(rows=changed), cycle)
    return effect


def judged_in(*order):
    """The numbers that 21 judges in another order, each with its place: of these names `contents` stands for all of them."""
    def amounts(self, contents, g, d):
        places = {'contents': list(enumerate(contents)), 'g': [(len(contents), g)], 'd': [(len(contents) + 1, d)]}
        return [pair for name in order for pair in places[name]]
    return amounts


def with_most(index, most):
    """The greatest values of a row's numbers, with another for one of them; the kind and the count of types say which."""
    def most_in_row(self, states, types, kind):
        values = list(Independent.most_in_row(self, states, types, kind))
        values[index] = most(kind, types)
        return values
    return most_in_row


READING_ERRORS = [
    planted('a row without bit 0 leaves the state entered before', next_left=lambda self, row: row.entered),
    planted('bit 5 of a map byte is let by', map_fits=lambda self, b: b < 64),
    planted('bit 7 of a map byte is let by', map_fits=lambda self, b: b & 96 == 0),
    planted('bits 2 and 3 may not stand together', map_fits=lambda self, b: b < 32 and not (b & 4 and b & 8)),
    planted('bits 5 to 7 are let by beside bits 2 and 3', map_fits=lambda self, b: b < 32 or b & 12 == 12),
    planted('a state may be the count of states', state_fits=lambda self, b, states: b <= states),
    planted('only 1,023 rows', most_rows=1023),
]
# Of rows that equal earlier ones, in a file.
TWIN_ERRORS = [
    planted('rows that equal an earlier one are let by', compared=lambda self, row: object()),
    planted('a row is compared with the row before it only', with_row=lambda self, known, key, place: {key: place}),
    planted('a row is compared with the first row only', with_row=lambda self, known, key, place: known or {key: place}),
    planted('rows of earlier machines are compared as well', known_before=lambda self, known: known),
    *(planted('the %s is not compared' % name, compared=lambda self, row, field=field: row._replace(machine=0, **{field: None}))
      for field, name in (('left', 'state left'), ('entered', 'state entered'), ('sent', 'type sent'), ('taken', 'type taken'), ('progress', 'progress'))),
    planted('a type that is sent equals the same type taken', compared=lambda self, row: (row[1:3], frozenset((row.sent, row.taken)), row.progress)),
    planted('a row that takes and sends one type equals one that does neither', compared=lambda self, row: row[1:] if row.sent != row.taken
            else (row[1:3], None, None, row.progress)),
    planted('type 0 equals no type', compared=lambda self, row: (row[1:3], row.sent or None, row.taken or None, row.progress)),
    planted('the place is behind the row', twin_place=lambda self, first, begins, ends: ends),
    planted('the place is that of the row\'s last byte', twin_place=lambda self, first, begins, ends: ends - 1),
    planted('the place is that of the earlier row', twin_place=lambda self, first, begins, ends: first),
]
# Of what rows that take and send do.
BOTH_ERRORS = [
    planted('the type taken comes before the type sent', type_bits=lambda self: (8, 4)),
    planted('a row that takes does not send', moved=lambda self, sent, taken: only_taken(sent, taken)),
    planted('a row that sends does not take', moved=lambda self, sent, taken: only_taken(taken, sent)[::-1]),
    planted('a row that takes and sends one type takes it away', effect=effect_with(lambda sent, taken: (None if sent == taken else sent, taken))),
    planted('a row that takes and sends one type adds one', effect=effect_with(lambda sent, taken: (sent, None if sent == taken else taken))),
]
WEIGHING_ERRORS = [
    planted('weight zero is good', good=lambda self, weight: weight <= 0),
    planted('only cycles through state 0 are judged', starts=lambda self, states: range(1)),
    planted('a cycle with one progress row is quiet', is_quiet=lambda self, rows: sum(r.progress for r in rows) <= 1),
    planted('n is taken from the first machine', most_states=lambda self, plant: plant.states[0]),
    planted('the shortest cycle of the first machine that fails is shown', searched=lambda self, counts: counts[:1]),
    planted('the shortest cycle of the last machine that fails is shown', searched=lambda self, counts: counts[-1:]),
    planted('the first cycle found is shown', fewest_in=lambda self, cycles: len(cycles[0][0])),
    planted('the lightest cycle is shown', fewest_in=lambda self, cycles: len(min(cycles, key=lambda c: c[1])[0])),
    planted('w is handed back for n * w', per_doubling=lambda self, n, w: w),
    planted('n is handed back for n * w', per_doubling=lambda self, n, w: n),
    planted('n * n * w is handed back for n * w', per_doubling=lambda self, n, w: n * n * w),
    planted('n * w is handed back only where w is above 1', per_doubling=lambda self, n, w: n * w if w > 1 else 0),
    planted('G and n * w are exchanged', figures=lambda self, plant, weights: tuple(Independent.figures(self, plant, weights)[i] for i in (0, 1, 3, 2))),
]
QUOTING_ERRORS = [
    planted('an edge equal to the ceiling does not count', price_class=lambda self, c: sum(2 ** k < c for k in range(43))),
    planted('42 edges', price_class=lambda self, c: sum(2 ** k <= c for k in range(42))),
    planted('the class begins at 1', price_class=lambda self, c: max(1, sum(2 ** k <= c for k in range(43)))),
    planted('a ceiling one below an edge has the class of the edge', price_class=lambda self, c: sum(2 ** k <= c + 1 for k in range(43))),
    planted('d is not judged', amounts=judged_in('contents', 'g')),
    planted('d is judged before g', amounts=judged_in('contents', 'd', 'g')),
    planted('d is judged before the contents', amounts=judged_in('d', 'contents', 'g')),
    planted('the place of d is that of g', amounts=lambda self, contents, g, d: [*enumerate([*contents, g]), (len(contents), d)]),
    planted('the places of g and d are exchanged', amounts=lambda self, contents, g, d: [*enumerate(contents), (len(contents) + 1, g), (len(contents), d)]),
    planted('the place of d is two past that of g', amounts=lambda self, contents, g, d: [*enumerate([*contents, g]), (len(contents) + 2, d)]),
    planted('d may be 1,000,001', amount_fits=lambda self, place, amount, types: amount <= 1000000 + (place == types + 1)),
    planted('d may be 999,999 at most', amount_fits=lambda self, place, amount, types: amount <= 1000000 - (place == types + 1)),
    planted('n * w * d is left out of the ceiling', ceiling=lambda self, figures, weight, g, d: Independent.ceiling(self, figures, weight, g, 0)),
    planted('g stands for d', ceiling=lambda self, figures, weight, g, d: Independent.ceiling(self, figures, weight, g, g)),
    planted('g and d are exchanged', ceiling=lambda self, figures, weight, g, d: Independent.ceiling(self, figures, weight, d, g)),
    planted('a doubling counts as a progress row', ceiling=lambda self, figures, weight, g, d: Independent.ceiling(self, figures, weight, g + d, 0)),
    planted('w stands for n * w in the ceiling', per_doubling=lambda self, n, w: w),
    planted('n stands for n * w in the ceiling', per_doubling=lambda self, n, w: n),
    planted('of several doublings one counts', ceiling=lambda self, figures, weight, g, d: Independent.ceiling(self, figures, weight, g, min(d, 1))),
]
LISTING_ERRORS = [
    planted('parallel rows are dropped', candidates=without_parallel_rows),
    planted('self loops are dropped', candidates=lambda self, plant, ks: [k for k in ks if plant.rows[k].left != plant.rows[k].entered]),
    planted('shorter cycles come first', ordered=lambda self, cycles: sorted(cycles, key=lambda c: (len(c), c))),
]
CONFIRMING_ERRORS = [
    planted('every set is confirmed', verdict=lambda self, sums: 'confirmed'),
    planted('a sum of zero is negative', verdict=lambda self, sums: 'negative 0 0' if 0 in sums else Independent.verdict(self, sums)),
    planted('257 entries', too_many_entries=lambda self, count: count == 257),
    planted('progress cycles are added', is_quiet_cycle=lambda self, plant, m, c: Independent.is_quiet_cycle(
        self, plant._replace(rows=[r._replace(progress=False) for r in plant.rows]), m, c)),
]
WRITING_ERRORS = [
    planted('the state left is compared with the state entered before', left_before=lambda self, rows, k: rows[k - 1].entered
            if k > 0 and rows[k - 1].machine == rows[k].machine else 0),
    planted('the state that the last row of another machine leaves is taken over', left_before=lambda self, rows, k: rows[k - 1].left if k > 0 else 0),
    planted('the state entered is always written', unwritten=lambda self, left_before, row: (left_before, None, None, None)),
    planted('kind 3 is refused', most_in_row=with_most(2, lambda kind, types: 2)),
    planted('kind 4 is let by', most_in_row=with_most(2, lambda kind, types: 4), types_said=lambda self, kind, fourth, sixth: Independent.types_said(
        self, kind % 4, fourth, sixth)),
    planted('a row that neither sends nor takes may have any type', most_in_row=with_most(3, lambda kind, types: max(0, types - 1))),
    planted('the type taken of kind 3 may be any byte', most_in_row=with_most(3, lambda kind, types: 255 if kind == 3 else types - 1 if kind else 0)),
    planted('progress may be 2', most_in_row=with_most(4, lambda kind, types: 2)),
    planted('the type sent of kind 3 may be any byte', most_in_row=with_most(5, lambda kind, types: 255 if kind == 3 else 0)),
    planted('the sixth number of other kinds is not judged', most_in_row=with_most(5, lambda kind, types: types - 1 if kind == 3 else 65535)),
    planted('the sixth number may be a type for kind 1', most_in_row=with_most(5, lambda kind, types: types - 1 if kind in (1, 3) else 0)),
    planted('the sixth number of kind 3 must be 0', most_in_row=with_most(5, lambda kind, types: 0)),
    planted('the types of kind 3 are exchanged', types_said=lambda self, kind, fourth, sixth: Independent.types_said(
        self, kind, *((sixth, fourth) if kind == 3 else (fourth, sixth)))),
    planted('kind 3 only takes', types_said=lambda self, kind, fourth, sixth: only_taken(*Independent.types_said(self, kind, fourth, sixth))),
    planted('the type sent is not written beside one that is taken', unwritten=lambda self, left_before, row: (
        left_before, row.left, row.sent if row.taken is not None else None, None)),
    planted('1,025 rows', most_of_rows=lambda self, before: min(255, 1025 - before)),
    planted('a list that goes on is let by', length_fits=lambda self, count, needed: count >= needed),
    planted('a missing number has place 0', length_place=lambda self, count, needed: 0 if count < needed else needed),
]
# The same in a list of numbers.
LISTED_TWIN_ERRORS = [
    planted('rows that equal an earlier one are let by', compared_numbers=lambda self, row: object()),
    *(planted('the %s is not compared' % name, compared_numbers=lambda self, row, field=field: row[:field] + row[field + 1:])
      for field, name in enumerate(('state left', 'state entered', 'kind', 'type', 'progress', 'sixth number'))),
    planted('a type that is sent equals the same type taken', compared_numbers=lambda self, row: row[:2] + [row[2] > 0] + row[3:]),
    planted('a row that takes and sends equals one with these types exchanged', compared_numbers=lambda self, row: row[:3] + [sorted(row[3::2])] + row[4:5]),
    planted('a row that takes and sends one type equals one that does neither', compared_numbers=lambda self, row: row if row[2] < 3 or row[3] != row[5]
            else row[:2] + [0, 0, row[4], 0]),
    planted('rows of earlier machines are compared as well', hold_different=lambda self, numbers, begin, wrong: Independent.hold_different(
        self, numbers, [[k for machine in begin for k in machine]], wrong)),
    planted('the place is that of the row\'s last number', listed_twin_place=lambda self, first, begins: begins + ROW_NUMBERS - 1),
    planted('the place is that of the earlier row', listed_twin_place=lambda self, first, begins: first),
    planted('a row is compared before its last number is judged', judged_before=lambda self, begins, wrong: begins + ROW_NUMBERS - 1 <= wrong,
            compared_numbers=lambda self, row: row[:5] + [x % 2 for x in row[5:]]),
    planted('a row is compared after the next number is judged', judged_before=lambda self, begins, wrong: begins + ROW_NUMBERS < wrong),
]
PROGRAM_ERRORS = [
    planted('rows that equal an earlier one are let by', compared=lambda self, row: object()),
    planted('the high byte comes first', weights_of=lambda self, data: [data[i] * 256 + data[i + 1] for i in range(0, len(data) - 1, 2)]),
    planted('an odd last byte is dropped', weights_of=lambda self, data: Independent.weights_of(self, data[:len(data) // 2 * 2])),
    planted('the count of weights is not judged', check_weights=lambda self, plant, weights: None),
    planted('w is printed for n * w', per_doubling=lambda self, n, w: w),
    planted('G and n * w are exchanged', figures=lambda self, plant, weights: tuple(Independent.figures(self, plant, weights)[i] for i in (0, 1, 3, 2))),
    planted('weight zero is good', good=lambda self, weight: weight <= 0),
    planted('the shortest cycle of the first machine that fails is shown', searched=lambda self, counts: counts[:1]),
]
