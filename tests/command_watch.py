"""`watch` on random plants and events: the command says what is left, and what is refused and why, as a simulation of the run has it.

The simulation is that of definitions.py, from states 0, and the figures are those of the independent implementation. Events are given by numbers and by
the lines of rows, whole and in part; which row a part means, or that it can mean several, is worked out here anew. Runs begin at times shortly before
1,000,000 progress rows and doublings. A run over a pipe is answered line by line, and summed up on Ctrl-C.

PLANTED are errors in the command, one at a time, that these comparisons must find.
"""
import os
import random
import signal
import subprocess
import sys
import threading
from unittest import mock

import building
import definitions
import evidence_plants
from command_texts import Wrong, drawn, loaded
from evidence_independent import Independent, Refused

from hemtaluq import binding, events, outcomes, plants, watchers
from hemtaluq.commands import watching

RUNS = 1000
EVENTS = 24
MOST = 1000000
SHAPES = [evidence_plants.passing, evidence_plants.passing, evidence_plants.small, evidence_plants.one_state, evidence_plants.first_not_largest]
# Numbers that a plant lacks. The last two would be 0 and 1, if they wrapped at their width.
LACKING = [64, 255, 256, 1024, 4294967295, 4294967296, 4294967297]


# ---- the simulation, with the words that it owes

class Model:
    """A run: states, contents, and how many quiet rows, progress rows, losses and doublings there were; the last two sorts begin with a number given."""

    def __init__(self, plant, figures, weights, contents, before):
        self.plant, self.states, self.contents = plant, [0] * len(plant.states), list(contents)
        self.quiet, self.lost, (self.progress, self.doubled) = 0, 0, before
        self.accepted = self.refused = self.unread = 0
        f, n, self.per_progress, self.per_doubling = figures
        self.opening = f + n * sum(w * c for w, c in zip(weights, contents))

    def left(self):
        return self.opening + self.per_progress * self.progress + self.per_doubling * self.doubled - self.quiet

    def judged(self, kind, number):
        """The number of a refusal, or 0 for an event that happened."""
        happened, states, contents = definitions.simulate(self.plant, self.states, self.contents, [(kind, number)])
        if not happened:
            return 27 if kind == 'row' else 28
        quiet, progress, doubled = definitions.counted(self.plant, happened)
        if progress + self.progress > MOST or doubled and self.doubled == MOST:
            return 29
        self.states, self.contents, self.lost = states, contents, self.lost + (kind == 'loss')
        self.quiet, self.progress, self.doubled = self.quiet + quiet, self.progress + progress, self.doubled + doubled
        return 0

    def reason(self, kind, number, fault):
        """Why it was refused."""
        if fault == 29:
            return 'it could happen, but there were 1,000,000 %ss already, and no more are counted' % ('progress row' if kind == 'row' else kind)
        noun, count = ('row', len(self.plant.rows)) if kind == 'row' else ('type', self.plant.types)
        if number >= count:
            rest = ', 0 to %d' % (count - 1) if count > 1 else ', number 0' if count else ''
            return 'there is no %s %s: the plant has %d %s%s%s' % (noun, '{:,}'.format(number), count, noun, '' if count == 1 else 's', rest)
        found, taken = [], number
        if kind == 'row':
            r = self.plant.rows[number]
            taken = r.taken
            found += ['m%d is in s%d, not in s%d' % (r.machine, self.states[r.machine], r.left)] if self.states[r.machine] != r.left else []
        found += ['no message of type t%d is present' % taken] if taken is not None and not self.contents[taken] else []
        return ', and '.join(found)


def marks(row):
    """What a row does, as parts of its line."""
    return ['takes t%s' % row.taken] * (row.taken is not None) + ['sends t%s' % row.sent] * (row.sent is not None) + ['progress'] * row.progress


def in_names(plant, kind, number):
    if kind != 'row':
        return '%s %s' % (kind, 't%d' % number if number < plant.types else '{:,}'.format(number))
    if number >= len(plant.rows):
        return 'row {:,}'.format(number)
    r = plant.rows[number]
    return '  '.join(['row %d' % number, 'm%d: s%d -> s%d' % (r.machine, r.left, r.entered)] + marks(r))


def for_scripts(plant, kind, number):
    if kind != 'row':
        return {'event': kind, 'type': 't%d' % number if number < plant.types else number}
    if number >= len(plant.rows):
        return {'event': 'row', 'row': {'row': number}}
    r = plant.rows[number]
    return {'event': 'row', 'row': {'row': number, 'machine': 'm%d' % r.machine, 'left': 's%d' % r.left, 'entered': 's%d' % r.entered, 'progress': r.progress,
                                    'sends': None if r.sent is None else 't%d' % r.sent, 'takes': None if r.taken is None else 't%d' % r.taken}}


# ---- events as text

def meant(plant, machine, left, entered, said):
    """The rows that a line can mean. One with a machine that is the whole line of a row means that row alone."""
    rows = [k for k, r in enumerate(plant.rows) if (r.left, r.entered) == (left, entered) and machine in (None, r.machine)]
    whole = [k for k in rows if machine is not None and sorted(marks(plant.rows[k])) == sorted(said)]
    return whole or [k for k in rows if set(said) <= set(marks(plant.rows[k]))]


def row_line(rng, plant, number):
    """A line for a row that exists, whole or in part, with what it can mean; at times with something that the row does not do."""
    r = plant.rows[number]
    said = [mark for mark in marks(r) if rng.random() < 0.7]
    if plant.types and rng.random() < 0.1:
        said = [mark for mark in said if not mark.startswith('takes')] + ['takes t%d' % rng.randrange(plant.types)]
    rng.shuffle(said)
    machine = r.machine if rng.random() < 0.7 else None
    head = '' if machine is None else rng.choice(['m%d: ', 'm%d:', '%d: ']) % machine
    return head + ('s%d%ss%d ' % (r.left, rng.choice([' -> ', '->', ' → ']), r.entered)) + ' '.join(said), meant(plant, machine, r.left, r.entered, said)


def drawn_event(rng, model):
    """An event and its line, with the rows that it can mean where it is given so."""
    plant = model.plant
    kind = rng.choices(['row', 'loss', 'doubling'], [7, 1, 1.5])[0]
    if kind != 'row':
        number = rng.choice(LACKING) if rng.random() < 0.1 else rng.randrange(plant.types + 1)
        word = 't%d' % number if number < plant.types and rng.random() < 0.5 else str(number)
        return kind, [number], '%s %s' % (kind, word)
    able = [k for k, r in enumerate(plant.rows) if model.states[r.machine] == r.left and (r.taken is None or model.contents[r.taken])]
    number = rng.choice(able) if able and rng.random() < 0.85 else rng.choice(LACKING) if rng.random() < 0.1 else rng.randrange(len(plant.rows) + 1)
    if number < len(plant.rows) and rng.random() < 0.6:
        line, found = row_line(rng, plant, number)
        return kind, found, line
    return kind, [number], rng.choice(['row %d', '%d']) % number


# ---- comparisons

def hold_unread(model, found, got, line):
    """A line that means several rows, or none, is told with its number and with these rows, and nothing happens."""
    model.unread += 1
    told = str(got.refusal)
    named = [' '.join(in_names(model.plant, 'row', k).split()) for k in found]
    if got.status != 2 or got.text or got.answer['answer'] != 'bad input' or got.answer['line'] != line or not told.startswith('bus:%d: ' % line) \
            or (named and told != 'bus:%d: this can be %s; say more of the row, or its number' % (line, ' or '.join(named))) \
            or (not named and 'there is no such row' not in told):
        raise Wrong('watch: a line that can mean %s: %s' % (found, got))
    return 'several' if named else 'none'


def hold_event(model, run, kind, number, got, line):
    fault = model.judged(kind, number)
    names, about = in_names(model.plant, kind, number), dict(for_scripts(model.plant, kind, number), line=line)
    if fault:
        model.refused += 1
        why = model.reason(kind, number, fault)
        verdict, owed = 'refused %d: %s' % (fault, why), dict(about, answer='refused', number=fault, place=0, words=run.library.faults[fault], where=why)
    else:
        model.accepted += 1
        verdict, owed = '%d left' % model.left(), dict(about, answer='remaining', left=model.left())
    if got.status != bool(fault) or got.refusal or got.answer != owed or got.text != '%s  %s' % (names.ljust(run.width), verdict):
        raise Wrong('watch: plant %s, %s %d, owed %s: %s' % (run.plant.data.hex(), kind, number, owed, got))
    return fault


def hold_summary(model, got):
    states, contents = {'m%d' % m: 's%d' % s for m, s in enumerate(model.states)}, {'t%d' % t: c for t, c in enumerate(model.contents)}
    answer = {'answer': 'watched', 'left': model.left(), 'accepted': model.accepted, 'refused': model.refused, 'unread': model.unread, 'quiet': model.quiet,
              'progress': model.progress, 'losses': model.lost, 'doublings': model.doubled, 'states': states, 'contents': contents}
    first = '%d event%s accepted, %d refused' % (model.accepted, '' if model.accepted == 1 else 's', model.refused)
    if got.answer != answer or got.status != (2 if model.unread else 1 if model.refused else 0) or not got.text.startswith(first) \
            or not got.text.split('\n')[0].endswith('; %d left' % model.left()):
        raise Wrong('watch: summed up as %s, where this is owed: %s' % (got, answer))


def put_forward(run, model, before):
    """The watcher as it is after so many progress rows and doublings."""
    counts = run.watcher.held.counts
    counts[0], counts[1], counts[2] = model.left(), *before


def watched(library, independent, rng, data, kinds):
    """A run of random events; the kinds of its answers."""
    plant, other = loaded(library, data), independent.plant(data)
    weights, contents = evidence_plants.weights_for(rng, other.types), [rng.choice([0, 1, 2, 3, MOST]) for _ in range(other.types)]
    run = watching.Run(library, plant)
    try:
        ceiling = int(independent.quote(other, weights, contents, 0, 0).split()[1])
    except Refused as refused:
        try:
            raise Wrong('watch: plant %s is opened: %s' % (data.hex(), run.open(weights, contents)))
        except outcomes.Refused as got:
            if (got.number, got.place) != refused.args:
                raise Wrong('watch: plant %s, refused %d %d: %s' % (data.hex(), *refused.args, got)) from None
        kinds.append('no opening')
        return
    before = rng.choice([(0, 0), (0, 0), (MOST - 2, 0), (0, MOST - 1), (MOST, MOST)])
    model = Model(other, list(map(int, independent.weigh(other, weights, 64).split()[1:])), weights, contents, before)
    opened = run.open(weights, contents)
    if opened.answer['left'] != ceiling or not opened.text.endswith('  %d left' % ceiling) or opened.answer['answer'] != 'opened':
        raise Wrong('watch: plant %s is opened with %s' % (data.hex(), opened))
    put_forward(run, model, before)
    for line in range(1, EVENTS + 1):
        kind, found, text = drawn_event(rng, model)
        got = run.line('bus', line, text)
        kinds.append(hold_event(model, run, kind, found[0], got, line) if len(found) == 1 else hold_unread(model, found, got, line))
    hold_summary(model, run.summary())


def runs(library, seed, count):
    rng, independent, kinds = random.Random(seed), Independent(), []
    for _ in range(count):
        watched(library, independent, rng, evidence_plants.plant_file(rng, *drawn(rng, rng.choice(SHAPES))), kinds)
    return kinds


# ---- planted errors

def first_found(plant, found, between, marks, machine, the_one=events.the_one):
    """Of several rows the first is meant."""
    return the_one(plant, found[:1], between, marks, machine)


def without_whole(plant, found, between, marks, machine, the_one=events.the_one):
    return the_one(plant, found, between, marks, None)


def left_before(self, number, row=watchers.Watcher.row):
    """What is left is told as it was before the row."""
    before, answer = self.left, row(self, number)
    answer.left = before if answer.kind else 0
    return answer


def with_number(function):
    """The number that a function answers is one too large."""
    return lambda *given: function(*given) + 1


def one_reason(plant, watcher, event, reasons=events.reasons):
    return list(reasons(plant, watcher, event))[:1]


PLANTED = [
    ('a line means the row behind the one that it says', events, 'row_number', with_number(events.row_number)),
    ('of several rows the first is meant', events, 'the_one', first_found),
    ('the whole line of a row can mean one that has more of it', events, 'the_one', without_whole),
    ('type 0 is taken for no type', events, 'agrees', lambda row, marks: all(not m or m == h for m, h in zip(marks, (row.sent, row.taken, row.progress)))),
    ('what a row does is not looked at', events, 'agrees', lambda row, marks: True),
    ('a type is taken for the one behind it', plants.Plant, 'type_number', with_number(plants.Plant.type_number)),
    ('a loss is handed on as a doubling', watchers.Watcher, 'loss', watchers.Watcher.doubling),
    ('a doubling is handed on as a loss', watchers.Watcher, 'doubling', watchers.Watcher.loss),
    ('what is left is told as it was before the row', watchers.Watcher, 'row', left_before),
    ('the state of a machine is told as its first', watchers.Watcher, 'state', lambda self, machine: 0),
    ('messages are told as present', watchers.Watcher, 'content', lambda self, message_type: 1),
    ('one of two reasons is told', events, 'reasons', one_reason),
    ('progress rows are summed up as quiet', watching.Run, 'sort', lambda self, event: 'quiet row' if event.kind == 'row' else event.kind),
    ('doublings are told as progress rows', watchers.Watcher, 'doublings', watchers.Watcher.progress_rows),
    ('numbers wrap at their width', binding, 'fitting', lambda number, kind: number),
]


def catches(library):
    """How many planted errors are found."""
    for name, where, attribute, wrong in PLANTED:
        try:
            with mock.patch.object(where, attribute, wrong):
                runs(library, 1, 60)
        except (Wrong, outcomes.NotDone, LookupError):
            continue
        sys.exit('command.py: watch: the planted error "%s" is not found' % name)
    return len(PLANTED)


# ---- over a pipe, and the binding

def hold_pipe(interrupted):
    """Each line is answered before the next is written. On Ctrl-C, as at the end, the run is summed up."""
    command = [os.path.join(building.ROOT, 'tools', 'hemtaluq'), 'watch', 'examples/plant_a/plant.txt', '-w', '2', '1', '-c', '3', '4']
    with subprocess.Popen(command, cwd=building.ROOT, stdin=subprocess.PIPE, stdout=subprocess.PIPE, text=True) as watch:
        waiting = threading.Timer(60, watch.kill)
        waiting.start()
        got = [watch.stdout.readline()]
        for line in ('row 0\n', '# nothing\n\nrow 1\n', 'doubling request\n'):
            watch.stdin.write(line)
            watch.stdin.flush()
            got.append(watch.stdout.readline())
        if interrupted:
            watch.send_signal(signal.SIGINT)
        else:
            watch.stdin.close()
        rest = watch.stdout.read()
        waiting.cancel()
        watch.wait()
    left = [' '.join(line.split()[-2:]) for line in got]
    if left != ['%d left' % number for number in (30, 29, 38, 42)] or watch.returncode or not rest.startswith('3 events accepted, 0 refused; 42 left\n'):
        sys.exit('command.py: watch over a pipe: %s, then %s, exit status %d' % (got, rest, watch.returncode))


def hold_binding(library):
    """The lists of a watcher are those of the header: of their lengths and types, and lent where a call writes to them."""
    held = watchers.Watcher(library).held
    for values in ((held.sizes, held.contents, held.counts), (held.sizes, held.contents, held.sizes, 0), (held.sizes, held.table, held.counts, 0),
                   (held.sizes, [0] * 64, held.counts, 0), ([0] * 4, held.contents, held.counts, 0)):
        try:
            sys.exit('command.py: a call is made with %s: %s' % (values, library.watch_loss(*values)))
        except TypeError:
            pass
    if library.watch_loss([0] * 5, held.contents, [0] * 3, 0).number != 28:
        sys.exit('command.py: a list that a call only reads is not lent by its numbers')
    with open(os.path.join(building.ROOT, 'include', 'hemtaluq.h'), encoding='utf-8') as source:
        other = binding.Header(source.read().replace('[8192]', '[4096]'))
    lengths = [field.length for field in other.structs['hemtaluq_watcher']], [one.length for one in other.calls['watch_row'].parameters]
    if lengths != ([4096, 4096, 5, 16, 64, 3], [4096, 5, 16, 64, 3, None]):
        sys.exit('command.py: of a header with other lengths these are read: %s and %s' % lengths)


def hold(seed):
    """How many lines of events were held, and how many planted errors were found."""
    library = binding.load()
    hold_binding(library)
    try:
        kinds = runs(library, seed, RUNS)
    except (Wrong, outcomes.NotDone) as wrong:
        sys.exit('command.py: %s' % wrong)
    counts = {kind: kinds.count(kind) for kind in (0, 27, 28, 29, 'several', 'none', 'no opening')}
    if min(counts.values()) < 100:
        sys.exit('command.py: watch: a kind of answers is rare: %s' % counts)
    hold_pipe(False)
    hold_pipe(True)
    return len(kinds) - counts['no opening'], catches(library)
