"""Events of a run as text: a line for each, in the names of the plant or by numbers.

    row 3                       a row, by its number; `3` alone says the same
    probe: idle -> measuring    a row, as its line in the plant's text
    loss request                the bus lost a message of this type
    doubling answer             the bus delivered a message of this type twice

Of a row's line, what `takes`, `sends` or `progress` say and the machine may be left out as long as one row alone is meant; with its machine, the whole
line of a row always means that row. What follows a # is a comment.
"""
from collections import namedtuple

from . import plant_text
from .outcomes import BadInput, BadText
from .plants import known
from .texts import counted, grouped, in_line, is_number
from .words import row_json, row_words

FORM = '`row NUMBER`, a row as in the plant\'s text (MACHINE: STATE -> STATE …), `loss TYPE` or `doubling TYPE`'
# An event: row, loss or doubling, and the number of the row or of the type.
Event = namedtuple('Event', 'kind number')


# ---- reading

def parsed(plant, path, line, text):
    """The event that a line says. Whether it can happen, and whether there is a row or type of that number, the calls judge."""
    words = text.split()
    if '->' in plant_text.words_of(text):
        return Event('row', in_line(path, line, row_number, plant, text))
    if len(words) == 2 and words[0] in ('loss', 'doubling'):
        return Event(words[0], in_line(path, line, plant.type_number, words[1]))
    if words[0] == 'row':
        words = words[1:]
    if len(words) == 1 and is_number(words[0]):
        return Event('row', int(words[0]))
    return in_line(path, line, not_an_event, text)


def not_an_event(text):
    raise BadInput('expected %s, found: %s' % (FORM, text))


def row_number(plant, text):
    """The number of the one row that a text means."""
    name, colon, rest = text.partition(':')
    machine = machine_named(plant, name.strip()) if colon else None
    left, entered, marks = row_parts(plant, rest if colon else text)
    between = rows_between(plant, machine, left, entered)
    return the_one(plant, [k for k in between if agrees(plant.rows[k][1], marks)], between, marks, machine)


def machine_named(plant, name):
    number = plant.machine_number(name)
    if number >= len(plant.machines):
        raise BadInput('there is no machine %d: the plant has %s' % (number, numbered(len(plant.machines), 'machine')))
    return number


def row_parts(plant, text):
    """The states of a row, by their names, and its marks, which are read as in a plant's text."""
    reader = plant_text.Reader('')
    reader.types = plant.types
    try:
        left, entered, marks = reader.row_parts(plant_text.words_of(text))
        return left, entered, reader.marks(marks)
    except BadText as wrong:
        raise BadInput(wrong.expected) from None


def rows_between(plant, machine, left, entered):
    """The rows of a machine, or of all, from one state to another, by their names."""
    for state in (left, entered) if machine is not None else ():
        known(state, plant.machines[machine].states, 'state')
    return [k for k, (m, row) in enumerate(plant.rows)
            if machine in (None, m) and (plant.machines[m].states[row.left], plant.machines[m].states[row.entered]) == (left, entered)]


def agrees(row, marks):
    """Whether a row has what was said of it: the types sent and taken, and progress. Type 0 is said, too."""
    return all(said is None or said is False or said == has for said, has in zip(marks, (row.sent, row.taken, row.progress)))


def the_one(plant, found, between, marks, machine):
    """The one row of those found. With the machine, the whole line of a row means that row, and no other that has more of it."""
    whole = [k for k in found if machine is not None and marks == plant.rows[k][1][2:]]
    if whole:
        return whole[0]
    if len(found) == 1:
        return found[0]
    if found:
        raise BadInput('this can be %s; say more of the row, or its number' % in_series(plant, found, ' or '))
    there = in_series(plant, between, ' and ')
    raise BadInput('there is no such row; ' + ('between these states there is %s' % there if there else '`hemtaluq show` prints the rows'))


def in_series(plant, rows, word):
    return word.join(' '.join(in_names(plant, Event('row', k)).split()) for k in rows)


# ---- in words

def numbered(count, noun):
    """`2 types, 0 to 1`, `1 row, 0`, `0 rows`."""
    return counted(count, noun) + (', 0 to %d' % (count - 1) if count > 1 else ', number 0' if count else '')


def in_names(plant, event):
    """An event in the names of the plant, as far as it has them."""
    if event.kind != 'row':
        return '%s %s' % (event.kind, plant.types[event.number] if event.number < len(plant.types) else grouped(event.number))
    if event.number >= len(plant.rows):
        return 'row %s' % grouped(event.number)
    number, move, marks, _ = row_words(plant, event.number)
    return '  '.join(filter(None, (number, '%s: %s' % (plant.machines[plant.rows[event.number][0]].name, move), marks)))


def as_answer(plant, event):
    """An event for scripts."""
    if event.kind != 'row':
        return {'event': event.kind, 'type': plant.types[event.number] if event.number < len(plant.types) else event.number}
    if event.number >= len(plant.rows):
        return {'event': 'row', 'row': {'row': event.number}}
    return {'event': 'row', 'row': dict(row_json(plant, event.number), progress=plant.rows[event.number][1].progress)}


def widest(plant):
    """The most characters that an event has in names."""
    events = [Event('row', k) for k in range(len(plant.rows))] + [Event('doubling', t) for t in range(len(plant.types))]
    return max((len(in_names(plant, event)) for event in events), default=0)


def reasons(plant, watcher, event):
    """Why a row, a loss or a doubling cannot happen now, from the states and contents that the watcher holds."""
    if event.number >= len(plant.rows if event.kind == 'row' else plant.types):
        noun = 'row' if event.kind == 'row' else 'type'
        yield 'there is no %s %s: the plant has %s' % (noun, grouped(event.number), numbered(len(plant.rows if noun == 'row' else plant.types), noun))
        return
    taken = event.number
    if event.kind == 'row':
        m, row = plant.rows[event.number]
        machine, state, taken = plant.machines[m], watcher.state(m), row.taken
        if state != row.left:
            yield '%s is in %s, not in %s' % (machine.name, machine.states[state], machine.states[row.left])
    if taken is not None and watcher.content(taken) == 0:
        yield 'no message of type %s is present' % plant.types[taken]


def why(plant, watcher, event):
    """What is told of an event that the call refused: what of the plant and the run is in its way, or how many of its sort there were."""
    def where(number, _place):
        if number != 29:
            return ', and '.join(reasons(plant, watcher, event))
        sort, count = ('progress row', watcher.progress_rows) if event.kind == 'row' else ('doubling', watcher.doublings)
        return 'it could happen, but there were %s already, and no more are counted' % counted(count, sort)
    return where
