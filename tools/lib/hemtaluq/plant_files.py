"""Plant files: from a text by the proved writer, and back to a plant with made-up names.

A file has no names, so its machines, states and types are called m0, s0, t0 and so on. Whether bytes are a plant file the proved reader says.
"""
from collections import namedtuple

from . import binding, plant_text
from .outcomes import accepted
from .plants import Machine, Plant, Row
from .texts import bytes_of, counted, decoded, grouped, is_text

FIELDS = ('the state left', 'the state entered', 'the type sent', 'the type taken')
TWIN_ROW = 26
# A number of the list that says a plant, with what it is, what it may be, its line, and the number of its row.
Said = namedtuple('Said', 'number label limits line row', defaults=(None,))


# ---- reading

def row_from(data, at, implied):
    """The row whose map byte stands at a place, and the place behind it. Without a field for it the row leaves the implied state."""
    bits, fields = data[at], []
    for bit in range(len(FIELDS)):
        present = bits >> bit & 1
        at += present
        fields.append(data[at] if present else None)
    left = implied if fields[0] is None else fields[0]
    return Row(left, left if fields[1] is None else fields[1], fields[2], fields[3], bool(bits & 16)), at + 1


def plant_and_places(path, data, last):
    """The plant of a file up to the row whose map byte is the last one, and the places of the map bytes. The proved reader has judged these rows:
    the last one may be a twin row, and nothing else is wrong with them."""
    at, machines, places = 2, [], []
    while len(machines) < data[0] and at <= last:
        states, count, rows = data[at], data[at + 1], []
        at += 2
        while len(rows) < count and at <= last:
            places.append(at)
            row, at = row_from(data, at, rows[-1].left if rows else 0)
            rows.append(row)
        machines.append(Machine('m%d' % len(machines), ['s%d' % s for s in range(states)], rows, 0, []))
    return Plant(path, ['t%d' % t for t in range(data[1])], machines, data=data), places


def plant_of(path, data):
    """The plant of a file that the proved reader accepts."""
    return plant_and_places(path, data, len(data))[0]


def byte_labels(data):
    """What each byte of a file is, up to the first that is missing or the first behind the last row."""
    labels, rows = [], 0

    def byte(label):
        labels.append(label)
        return data[len(labels) - 1]
    try:
        machines = byte('the count of machines')
        byte('the count of types')
        for m in range(machines):
            byte('the count of states of machine m%d' % m)
            for rows in range(rows + 1, rows + 1 + byte('the count of rows of machine m%d' % m)):
                label = 'of row %d, in machine m%d' % (rows - 1, m)
                bits = byte('the map byte ' + label)
                for field in [field for bit, field in enumerate(FIELDS) if bits >> bit & 1]:
                    byte('%s %s' % (field, label))
        labels.append('behind the last row')
    except IndexError:
        pass  # The file ends here: the last label is that of the byte which is missing.
    return labels


def twin_of(plant, number):
    """The earlier row that a twin row is equal to, by its number, and the two in words."""
    m, row = plant.rows[number]
    return plant.rows.index((m, row)), ' '.join(' '.join(plant_text.row_text(plant, plant.machines[m], row)).split())


def twin_in_file(data, place):
    """What is told of a twin row beside its map byte."""
    plant, places = plant_and_places('', data, place)
    number = len(places) - 1
    earlier, words = twin_of(plant, number)
    return '; row %d repeats row %d, at byte %d: %s' % (number, earlier, places[earlier], words)


def where_in_file(data):
    """What stands at the place of a refusal of a file. All before it is good, so each byte up to there is what its label says."""
    def where(number, place):
        if place < len(data):
            twin = twin_in_file(data, place) if number == TWIN_ROW else ''
            return 'byte %d is %s, and holds %02X%s' % (place, byte_labels(data)[place], data[place], twin)
        return 'the file has %s, and the next would be %s' % (counted(len(data), 'byte'), byte_labels(data)[place])
    return where


# ---- writing

def row_numbers(row):
    """The writer's numbers for a row: the states, the kind (0 neither, 1 sends, 2 takes, 3 takes and sends), the type, which is the one taken
    where the row takes one, progress, and the type sent where it does both."""
    sends, takes = row.sent is not None, row.taken is not None
    return row.left, row.entered, sends + 2 * takes, row.taken if takes else row.sent or 0, int(row.progress), row.sent if sends and takes else 0


def said_by(plant, limits):
    """The list of numbers that says a plant."""
    yield Said(len(plant.machines), 'the count of machines', '1 to %d' % limits['MOST_MACHINES'], plant.types_line)
    yield Said(len(plant.types), 'the count of types', 'at most %d' % limits['MOST_TYPES'], plant.types_line)
    for m, machine in enumerate(plant.machines):
        yield Said(len(machine.states), 'the count of states of machine ' + machine.name, '1 to %d' % limits['MOST_STATES'], machine.line)
        yield Said(len(machine.rows), 'the count of rows of machine ' + machine.name,
                   'at most 255, and %s in all machines together' % grouped(limits['MOST_ROWS']), machine.line)
        for k, (row, line) in enumerate(zip(machine.rows, machine.row_lines or [0] * len(machine.rows)), plant.first_row(m)):
            for number in row_numbers(row):
                yield Said(number, 'a number of a row of machine ' + machine.name, 'a state, a kind, a type or progress', line, k)


def twin_in_text(plant, number):
    """What is told of a twin row in its line."""
    m = plant.rows[number][0]
    earlier, words = twin_of(plant, number)
    machine = plant.machines[m]
    return 'machine %s has this row in line %d already: %s' % (machine.name, machine.row_lines[earlier - plant.first_row(m)], words)


def written(library, plant):
    """The bytes of the plant's shortest file, from the proved writer."""
    said, out = list(said_by(plant, library.limits)), binding.room('uint8_t', library.limits['LONGEST_FILE'])

    def where(number, place):
        one = said[place]
        if number == TWIN_ROW:
            return '%s:%d: %s' % (plant.path, one.line, twin_in_text(plant, one.row))
        return '%s:%d: %s is %d, expected %s' % (plant.path, one.line, one.label, one.number, one.limits)
    answer = accepted(library, library.write([one.number for one in said], out), where)
    return bytes(out[:answer.length])


# ---- either

def load(library, path):
    """The plant of a text or of a file. The reader is asked first: a text has a word, and no plant file has two letters next to each other."""
    data = bytes_of(path)
    answer = library.read(data)
    if library.kind(answer) == 'REFUSED' and is_text(data):
        plant = plant_text.parsed(path, decoded(path, data))
        plant.data, plant.source = written(library, plant), data
        return plant
    accepted(library, answer, where_in_file(data))
    return plant_of(path, data)
