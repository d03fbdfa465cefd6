"""Plants from texts to files and back: write, show, read."""
from .. import plant_files, plant_text
from ..options import keep
from ..outcomes import YES, Outcome
from ..texts import counted

ORDER = 10

WRITE = '''Write the plant file of a plant text.

%s
A row takes one type, sends one type, does both or neither. One that does both can happen when the type that it takes is present: it
takes first, then sends, in whichever order the text has them. `progress` marks the rows that bring a fresh reading. No machine has the
same row twice. A name is of letters, digits, _ - and . and begins with a letter, a digit or _. Types are named before the first machine.

The file is made by the proved writer: it reads as the text's rows, and no file that does is shorter. A plant has 1 to 16 machines,
at most 64 types, 1 to 64 states and at most 255 rows in a machine, and 1,024 rows in all.''' % plant_text.__doc__.split('\n', 2)[2]

READ = '''Check a plant, and count its machines, types and rows. For a file that is no plant: the first byte that is wrong, and what it is.
For a plant: notes on what is often a mistake, such as types that are never sent or never taken.'''


def write(library, arguments):
    data = plant_files.written(library, arguments.plant)
    keep(arguments.file, data, arguments)
    return Outcome(YES, {'answer': 'wrote', 'file': arguments.file, 'length': len(data)}, 'wrote %s to %s' % (counted(len(data), 'byte'), arguments.file))


def show(_library, arguments):
    text = plant_text.printed(arguments.plant)
    return Outcome(YES, {'answer': 'shown', 'text': text}, text)


def rows_without_weight(plant):
    """Quiet rows that take and send one type and stay in their state: each is a quiet cycle that weighs 0, whatever the weights."""
    for number, (m, row) in enumerate(plant.rows):
        if row.left == row.entered and row.taken is not None and row.taken == row.sent and not row.progress:
            yield 'row %d of machine %s takes and sends %s, stays in its state and has no progress: no weights pass' % (
                number, plant.machines[m].name, plant.types[row.sent])


def strange(plant):
    """What is often a mistake in a plant, beside the states."""
    sent, taken = {row.sent for _, row in plant.rows}, {row.taken for _, row in plant.rows}
    for t, name in enumerate(plant.types):
        if t not in sent or t not in taken:
            yield 'type %s is never %s' % (name, 'sent' if t in taken else 'taken' if t in sent else 'sent or taken')
    yield from rows_without_weight(plant)
    if not any(row.progress for _, row in plant.rows):
        yield 'no row has progress'


def read(library, arguments):
    plant, answer = arguments.plant, library.read(arguments.plant.data)
    plant.notes = [*plant.notes, *strange(plant)]
    text = '%s reads as a plant: %s, %s, %s' % (plant.path, counted(answer.machines, 'machine'), counted(answer.types, 'type'), counted(answer.rows, 'row'))
    return Outcome(YES, {'answer': 'counts', 'machines': answer.machines, 'types': answer.types, 'rows': answer.rows}, text)


def add(commands):
    one = commands.add('write', write, 'write the plant file of a plant text', WRITE, '  hemtaluq write plant.txt plant.bin')
    one.add_argument('file', metavar='FILE', help='the plant file to write; it stays as it is where the text is refused')
    commands.add('show', show, 'print the text of a plant file',
                 'Print the text of a plant: of a file with made-up names (m0, s0, t0), of a text with its own, without its comments.\n'
                 'Row numbers, which the other commands speak of, stand behind the rows.', '  hemtaluq show plant.bin > plant.txt')
    commands.add('read', read, 'check a plant, and count its machines, types and rows', READ, '  hemtaluq read plant.bin')
