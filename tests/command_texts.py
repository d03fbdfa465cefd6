"""Plant texts: wrong ones with the line and the words that they get, others with the file that they say, and the plants of the evidence.

A plant file's rows, as the command reads and draws them, are those of the independent implementation, and the text that it prints is written as the
file that the implementation makes. PLANTED are errors in the command, one at a time, that these comparisons must find.
"""
import random
import re
import sys
from unittest import mock

import building
import evidence_plants
from evidence_independent import Independent, Refused

sys.path.insert(0, building.ROOT + '/tools/lib')

from hemtaluq import binding, drawing, outcomes, plant_files, plant_text  # noqa: E402

PLANTS = 3000
HEAD = 'types request answer\nmachine panel\n'

# A text, the line of its fault, and what is said of it.
WRONG = [
    ('type request\n', 1, 'expected `types`, `machine`, `states` or a row (%s), found: type request' % plant_text.ROW_FORM),
    ('# nothing but\n\nmachines\n', 3, 'expected `types`, `machine`, `states` or a row (%s), found: machines' % plant_text.ROW_FORM),
    ('types a\nmachine m\na => b\n', 3, 'expected `types`, `machine`, `states` or a row (%s), found: a => b' % plant_text.ROW_FORM),
    ('types a b a\n', 1, 'there is a type a already'),
    ('types sends\n', 1, 'expected the name of a type, found the word sends'),
    ('types a 2\n', 1, 'expected the name of a type, found the number 2'),
    ('machine 0\n', 1, 'expected the name of a machine, found the number 0'),
    ('machine progress\n', 1, 'expected the name of a machine, found the word progress'),
    (HEAD + 'states takes\n', 3, 'expected the name of a state, found the word takes'),
    (HEAD + 'waiting -> sends request\n', 3, 'expected the name of a state, found the word sends'),
    (HEAD + 'states -> asked\n', 3, 'expected the name of a state, found the word states'),
    ('types a\ntypes b a\n', 2, 'there is a type a already'),
    ('types a=b\n', 1, 'expected the name of a type, of letters, digits, _ - and ., found a=b'),
    ('types -a\n', 1, 'expected the name of a type, of letters, digits, _ - and ., found -a'),
    ('types a, b\n', 1, 'expected the name of a type, of letters, digits, _ - and ., found a,'),
    (HEAD + 'types more\n', 3, 'expected a row or a machine: `types` lines stand before the first machine'),
    ('machine\n', 1, 'expected one name behind `machine`, found none'),
    ('machine the panel\n', 1, 'expected one name behind `machine`, found the panel'),
    ('machine a/b\n', 1, 'expected the name of a machine, of letters, digits, _ - and ., found a/b'),
    (HEAD + 'a -> a\nmachine panel\n', 4, 'there is a machine panel already'),
    ('states a b\n', 1, 'expected `machine NAME` before `states`'),
    (HEAD + 'states\n', 3, 'expected the names of states behind `states`'),
    (HEAD + 'states a b a\n', 3, 'there is a state a already'),
    (HEAD + 'states a\nstates a\n', 4, 'there is a state a already'),
    (HEAD + 'states (a)\n', 3, 'expected the name of a state, of letters, digits, _ - and ., found (a)'),
    (HEAD + 'a -> b\nstates a b\n', 4, 'expected a row or a machine: `states` lines stand before the rows of their machine'),
    ('types request\nwaiting -> asked\n', 2, 'expected `machine NAME` before the first row'),
    (HEAD + '-> asked\n', 3, 'expected ' + plant_text.ROW_FORM),
    (HEAD + 'waiting ->\n', 3, 'expected ' + plant_text.ROW_FORM),
    (HEAD + 'waiting asked -> b\n', 3, 'expected ' + plant_text.ROW_FORM),
    (HEAD + 'a -> b -> c\n', 3, 'expected ' + plant_text.ROW_FORM),
    (HEAD + 'wait! -> b\n', 3, 'expected the name of a state, of letters, digits, _ - and ., found wait!'),
    (HEAD + 'a -> b!\n', 3, 'expected the name of a state, of letters, digits, _ - and ., found b!'),
    (HEAD + 'states waiting asked\nwaiting -> aske\n', 4, 'there is no state aske; is it asked?'),
    (HEAD + 'states waiting asked\nbroken -> asked\n', 4, 'there is no state broken; expected one of: waiting asked'),
    (HEAD + 'a -> b send request\n', 3, 'expected `sends TYPE`, `takes TYPE`, `progress` or the end of the line, found send'),
    (HEAD + 'a -> b request\n', 3, 'expected `sends TYPE`, `takes TYPE`, `progress` or the end of the line, found request'),
    (HEAD + 'a -> b sends\n', 3, 'expected a type behind `sends`'),
    (HEAD + 'a -> b progress takes\n', 3, 'expected a type behind `takes`'),
    (HEAD + 'a -> b sends requst\n', 3, 'there is no type requst; is it request?'),
    (HEAD + 'a -> b takes progress\n', 3, 'there is no type progress; expected one of: request answer'),
    ('machine panel\na -> b sends request\n', 2, 'there is no type request: expected a line `types …` before the first machine'),
    (HEAD + 'a -> b sends request sends answer\n', 3, 'expected `sends` once'),
    (HEAD + 'a -> b progress progress\n', 3, 'expected `progress` once'),
    (HEAD + 'a -> b sends request answer\n', 3, 'expected `sends TYPE`, `takes TYPE`, `progress` or the end of the line, found answer'),
    (HEAD + 'a -> b takes answer sends request takes answer\n', 3, 'expected `takes` once'),
    (HEAD + 'a -> b takes answer sends request progress sends request\n', 3, 'expected `sends` once'),
    (HEAD + 'a -> b takes answer sends\n', 3, 'expected a type behind `sends`'),
    (HEAD + 'a -> b sends request progress takes\n', 3, 'expected a type behind `takes`'),
    (HEAD + 'a -> b takes sends request\n', 3, 'there is no type sends; expected one of: request answer'),
    (HEAD + 'a -> b takes answer sends requst\n', 3, 'there is no type requst; is it request?'),
    (HEAD + 'a -> b takes answer and sends request\n', 3, 'expected `sends TYPE`, `takes TYPE`, `progress` or the end of the line, found and'),
    (HEAD + 'a -> b takes answer sends request answer\n', 3, 'expected `sends TYPE`, `takes TYPE`, `progress` or the end of the line, found answer'),
]
# 255 rows of which no two are equal.
MANY_ROWS = ''.join('s%d -> s%d\n' % divmod(k, 16) for k in range(255))
# A text beyond the limits or with a twin row, which the proved writer judges; the number and place of its refusal, and what stands there.
BEYOND = [
    ('# a comment\n', 24, 0, 'a.txt:1: the count of machines is 0, expected 1 to 16'),
    ('\ntypes %s\nmachine m\na -> a\n' % ' '.join('t%d' % i for i in range(65)), 24, 1, 'a.txt:2: the count of types is 65, expected at most 64'),
    ('\n'.join('machine m%d\na -> a' % i for i in range(17)), 24, 0, 'a.txt:1: the count of machines is 17, expected 1 to 16'),
    ('types a\n\nmachine panel\n', 24, 2, 'a.txt:3: the count of states of machine panel is 0, expected 1 to 64'),
    ('machine m\na -> a\nmachine n\nstates %s\n' % ' '.join('s%d' % i for i in range(65)), 24, 10,
     'a.txt:3: the count of states of machine n is 65, expected 1 to 64'),
    ('machine m\n' + 'a -> a\n' * 256, 24, 3, 'a.txt:1: the count of rows of machine m is 256, expected at most 255, and 1,024 in all machines together'),
    (''.join('machine m%d\n' % i + MANY_ROWS for i in range(5)), 24, 2 + 4 * (2 + 6 * 255) + 1,
     'a.txt:1025: the count of rows of machine m4 is 255, expected at most 255, and 1,024 in all machines together'),
    ('machine m\na -> a\na -> a\n', 26, 10, 'a.txt:3: machine m has this row in line 2 already: a -> a'),
    (HEAD + 'a -> b sends request\n\nb -> a # back\na->b   sends request # again\n', 26, 16,
     'a.txt:6: machine panel has this row in line 3 already: a -> b sends request'),
    ('types t\nmachine m\na -> a takes t progress\nmachine n\nb -> a takes t progress\na -> a takes t progress\na -> a progress takes t\n', 26, 24,
     'a.txt:7: machine n has this row in line 6 already: a -> a takes t progress'),
    ('machine m\n' + MANY_ROWS[:-len('s15 -> s14\n')] + 's0 -> s0\n', 26, 4 + 6 * 254, 'a.txt:256: machine m has this row in line 2 already: s0 -> s0'),
    (HEAD + 'a -> a takes answer sends request\na -> a takes request sends answer\na -> a takes answer\na -> a sends request\n'
     'a -> a takes answer sends answer\na -> a\na -> a sends request takes answer progress\na -> a sends request takes answer\n', 26, 4 + 6 * 7,
     'a.txt:10: machine panel has this row in line 3 already: a -> a takes answer sends request'),
]
# A text, and the bytes that document 01 gives it.
GOOD = [
    (HEAD + 'waiting -> asked sends request\nasked -> waiting takes answer progress\nmachine probe\nidle -> measuring takes request\n'
     'measuring -> idle sends answer\n', '0202 0202 060100 1b010001 0202 0a0100 07010001'),
    ('\ufefftypes\trequest  answer\r\n\r\nmachine panel # the panel\r\nwaiting->asked sends request\r\n  asked->waiting progress takes answer#fresh\r\n'
     'machine probe\r\nidle->measuring takes request\r\nmeasuring->idle sends answer', '0202 0202 060100 1b010001 0202 0a0100 07010001'),
    ('machine m\nstates a\n', '0100 0100'),
    ('machine m\na -> a\n', '0100 0101 00'),
    ('machine m\na -> a progress\n', '0100 0101 10'),
    ('machine m\nstates c b\nstates a\na -> b\n', '0100 0301 0302 01'),
    ('types a\ntypes b\nmachine größe\nstates a\na -> a takes b\nmachine gro\u0308\u00dfe.2\nü→u\u0308\nü -> u\n', '0202 0101 0801 0202 00 0201'),
    ('types a b # two\rmachine m\r1 -> 2 takes a # the first\f2 -> 1 sends b\r', '0102 0202 0a0100 07010001'),
    ('types a\nmachine m\nx -> x sends a\nx -> x takes a\nx -> x sends a progress\nx -> x\nmachine n\nx -> x sends a\n', '0201 0104 0400 0800 1400 00 0101 0400'),
    ('types order receipt\nmachine feeder\nclosed -> open takes order sends receipt\nopen -> closed sends receipt progress takes order\n'
     'closed -> closed takes order sends order\n', '0102 0203 0e010100 1f01000100 0d000000'),
    ('types a b c\nmachine m\nx -> x sends c takes b\nx -> x takes c sends b\nx -> x takes b\nx -> x sends b takes b progress\n',
     '0103 0104 0c0201 0c0102 0801 1c0101'),
]
# A file with a fault in a row that takes and sends: the number and place of its refusal, and what is told of the place. The type sent comes first.
BOTH = [
    ('0102 0101 0c', 1, 5, 'the next would be the type sent of row 0, in machine m0'),
    ('0102 0101 0c01', 1, 6, 'the next would be the type taken of row 0, in machine m0'),
    ('0102 0101 0c0200', 6, 5, 'byte 5 is the type sent of row 0, in machine m0, and holds 02'),
    ('0102 0101 0c0102', 6, 6, 'byte 6 is the type taken of row 0, in machine m0, and holds 02'),
    ('0102 0101 2c0100', 4, 4, 'byte 4 is the map byte of row 0, in machine m0, and holds 2C'),
    ('0102 0102 0c0100 0c0100', 26, 7, 'row 1 repeats row 0, at byte 4: s0 -> s0 takes t0 sends t1'),
]


class Wrong(Exception):
    pass


def loaded(library, text):
    """The plant that the command reads from the file a.txt with this text or these bytes."""
    data = text.encode() if isinstance(text, str) else text
    with mock.patch.object(plant_files, 'bytes_of', lambda path: data):
        return plant_files.load(library, 'a.txt')


def refusal(library, text):
    """What is said of a text that is not accepted."""
    try:
        loaded(library, text)
    except outcomes.NotDone as wrong:
        return wrong
    raise Wrong('this text is accepted:\n' + text)


def texts(library):
    for text, line, owed in WRONG:
        got = refusal(library, text)
        if not isinstance(got, outcomes.BadText) or str(got) != 'a.txt:%d: %s' % (line, owed) or got.answer()['line'] != line:
            raise Wrong('of the text\n%sit is said: %s' % (text, got))
    if str(refusal(library, b'types a\n# \xe4\n')) != 'a.txt:2: expected text in UTF-8, found the byte E4' \
            or str(refusal(library, 'machine m'.encode('utf-16'))) != 'a.txt:1: expected text in UTF-8, found UTF-16':
        raise Wrong('bytes that are no UTF-8 are taken otherwise')
    for text, number, place, where in BEYOND:
        got = refusal(library, text)
        if not isinstance(got, outcomes.Refused) or (got.number, got.place, got.where) != (number, place, where):
            raise Wrong('of a text beyond the limits it is said: %s' % got)
    for text, owed in GOOD:
        if loaded(library, text).data != bytes.fromhex(owed):
            raise Wrong('the text\n%sbecomes %s' % (text, loaded(library, text).data.hex()))
    return len(WRONG) + 2 + len(BEYOND) + len(GOOD)


def files(library):
    for data, number, place, where in BOTH:
        got = refusal(library, bytes.fromhex(data))
        if not isinstance(got, outcomes.Refused) or (got.number, got.place) != (number, place) or not got.where.endswith(where):
            raise Wrong('of the file %s it is said: %s' % (data, got))


def same_rows(plant, other):
    """Whether the command read the rows that the independent implementation reads."""
    return plant.types == ['t%d' % t for t in range(other.types)] and [len(m.states) for m in plant.machines] == other.states \
        and [(m, *row) for m, row in plant.rows] == [tuple(row) for row in other.rows]


def number_or_none(word):
    return int(word) if word else None


def rows_in_drawing(plant):
    """The rows by their numbers, as the drawing has them: what a row takes stands before what it sends."""
    edge = r'(?m)^    m(\d+)s(\d+) -> m\1s(\d+) \[label="(\d+)(?: \?t(\d+))?(?: !t(\d+))?( ★)?"'
    return {int(number): (int(m), int(left), int(entered), number_or_none(sent), number_or_none(taken), bool(star))
            for m, left, entered, number, taken, sent, star in re.findall(edge, drawing.graphviz(plant))}


def there_and_back(library, independent, data):
    """A file, its rows, its drawing, its text, the text's file, and its text again."""
    plant, other = loaded(library, data), independent.plant(data)
    if not same_rows(plant, other):
        raise Wrong('the rows of %s are read otherwise' % data.hex())
    if rows_in_drawing(plant) != dict(enumerate(map(tuple, other.rows))):
        raise Wrong('the rows of %s are drawn otherwise' % data.hex())
    text = plant_text.printed(plant)
    again = loaded(library, text)
    if again.data != independent.file(other):
        raise Wrong('%s becomes the text\n%s\nand that the file %s' % (data.hex(), text, again.data.hex()))
    if plant_text.printed(again) != text or loaded(library, plant_text.printed(loaded(library, again.data))).data != again.data:
        raise Wrong('the text of %s changes on its way' % data.hex())


LABELS = {1: 'next', 2: 'count of ', 3: 'count of states', 4: 'map byte', 5: 'state', 6: 'type', 7: 'count of rows', 8: 'behind the last row',
          26: 'repeats row'}


def damaged(rng, data):
    data = bytearray(data)
    data[rng.randrange(len(data))] = rng.choice([0, 1, 12, 31, 32, 44, 64, 65, 255])
    return bytes(data[:rng.randrange(len(data) + 1)] if rng.random() < 0.5 else data) + (b'\0' if rng.random() < 0.1 else b'')


def is_no_text(data):
    """Whether there are control characters. What has none is text."""
    return any(byte < 32 and byte not in b'\t\n\f\r' for byte in data)


def refused_alike(library, independent, data):
    """A file is refused as the implementation refuses it, and what is told of the place fits the number."""
    try:
        independent.plant(data)
        return
    except Refused as refused:
        owed = refused.args
    if is_no_text(data):
        got = refusal(library, data)
        if not isinstance(got, outcomes.Refused) or (got.number, got.place) != owed or LABELS[got.number] not in got.where:
            raise Wrong('of the file %s, refused %d %d, it is said: %s' % (data.hex(), *owed, got))


def full_file(types, machines):
    """The file of a plant that leaves out no state."""
    data = [len(machines), types]
    for states, rows in machines:
        data += [states, len(rows)]
        for left, entered, sent, taken, progress in rows:
            data += [3 | 4 * (sent is not None) | 8 * (taken is not None) | 16 * progress, left, entered] + [t for t in (sent, taken) if t is not None]
    return bytes(data)


def twin_told(library, rng, types, machines):
    """With one of its rows once more further down in the machine, a file is refused there, and both rows are told."""
    sizes = [len(rows) for _, rows in machines]
    m = rng.randrange(len(machines))
    if not 0 < sizes[m] < 255 or sum(sizes) == 1024:
        return
    states, rows = machines[m]
    earlier, first = rng.randrange(sizes[m]), sum(sizes[:m])
    later = rng.randint(earlier + 1, sizes[m])
    data = full_file(types, machines[:m] + [(states, rows[:later] + [rows[earlier]] + rows[later:])] + machines[m + 1:])
    place, byte = [len(full_file(types, machines[:m] + [(states, rows[:k])])) for k in (later, earlier)]
    owed = '; row %d repeats row %d, at byte %d: ' % (first + later, first + earlier, byte)
    if is_no_text(data):
        got = refusal(library, data)
        if not isinstance(got, outcomes.Refused) or (got.number, got.place) != (26, place) or owed not in got.where:
            raise Wrong('of the file %s with a twin row at %d it is said: %s' % (data.hex(), place, got))


def drawn(rng, maker):
    """A plant of a shape, where a row that was drawn twice for a machine stands once."""
    types, machines = maker(rng)
    return types, [(states, list(dict.fromkeys(rows))) for states, rows in machines]


def round_trips(library, count, seed):
    rng, independent = random.Random(seed), Independent()
    makers, shares = zip(*evidence_plants.SHAPES)
    for _ in range(count):
        types, machines = drawn(rng, rng.choices(makers, shares)[0])
        data = evidence_plants.plant_file(rng, types, machines)
        there_and_back(library, independent, data)
        refused_alike(library, independent, damaged(rng, data))
        twin_told(library, rng, types, machines)


# ---- planted errors

def first_state_left_out(machine):
    return [state for state in plant_text_appearing(machine) if state != machine.states[0]] + machine.states[:1]


def does_both(row):
    return row.sent is not None and row.taken is not None


def exchanged(row):
    return row._replace(sent=row.taken, taken=row.sent)


def forgetful(row):
    """What is sent is forgotten where something is taken."""
    return row._replace(sent=None) if does_both(row) else row


def exchanged_if_both(row):
    return exchanged(row) if does_both(row) else row


def numbers_with(change, row_numbers=plant_files.row_numbers):
    """The list of numbers has a row with this change."""
    return lambda row: row_numbers(change(row))


def text_with(change, row_text=plant_text.row_text):
    return lambda plant, machine, row: row_text(plant, machine, change(row))


def label_with(change, label_of=drawing.label_of):
    return lambda plant, number, row: label_of(plant, number, change(row))


def file_with(change, row_from=plant_files.row_from):
    def changed(data, at, implied):
        row, end = row_from(data, at, implied)
        return change(row), end
    return changed


def sent_first(plant, number, row, label_of=drawing.label_of):
    """The label of a row with what it sends before what it takes."""
    words = label_of(plant, number, row).split(' ')
    return ' '.join(sorted(words, key=lambda word: 1 if word[0] == '!' else 2 if word[0] in '?★' else 0))


def implied_by_entered(data, at, implied, row_from=plant_files.row_from):
    """The state that the row before enters is taken for the one that it leaves."""
    row, end = row_from(data, at, implied)
    return row._replace(left=row.entered if not data[at] & 1 else row.left), end


def without_progress(row):
    return row._replace(progress=False)


def row_before(plant, number, twin_of=plant_files.twin_of):
    """A twin row is told as that of the row before it."""
    return number - 1, twin_of(plant, number)[1]


def one_too_far(data, byte_labels=plant_files.byte_labels):
    return byte_labels(data)[1:] + ['behind the last row']


plant_text_appearing = plant_text.appearing
PLANTED = [
    ('states are printed in another order', plant_text, 'appearing', first_state_left_out),
    ('states without rows are not printed', plant_text, 'appearing', lambda machine: machine.states),
    ('what is sent is written as taken', plant_files, 'row_numbers', numbers_with(exchanged)),
    ('the types of a row that takes and sends are written for each other', plant_files, 'row_numbers', numbers_with(exchanged_if_both)),
    ('what is sent is not written where something is taken', plant_files, 'row_numbers', numbers_with(forgetful)),
    ('the types of a row that takes and sends are read for each other', plant_files, 'row_from', file_with(exchanged_if_both)),
    ('the type taken is told before the type sent', plant_files, 'FIELDS', plant_files.FIELDS[:2] + plant_files.FIELDS[:1:-1]),
    ('the types of a row that takes and sends are printed for each other', plant_text, 'row_text', text_with(exchanged_if_both)),
    ('what is sent is not printed where something is taken', plant_text, 'row_text', text_with(forgetful)),
    ('the types of a row that takes and sends are drawn for each other', drawing, 'label_of', label_with(exchanged_if_both)),
    ('what is sent is not drawn where something is taken', drawing, 'label_of', label_with(forgetful)),
    ('what is sent is drawn before what is taken', drawing, 'label_of', sent_first),
    ('a row leaves the state that it enters', plant_files, 'row_from', implied_by_entered),
    ('progress is not printed', plant_text, 'row_text', text_with(without_progress)),
    ('progress is not drawn', drawing, 'label_of', label_with(without_progress)),
    ('a byte is told as the one behind it', plant_files, 'byte_labels', one_too_far),
    ('a twin row is told as that of the row before it', plant_files, 'twin_of', row_before),
    ('any name is a name', plant_text, 'NAME', mock.Mock(fullmatch=lambda word: True)),
    ('every file is text', plant_files, 'is_text', lambda data: True),
    ('numbers wrap at their width', binding, 'fitting', lambda number, kind: number),
]


def catches(library):
    """How many planted errors are found."""
    for name, module, attribute, wrong in PLANTED:
        try:
            with mock.patch.object(module, attribute, wrong):
                texts(library)
                files(library)
                round_trips(library, 300, 1)
                if library.weigh(evidence_plants.PLANT_A, [65538, 1], binding.room('uint16_t', 64)).number != 10:
                    raise Wrong('65,538 is taken for 2')
        except (Wrong, outcomes.NotDone):
            continue
        sys.exit('command.py: the planted error "%s" is not found' % name)
    return len(PLANTED)


def hold_binding(library):
    """A list that a call writes to must be lent, and a call takes as many lists and numbers as its header says."""
    for values in (([2, 1], [0] * 64), ([2, 1],)):
        try:
            sys.exit('command.py: a call is made with %s: %s' % (values, library.weigh(evidence_plants.PLANT_A, *values)))
        except TypeError:
            pass


def hold(seed):
    library = binding.load()
    hold_binding(library)
    try:
        held = texts(library)
        files(library)
        round_trips(library, PLANTS, seed)
    except Wrong as wrong:
        sys.exit('command.py: %s' % wrong)
    return held, PLANTS, catches(library)
