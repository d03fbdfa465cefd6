"""Test the C interface: the header as C99 and as C++, every function at its edges, the Rust wrappers, the programs of examples/ in C and Rust, revisions,
and that the library has no constant tables.

The library is the one of dist/, made by tools/dist. What is expected is written here, in interface.c and in interface.rs from the scope
document. The calls run once more under valgrind, the Rust program is built, symbols of the library are renamed, and its sections
listed, where valgrind, rustc, objcopy and size are installed; the last line says what was tried and what is missing.

    python3 tests/interface.py
"""
import os
import re
import shutil
import subprocess
import sys
import tempfile
import threading

import figures

ROOT = os.path.dirname(os.path.dirname(os.path.abspath(__file__)))
STRICT = ['-O2', '-Wall', '-Wextra', '-Werror', '-pedantic', '-Idist']
RUST = ['rustc', '-O', '-D', 'warnings']
CALLS = ('read', 'weigh', 'quote', 'list', 'confirm', 'write', 'watch_open', 'watch_row', 'watch_loss', 'watch_doubling')
PROGRAMS = ('cabinet', 'designer', 'panel')

# Words that are no number from 0 to 1,000,000: none may be taken for another number. The program in Rust gets the last as bytes that are no UTF-8.
NO_AMOUNTS = ['-1', '-0', 'abc', '1x', 'x1', ' 1', '1 ', '+1', '', '0x1', '1e3', '1.0', '1,0', '1000001', '4294967295', '4294967296', '4294967297',
              '18446744073709551616', '18446744073709551617', '100000000000000000000000000001', '\u0661', '\udcff']
AMOUNT = 'refused with 21 at %d: a content, G or D is not a number up to 1,000,000'

# Folder of examples/, G, D and contents, the exit code, and what a cabinet program prints.
RUNS = [
    ('plant_a', ['1', '0', '3', '4'], 0, 'at most 39 steps without a fresh reading (price class 6)'),
    ('plant_b', ['1', '0', '3', '4'], 1, 'no ceiling: these rows can go on for ever without a fresh reading: 0 1'),
    ('detour', ['1', '0', '3', '4'], 1, 'no ceiling: these rows can go on for ever without a fresh reading: 9 13'),
    ('feeder', ['1', '0', '3', '4'], 0, 'at most 71 steps without a fresh reading (price class 7)'),
    ('twin_row', ['1', '0', '3', '4'], 2, 'refused with 26 at 20: a row is equal to an earlier row of its machine'),
    ('plant_a', ['1', '0', '3'], 2, 'refused with 20 at 0: there is not one content for each type'),
    ('plant_a', ['1', '0', '0000000000000000000000000000000000000003', '04'], 0, 'at most 39 steps without a fresh reading (price class 6)'),
    ('plant_a', ['1000000', '0', '3', '4'], 0, 'at most 9000030 steps without a fresh reading (price class 24)'),
    ('two_clients_in_turn', ['0', '0', '0', '0', '0', '0', '0', '0'], 0, 'at most 143 steps without a fresh reading (price class 8)'),
    # With doublings, each of which adds the most states times the largest weight.
    ('plant_a', ['1', '3', '3', '4'], 0, 'at most 51 steps without a fresh reading (price class 6)'),
    ('plant_a', ['0', '1000000', '0', '0'], 0, 'at most 4000010 steps without a fresh reading (price class 22)'),
    ('feeder', ['1', '1', '3', '4'], 0, 'at most 77 steps without a fresh reading (price class 7)'),
    ('two_clients_in_turn', ['0', '2', '0', '0', '0', '0', '0', '0'], 0, 'at most 167 steps without a fresh reading (price class 8)'),
    # Arguments without D, as up to version 5: the first content is taken for it, and one is missing.
    ('plant_a', ['1', '3', '4'], 2, 'refused with 20 at 0: there is not one content for each type'),
    ('no_such_folder', ['0', '0'], 2, 'refused with 1 at 0: the plant file ends too soon'),
    # A word that is no number is judged in the order of the call: after the plant and the counts, contents before G, G before D, before the weights.
    ('no_such_folder', ['abc', 'abc'], 2, 'refused with 1 at 0: the plant file ends too soon'),
    ('plant_a', ['abc', 'abc', '3'], 2, 'refused with 20 at 0: there is not one content for each type'),
    ('plant_a', ['1', '0', '3', '4', 'abc'], 2, 'refused with 20 at 0: there is not one content for each type'),
    ('plant_a', ['abc', 'abc', '3', '-1'], 2, AMOUNT % 1),
    ('plant_a', ['abc', 'abc', '3', '4'], 2, AMOUNT % 2),
    ('plant_b', ['1', '0', '4294967296', '4'], 2, AMOUNT % 0),
    ('plant_b', ['1', '4294967296', '3', '4'], 2, AMOUNT % 3),
] + [('plant_a', [word, '0', '3', '4'], 2, AMOUNT % 2) for word in NO_AMOUNTS] + [('plant_a', ['1', word, '3', '4'], 2, AMOUNT % 3) for word in NO_AMOUNTS] + [
    ('plant_a', ['1', '0', word, '4'], 2, AMOUNT % 0) for word in NO_AMOUNTS] + [('plant_a', ['1', '0', '3', word], 2, AMOUNT % 1) for word in NO_AMOUNTS]

# The folders of examples/ with a list; their plant files are the shortest.
LISTED = ['plant_a', 'plant_b', 'two_clients', 'two_clients_in_turn', 'detour', 'feeder']
ROW_NUMBERS = 6
LIST_A = '2 2 2 2 0 1 1 0 0 0 1 0 2 1 1 0 2 2 0 1 2 0 0 0 1 0 1 1 0 0'.split()
# The same as up to version 4, with five numbers a row: what stands in the place of the first row's sixth is the state that the second leaves.
FIVES_A = '2 2 2 2 0 1 1 0 0 1 0 2 1 1 2 2 0 1 2 0 0 1 0 1 1 0'
LINES_A = '\n'.join(LIST_A)
LIST_LENGTH = 'refused with 23 at %d: the list of numbers ends early or goes on (%s)'
LIST_NUMBER = 'refused with 24 at %d: a number of the list is outside its values or the limits (%s)'
TWIN_ROW = 'refused with 26 at %d: a row is equal to an earlier row of its machine (line %d; the earlier row is in line %d)'
# The longest list, and its file: no state can be left out.
LONGEST_LIST = ' '.join(str(x) for x in [16, 64] + ([64, 64] + [x for k in range(64) for x in ((k + 1) % 64, (k + 2) % 64, 3, k, 0, 63 - k)]) * 16)
LONGEST_FILE = bytes([16, 64] + ([64, 64] + [x for k in range(64) for x in (0x0F, (k + 1) % 64, (k + 2) % 64, 63 - k, k)]) * 16)

# Words of which none may be taken for a number that is right.
NO_NUMBERS = ['-1', '-0', '+1', 'abc', '1x', 'x1', '0x1', '1e0', '1.0', '1,0', ':', '/', '1\v1', '1\0', '256', '65535', '65536', '65537', '4294967296',
              '4294967297', '18446744073709551616', '18446744073709551617', '100000000000000000000000000001', '\u0661', '\ufeff1', '\udcff']


# What a panel program prints: of an event that is refused, and of a line that says none.
NO_ROW, NO_TYPE = ': refused with 27: there is no such row, or it cannot happen now', ': refused with 28: there is no such type, or no message of it is present'
NO_MORE = ': refused with 29: 1,000,000 of its sort were counted, and no more are'
NO_EVENT = 'line %d: expected row, loss or doubling and a number'
PANEL_A = ['3', '4']
# Lines that say nothing, of which the longest have 80 bytes before the comment, and lines that say row 0, with what is printed for its number.
EMPTY_LINES = ['', ' ', '\t', '\r', ' \t \r', '#', '# row 0', ' \t#row 0', '## row 0', '#\udcff', '#\0', 80 * ' ', 80 * ' ' + '#', '#' + 200 * 'x']
ROW_0_LINES = [('row 0', '0'), (' row 0', '0'), ('row\t0', '0'), ('\t row  \t 0 \t', '0'), ('row 0\r', '0'), ('row 0#', '0'), ('row 0 # row 1', '0'),
               ('row 0 #\udcff\0', '0'), ('row 000', '000'), ('row ' + 76 * '0', 76 * '0'), (70 * ' ' + 'row 0     ', '0'), ('row 0 #' + 200 * 'x', '0')]
# Lines that say no event: none may be taken for row 0, for a loss or for a doubling.
NO_EVENTS = ['row', 'loss', 'doubling', '0', 'row 0 0', 'row 0 row 0', 'row 0,', 'row -0', 'row +0', 'row 0x0', 'row 0.0', 'row 0e0', 'row O', 'row x',
             'row 0x', 'row x0', 'row \u0660', 'row \udcff', 'row 0\udcff', 'row 0\0', 'row \0', 'row\0 0', '\0', '\0row 0', 'row\v0', 'row\f0', 'row\xa00',
             '\ufeffrow 0', 'row0', 'rows 0', 'Row 0', 'ROW 0', 'ro 0', 'row: 0', 'row=0', '-row 0', 'loss 0 0', 'loss -1', 'loss x', 'Loss 0', 'losses 0',
             'doubling 0 0', 'doubling -1', 'doubling one', 'double 0', 'doublings 0', 'request', 'row 0; row 1', 81 * ' ', 'row ' + 77 * '0',
             76 * ' ' + 'row 0', 'row 0' + 76 * ' ', 100000 * 'x']
# Numbers of rows and types that plant A lacks. Some would be 0 or 1, if they wrapped at their width.
LACKING = ['4', '63', '64', '255', '256', '257', '65535', '65536', '1000000', '4294967295', '4294967296', '4294967297', '18446744073709551615',
           '18446744073709551616', '18446744073709551617', '100000000000000000000000000000']


def panel_events():
    """Lines on plant A, opened with 3 requests and 4 answers, what they are owed behind `30 steps left`, and the exit code."""
    yield '', [], 0
    yield 'row 0\nrow 0\nrow 1\ndoubling 0\n', ['row 0: 29 steps left', 'row 0' + NO_ROW, 'row 1: 38 steps left', 'doubling 0: 42 steps left'], 1
    yield 'row 0\nrow 1\ndoubling 0', ['row 0: 29 steps left', 'row 1: 38 steps left', 'doubling 0: 42 steps left'], 0
    yield 'row 2\nrow 3\nrow 2\nrow 2', ['row 2: 29 steps left', 'row 3: 28 steps left', 'row 2: 27 steps left', 'row 2' + NO_ROW], 1
    yield 'loss 0\n' * 4 + 'row 2\ndoubling 0\nloss 1', ['loss 0: 30 steps left'] * 3 + [
        'loss 0' + NO_TYPE, 'row 2' + NO_ROW, 'doubling 0' + NO_TYPE, 'loss 1: 30 steps left'], 1
    yield 'loss 1\n' * 4 + 'row 0\nrow 1\nrow 2\nrow 3\nrow 1', ['loss 1: 30 steps left'] * 4 + [
        'row 0: 29 steps left', 'row 1' + NO_ROW, 'row 2: 28 steps left', 'row 3: 27 steps left', 'row 1: 36 steps left'], 1
    for line in EMPTY_LINES:
        yield 'row 0\n%s\nrow 1' % line, ['row 0: 29 steps left', 'row 1: 38 steps left'], 0
        yield line, [], 0
    for line, number in ROW_0_LINES:
        yield line + '\nrow 1\n' + line, ['row %s: 29 steps left' % number, 'row 1: 38 steps left', 'row %s: 37 steps left' % number], 0
    for line in NO_EVENTS:
        yield '\n%s\nrow 0\n%s' % (line, line), [NO_EVENT % 2, 'row 0: 29 steps left', NO_EVENT % 4], 1
    for number in LACKING:
        yield 'row %s\nloss %s\ndoubling %s\nrow 0' % (number, number, number), [
            'row ' + number + NO_ROW, 'loss ' + number + NO_TYPE, 'doubling ' + number + NO_TYPE, 'row 0: 29 steps left'], 1


# What examples/README.md shows.
SHOWN_PANEL = ('plant_a', PANEL_A, 'row 0\nrow 0\nrow 1\ndoubling 0\nloss 1\nrow 2\n', 1,
               ['30 steps left', 'row 0: 29 steps left', 'row 0' + NO_ROW, 'row 1: 38 steps left', 'doubling 0: 42 steps left', 'loss 1: 42 steps left',
                'row 2: 41 steps left'])
# Folder of examples/, contents, lines, the exit code, and what a panel program prints. Behind an opening that is refused no line is looked at.
PANELS = [SHOWN_PANEL] + [('plant_a', PANEL_A, lines, code, ['30 steps left'] + owed) for lines, owed, code in panel_events()] + [
    ('plant_a', ['0', '0'], 'row 0\n', 0, ['10 steps left', 'row 0: 9 steps left']),
    ('plant_a', ['1000000', '1000000'], 'row 0\n', 0, ['6000010 steps left', 'row 0: 6000009 steps left']),
    # The feeder takes an order and sends its receipt, which is there then; the control takes it.
    ('feeder', ['1', '0'], 'row 3\nrow 3\nrow 0\nrow 1\nrow 1\nrow 5\nrow 4\nrow 3\nrow 4\n', 1,
     ['27 steps left', 'row 3: 26 steps left', 'row 3' + NO_ROW, 'row 0: 25 steps left', 'row 1: 45 steps left', 'row 1' + NO_ROW, 'row 5: 44 steps left',
      'row 4' + NO_ROW, 'row 3: 43 steps left', 'row 4' + NO_ROW]),
    # A server that serves in turn, and six messages of a type that weighs 0.
    ('two_clients_in_turn', ['0', '6', '0', '0', '0', '0'], 'row 0\nrow 1\nrow 2\nloss 5\ndoubling 1\n', 1,
     ['143 steps left', 'row 0: 142 steps left', 'row 1: 141 steps left', 'row 2: 218 steps left', 'loss 5' + NO_TYPE, 'doubling 1: 230 steps left']),
    ('plant_a', ['3'], 'row 0\n', 2, ['refused with 20 at 0: there is not one content for each type']),
    ('plant_a', ['3', '4', '5'], '', 2, ['refused with 20 at 0: there is not one content for each type']),
    ('plant_a', 65 * ['3'], '', 2, ['refused with 20 at 0: there is not one content for each type']),
    ('plant_a', 100 * ['3'], '', 2, ['refused with 20 at 0: there is not one content for each type']),
    ('plant_b', PANEL_A, 'row 0\n', 2, ['refused with 22 at 0: the weights do not pass']),
    ('twin_row', PANEL_A, 'row 0\n', 2, ['refused with 26 at 20: a row is equal to an earlier row of its machine']),
    ('no_such_folder', [], '', 2, ['refused with 1 at 0: the plant file ends too soon']),
    ('no_such_folder', ['abc'], '', 2, ['refused with 1 at 0: the plant file ends too soon']),
    ('plant_b', ['3', 'abc'], '', 2, [AMOUNT % 1]),
] + [('plant_a', [word, '4'], 'row 0', 2, [AMOUNT % 0]) for word in NO_AMOUNTS] + [('plant_a', ['3', word], '', 2, [AMOUNT % 1]) for word in NO_AMOUNTS]


def in_folder(folder, name):
    with open(os.path.join(ROOT, 'examples', folder, name), 'rb') as source:
        return source.read()


# What examples/README.md shows: a row of plant A that enters a third state, and one that stands there twice.
SHOWN = [(in_folder('plant_a', 'plant.list.txt').replace(b'\n0 1 1 0 0 ', b'\n0 2 1 0 0 '), None, LIST_NUMBER % (5, 'line 8')),
         (in_folder('twin_row', 'plant.list.txt'), None, TWIN_ROW % (30, 15, 13))]


def changed(at, word):
    """Plant A's list with another word at one place, each word on its line."""
    return '\n'.join(LIST_A[:at] + [word] + LIST_A[at + 1:])


def twin_lists():
    """Lists with a twin row: on the line of the earlier row, next to it and far from it; rows over six lines; the row in another machine, too."""
    yield '1 0 1 2 0 0 0 0 0 0 0 0 0 0 0 0', None, TWIN_ROW % (10, 1, 1)
    yield '1 0 1 2\n0 0 0 0 0 0\n0 0 0 0 0 0 7', None, TWIN_ROW % (10, 3, 2)
    yield '1 0 1 2 0 0 0 0 0 0 0 0 0 0 0 0'.replace(' ', '\n'), None, TWIN_ROW % (10, 11, 5)
    yield '2 0\n1 1\n0 0 0 0 0 0\n1 3\n0 0 0 0 0 0\n0 0 0 0 1 0\n0 0 0 0 0 0', None, TWIN_ROW % (24, 7, 5)
    # Behind rows that differ from it in the sixth number alone, and in the fourth.
    yield '1 2 1 4\n0 0 3 1 0 0\n0 0 3 1 0 1\n0 0 3 0 0 0\n0 0 3 1 0 0', None, TWIN_ROW % (22, 5, 2)
    # The last of 64 rows is the first of its machine once more.
    words = LONGEST_LIST.split()
    last, first = len(words) - ROW_NUMBERS, len(words) - 64 * ROW_NUMBERS
    yield '\n'.join(words[:last] + words[first:first + ROW_NUMBERS]), None, TWIN_ROW % (last, last + 1, first + 1)


def lists():
    """The text of a list, or None where there is no such file, and what a designer program owes: the file, or none, and the line it prints."""
    plant_a, longest = in_folder('plant_a', 'plant.bin'), len(LONGEST_LIST.split())
    for folder in LISTED:
        plant = in_folder(folder, 'plant.bin')
        yield in_folder(folder, 'plant.list.txt'), plant, 'wrote %d bytes' % len(plant)
    for text in (LINES_A, LINES_A + '\n', '\n \n' + LINES_A, LINES_A.replace('\n', '\r\n'), LINES_A.replace('\n', ' \t'), LINES_A.replace('\n', '#1 2\n'),
                 '#' + ' '.join(LIST_A) + '\n' + LINES_A + '#', changed(3, '0' * 40 + '2'), LINES_A + ' # \u0661 \udcff'):
        yield text, plant_a, 'wrote 20 bytes'
    yield LONGEST_LIST, LONGEST_FILE, 'wrote 5154 bytes'
    yield '1 2 1 1\n0 0 3 1 0 0', bytes([1, 2, 1, 1, 0x0C, 0, 1]), 'wrote 7 bytes'
    yield '1 2 1 1\n0 0 3 1 0', None, LIST_LENGTH % (9, 'after line 2')
    yield '1 2 1 1\n0 0 4 1 0 0', None, LIST_NUMBER % (6, 'line 2')
    yield '1 2 1 1\n0 0 3 1 0 2', None, LIST_NUMBER % (9, 'line 2')
    yield FIVES_A, None, LIST_NUMBER % (9, 'line 1')
    for text in (None, '', '\n\n', '# 1 0 1 0', '#'):
        yield text, None, LIST_LENGTH % (0, 'no number')
    yield '\n'.join(LIST_A[:-1]) + '\n\n# 0\n', None, LIST_LENGTH % (29, 'after line 29')
    yield LINES_A + '\n\n0\n0\n', None, LIST_LENGTH % (30, 'line 32')
    yield LINES_A + '\nabc', None, LIST_LENGTH % (30, 'line 31')
    yield LINES_A + 10000 * '\n0', None, LIST_LENGTH % (30, 'line 31')
    yield LONGEST_LIST.rpartition(' ')[0], None, LIST_LENGTH % (longest - 1, 'after line 1')
    yield LONGEST_LIST + '\n0', None, LIST_LENGTH % (longest, 'line 2')
    yield LONGEST_LIST + 1000 * '\nabc', None, LIST_LENGTH % (longest, 'line 2')
    yield from SHOWN
    yield from twin_lists()
    yield '\n17', None, LIST_NUMBER % (0, 'line 2')
    yield changed(6, 'abc') + 10000 * '\n0', None, LIST_NUMBER % (6, 'line 7')
    # A word that is no number is wrong at every sort of place: counts, states, rows, and each number of a row.
    for word in NO_NUMBERS:
        for at in (0, 1, 2, 3, 4, 5, 6, 7, 8, 9, len(LIST_A) - 1):
            yield changed(at, word), None, LIST_NUMBER % (at, 'line %d' % (at + 1))


# The same with the text as bytes, and with a plant file there already or not.
LISTS = [(text.encode(errors='surrogateescape') if isinstance(text, str) else text, before, plant, line)
         for text, plant, line in lists() for before in (None, b'a longer file of before ' * 200)]


def run(command, **more):
    done = subprocess.run(command, cwd=ROOT, capture_output=True, text=True, **more)
    if done.returncode != 0:
        sys.exit('interface.py: %s failed:\n%s' % (command if isinstance(command, str) else ' '.join(command), (done.stdout + done.stderr)[-3000:]))
    return done.stdout


def cabinet_run(program, folder, numbers):
    files = [os.path.join('examples', folder, name) for name in ('plant.bin', 'weights.bin')]
    return subprocess.run([program] + files + numbers, cwd=ROOT, capture_output=True, text=True)


def turned(line):
    """A line with a cycle, which may begin with any of its rows, turned to begin with the lowest."""
    words, _, rows = line.partition('fresh reading: ')
    rows = rows.split(' ')
    low = rows.index(min(rows, key=lambda row: (len(row), row)))
    return words + ' '.join(rows[low:] + rows[:low])


def hold_runs(program, runs):
    for folder, numbers, code, line in runs:
        done = cabinet_run(program, folder, numbers)
        if done.returncode != code or done.stdout[-1:] != '\n' or turned(done.stdout[:-1]) != turned(line) or done.stderr:
            sys.exit('interface.py: %s on %s %s: exit code %d, %s' % (program, folder, numbers, done.returncode, done.stdout + done.stderr))


def panel_command(program, folder, contents):
    return [program] + [os.path.join('examples', folder, name) for name in ('plant.bin', 'weights.bin')] + contents


def hold_panels(program, cases):
    for folder, contents, lines, code, owed in cases:
        done = subprocess.run(panel_command(program, folder, contents), cwd=ROOT, input=lines.encode(errors='surrogateescape'), capture_output=True)
        if (done.returncode, done.stdout.decode().split('\n'), done.stderr) != (code, owed + [''], b''):
            sys.exit('interface.py: %s on %s %s with the lines %r: exit code %d, %s, where this is owed: %s'
                     % (program, folder, contents, lines[:300], done.returncode, done.stdout + done.stderr, owed))


def hold_at_once(program):
    """A panel program answers each line as it comes, before the next. One that kept its answers would be ended here, and all of them be missing."""
    with subprocess.Popen(panel_command(program, 'plant_a', PANEL_A), cwd=ROOT, stdin=subprocess.PIPE, stdout=subprocess.PIPE) as panel:
        waiting = threading.Timer(20, panel.kill)
        waiting.start()
        got = [panel.stdout.readline()]
        for line in (b'row 0\n', b'row 0\n', b'\nrow\n', b'loss 1\n'):
            panel.stdin.write(line)
            panel.stdin.flush()
            got.append(panel.stdout.readline())
        panel.stdin.close()
        waiting.cancel()
    owed = ['30 steps left', 'row 0: 29 steps left', 'row 0' + NO_ROW, NO_EVENT % 4, 'loss 1: 29 steps left']
    if b''.join(got).decode().split('\n') != owed + [''] or panel.returncode != 1:
        sys.exit('interface.py: %s does not answer line by line: %s, exit code %d' % (program, got, panel.returncode))


def hold_unprinted(program):
    """A panel program that cannot print ends with 2."""
    if os.path.exists('/dev/full'):
        with open('/dev/full', 'wb') as full:
            done = subprocess.run(panel_command(program, 'plant_a', PANEL_A), cwd=ROOT, input=b'row 0\n', stdout=full)
        if done.returncode != 2:
            sys.exit('interface.py: %s that cannot print ends with %d' % (program, done.returncode))


def hold_panel_limits(program, folder):
    """A panel program after 1,000,000 progress rows."""
    plant, weights = [os.path.join(folder, name) for name in ('million.bin', 'million_weights.bin')]
    put(plant, bytes([1, 1, 1, 1, 0x10]))
    put(weights, bytes([0, 0]))
    done = subprocess.run([program, plant, weights, '1'], input=1000001 * b'row 0\n', capture_output=True)
    if done.returncode != 1 or not done.stdout.endswith(b'\nrow 0: 0 steps left\nrow 0%s\n' % NO_MORE.encode()) or done.stdout.count(b'\n') != 1000002:
        sys.exit('interface.py: %s after 1,000,000 progress rows: exit code %d, %s' % (program, done.returncode, done.stdout[-200:]))


def put(path, data):
    """Make a file, or see to it that there is none."""
    if os.path.exists(path):
        os.remove(path)
    if data is not None:
        with open(path, 'wb') as out:
            out.write(data)


def hold_lists(program, folder, cases):
    """What a designer program prints for lists, its exit code, and the plant file afterwards: with a refusal that of before, or none."""
    listed, plant = os.path.join(folder, 'list.txt'), os.path.join(folder, 'plant.bin')
    for text, before, owed, line in cases:
        put(listed, text)
        put(plant, before)
        done = subprocess.run([program, listed, plant], cwd=ROOT, capture_output=True, text=True)
        after = None
        if os.path.exists(plant):
            with open(plant, 'rb') as source:
                after = source.read()
        if (done.returncode, done.stdout, done.stderr, after) != (2 if owed is None else 0, line + '\n', '', before if owed is None else owed):
            sys.exit('interface.py: %s on %s, where %s is owed: exit code %d, %s; the file is %s'
                     % (program, (text or b'no file')[:300], line, done.returncode, done.stdout + done.stderr, after and after[:40]))


def hold_unwritten(program, folder):
    """A plant file that cannot be written: 1, and no word of a file written."""
    for plant in [os.path.join(folder, 'no_such_folder', 'plant.bin')] + [full for full in ['/dev/full'] if os.path.exists(full)]:
        done = subprocess.run([program, 'examples/plant_a/plant.list.txt', plant], cwd=ROOT, capture_output=True, text=True)
        if (done.returncode, done.stdout, done.stderr) != (1, '', 'designer: %s cannot be written\n' % plant):
            sys.exit('interface.py: %s with %s: exit code %d, %s' % (program, plant, done.returncode, done.stdout + done.stderr))


def hold_calls(folder):
    """interface.c as C++ and as C, and under valgrind; interface.rs."""
    test = os.path.join(folder, 'interface')
    run(['g++', '-x', 'c++'] + STRICT + ['tests/interface.c', '-x', 'none', 'dist/libhemtaluq.a', '-o', test])
    run([test])
    run(['gcc', '-std=c99'] + STRICT + ['tests/interface.c', 'dist/libhemtaluq.a', '-o', test])
    print(run([test]).strip())
    if shutil.which('valgrind'):
        run(['valgrind', '-q', '--error-exitcode=9', test])
    if shutil.which('rustc'):
        run(RUST + ['tests/interface.rs', '-Ldist', '-o', test])
        run([test])


def hold_shown():
    """The lines that examples/README.md shows are those of runs."""
    with open(os.path.join(ROOT, 'examples', 'README.md'), encoding='utf-8') as source:
        shown = re.findall(r'(?m)^    (.*)$', source.read())
    owed = [SHOWN[0][2], *SHOWN_PANEL[4], SHOWN[1][2]]
    if shown != owed:
        sys.exit('interface.py: examples/README.md shows %s, where the programs print %s' % (shown, owed))


def built(folder, name):
    """A program of examples/ in C and in Rust, compiled without a warning."""
    program = os.path.join(folder, name)
    run(['gcc', '-std=c99'] + STRICT + ['examples/%s/%s.c' % (name, name), 'dist/libhemtaluq.a', '-o', program])
    yield program
    if shutil.which('rustc'):
        run(RUST + ['examples/%s/%s.rs' % (name, name), '-Ldist', '-o', program])
        yield program


def hold_programs(folder):
    """The programs of examples/, compiled without a warning, and by the lines of README.md as they stand there."""
    for program in built(folder, 'cabinet'):
        hold_runs(program, RUNS)
    hold_shown()
    for program in built(folder, 'designer'):
        hold_lists(program, folder, LISTS)
        hold_unwritten(program, folder)
    for i, program in enumerate(built(folder, 'panel')):
        hold_panels(program, PANELS)
        hold_at_once(program)
        hold_unprinted(program)
        if i == 0:    # A million lines take seconds; that the program in Rust has the words, interface.rs holds.
            hold_panel_limits(program, folder)
    hold_build_lines(folder)


def hold_build_lines(folder):
    """README.md has the lines that compile each program, and they do."""
    first = {'cabinet': lambda program: hold_runs(program, RUNS[:2]), 'designer': lambda program: hold_lists(program, folder, LISTS[:2]),
             'panel': lambda program: hold_panels(program, PANELS[:2])}
    with open(os.path.join(ROOT, 'README.md'), encoding='utf-8') as source:
        lines = re.findall(r'(?m)^    ((?:gcc|rustc) .*)$', source.read())
    named = [(line.split()[0], program) for line in lines for program in re.findall(r' examples/(\w+)/', line)]
    if named != [(compiler, program) for program in PROGRAMS for compiler in ('gcc', 'rustc')]:
        sys.exit('interface.py: README.md has not for each program one line for gcc and then one for rustc: %s' % lines)
    for line, (compiler, name) in zip(lines, named):
        if shutil.which(compiler):
            run(line, shell=True)
            first[name](os.path.join(ROOT, line.split(' -o ')[1]))


def must_not_link(command, symbol):
    """The command fails, and of the library's symbols exactly this one is missing."""
    done = subprocess.run(command, cwd=ROOT, capture_output=True, text=True)
    missing = set(re.findall(r"undefined (?:reference to|symbol:?) [`']?(hemtaluq_\w+)", done.stderr))
    if done.returncode == 0 or missing != {symbol}:
        sys.exit('interface.py: %s: exit code %d, missing %s, where %s was to be missing' % (' '.join(command), done.returncode, missing or 'nothing', symbol))


def hold_old_header(folder):
    """An object of before the revisions does not link with the library."""
    run(['gcc', '-c', 'tests/data/before_revisions.c', '-o', os.path.join(folder, 'before.o')])
    must_not_link(['gcc', os.path.join(folder, 'before.o'), 'dist/libhemtaluq.a', '-o', os.path.join(folder, 'before')], 'hemtaluq_weigh')


def renamed(folder, name, other):
    """A folder with a copy of the library in which one symbol has another name."""
    made = os.path.join(folder, other)
    os.makedirs(made)
    run(['objcopy', '--redefine-sym', '%s=%s' % (name, other), 'dist/libhemtaluq.a', os.path.join(made, 'libhemtaluq.a')])
    return made


def symbol(call, revision):
    return 'hemtaluq_%s_v%d' % (call, revision)


def header():
    with open(os.path.join(ROOT, 'dist', 'hemtaluq.h'), encoding='utf-8') as source:
        return source.read()


def revisions():
    """The revision of each call, as the header's macros have them, or where an inline function makes the call, its declarations."""
    found = {call: int(number) for call, named, number in re.findall(r'(?m)^#define hemtaluq_(\w+) hemtaluq_(\w+)_v(\d+)$', header()) if call == named}
    found.update({call: int(number) for call, number in re.findall(r'(?m)^\w+ hemtaluq_(\w+)_v(\d+)\(', header())})
    if sorted(found) != sorted(CALLS):
        sys.exit('interface.py: the header has revisions of %s' % sorted(found))
    return found


def compiled_with(folder, call, other):
    """interface.c, compiled with a header in which one call has another revision."""
    place, test = os.path.join(folder, 'header', symbol(call, other)), os.path.join(folder, 'other.o')
    os.makedirs(place)
    put(os.path.join(place, 'hemtaluq.h'), header().replace(symbol(call, revisions()[call]), symbol(call, other)).encode())
    run(['gcc', '-std=c99', '-I' + place] + STRICT + ['-O0', '-c', 'tests/interface.c', '-o', test])
    return test


def hold_revisions(folder):
    """With the revision of one call raised, the library does not link with an object compiled with the header, or with the wrappers in Rust. An
    object compiled with a header in which a call has an earlier revision, or the next one, does not link with the library."""
    test, program = os.path.join(folder, 'interface.o'), os.path.join(folder, 'program')
    run(['gcc', '-std=c99'] + STRICT + ['-c', 'tests/interface.c', '-o', test])
    run(['gcc', test, 'dist/libhemtaluq.a', '-o', program])
    for call, revision in revisions().items():
        raised = renamed(folder, symbol(call, revision), symbol(call, revision + 1))
        must_not_link(['gcc', test, os.path.join(raised, 'libhemtaluq.a'), '-o', program], symbol(call, revision))
        if shutil.which('rustc'):
            must_not_link(RUST + ['tests/interface.rs', '-L' + raised, '-o', program], symbol(call, revision))
        for other in [*range(1, revision), revision + 1]:
            must_not_link(['gcc', compiled_with(folder, call, other), 'dist/libhemtaluq.a', '-o', program], symbol(call, other))


def hold_other_version(folder):
    """With a library of another version the programs of examples/ end with 3 and print no line; the designer's writes no file."""
    other, program, plant = [os.path.join(folder, name) for name in ('other.o', 'program', 'unwritten.bin')]
    library = renamed(folder, 'hemtaluq_version', 'hemtaluq_version_of_before')
    run(['gcc', '-x', 'c', '-', '-c', '-o', other], input='unsigned hemtaluq_version(void) { return 1; }\n')
    files = ['examples/plant_a/plant.bin', 'examples/plant_a/weights.bin']
    given = {'cabinet': files + ['1', '0', '3', '4'], 'designer': ['examples/plant_a/plant.list.txt', plant], 'panel': files + PANEL_A}
    for name in PROGRAMS:
        source = 'examples/%s/%s' % (name, name)
        commands = [['gcc', '-Idist', source + '.c', other, os.path.join(library, 'libhemtaluq.a'), '-o', program]]
        if shutil.which('rustc'):
            commands.append(RUST + [source + '.rs', '-L' + library, '-C', 'link-arg=' + other, '-o', program])
        for command in commands:
            run(command)
            done = subprocess.run([program] + given[name], cwd=ROOT, input='', capture_output=True, text=True)
            if done.returncode != 3 or done.stdout or not done.stderr.startswith(name + ': the library has version 1, ') or os.path.exists(plant):
                sys.exit('interface.py: %s with a library of version 1: exit code %d, %s' % (source, done.returncode, done.stdout + done.stderr))


# An operand of vector instructions, which the compiler makes where it turns a loop into them: it has 16 bytes and a section of its own sort.
VECTOR, MOST_VECTORS = '.rodata.cst16', 4


def sections(path):
    return [(name, int(size)) for name, size in re.findall(r'(?m)^(\.\S+) +([1-9]\d*)', run(['size', '-A', path]))]


def data_sections(path):
    """The sections of an object or a library that are not empty, but for its code, what is not loaded with it, and operands of vector instructions."""
    return [name for name, _ in sections(path) if not name.startswith(('.text', '.comment', '.note')) and name != VECTOR]


def hold_no_tables(folder):
    """The library is code, but for a few operands of vector instructions: no constant table takes read-only memory. In an object with the 43 edges as
    a table, one is found."""
    if data_sections('dist/libhemtaluq.a'):
        sys.exit('interface.py: the library has data: %s' % ', '.join(data_sections('dist/libhemtaluq.a')))
    if sum(size for name, size in sections('dist/libhemtaluq.a') if name == VECTOR) > 16 * MOST_VECTORS:
        sys.exit('interface.py: the library has more than %d operands of vector instructions' % MOST_VECTORS)
    table = os.path.join(folder, 'table.o')
    run(['gcc', '-x', 'c', '-', '-c', '-o', table], input='const unsigned long long edges[43] = {%s};\n' % ', '.join(str(2 ** k) for k in range(43)))
    if data_sections(table) != ['.rodata']:
        sys.exit('interface.py: a table is not found: %s' % data_sections(table))


def main():
    print(run(['tools/dist']).strip())
    with tempfile.TemporaryDirectory() as folder:
        hold_calls(folder)
        hold_programs(folder)
        hold_old_header(folder)
        if shutil.which('objcopy'):
            hold_revisions(folder)
            hold_other_version(folder)
        if shutil.which('size'):
            hold_no_tables(folder)
    missing = [tool for tool in ('valgrind', 'rustc', 'objcopy', 'size') if not shutil.which(tool)]
    figures.hold(cabinet_runs=len(RUNS), designer_runs=len(LISTS), panel_runs=len(PANELS))
    print('interface.py: C99 and C++, %d runs of each cabinet program, %d of each designer program, %d of each panel program, revisions%s'
          % (len(RUNS), len(LISTS), len(PANELS),
             '; missing, and so not tried: ' + ', '.join(missing) if missing else ', valgrind, rustc, objcopy and size all there'))


if __name__ == '__main__':
    main()
