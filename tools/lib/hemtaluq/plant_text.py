"""The plant text: one line a row, with names for machines, states and types.

    types request answer                      # the message types; several such lines add up

    machine panel
      states waiting asked                    # optional: the states in their order, those without rows too
      waiting -> asked  sends request
      asked -> waiting  takes answer  progress

    machine probe
      ready -> ready    takes request  sends answer

States are numbered as they first appear, or as the `states` lines of their machine name them. What follows a # is a comment.
"""
import re

from .outcomes import BadInput, BadText
from .plants import Machine, Plant, Row, known
from .texts import is_number, lines_of

NAME = re.compile(r'\w[\w.-]*')
WORDS = ('types', 'machine', 'states', 'sends', 'takes', 'progress')
ROW_FORM = 'STATE -> STATE, then `takes TYPE`, `sends TYPE` and `progress`, where they apply'


class Reader:
    """Reads a text line by line; the machine that is being read is the last one."""

    def __init__(self, path):
        self.path, self.line, self.types_line = path, 0, 1
        self.types, self.machines, self.declared, self.notes = [], [], False, []

    def wrong(self, expected):
        return BadText(self.path, self.line, expected)

    def name(self, word, names, what):
        """A new name. The words of the text are none, so that a state which was forgotten is not read as the word behind it; states may be
        numbers, but not types and machines, which are given by number, too."""
        if word in WORDS:
            raise self.wrong('expected the name of a %s, found the word %s' % (what, word))
        if what != 'state' and is_number(word):
            raise self.wrong('expected the name of a %s, found the number %s' % (what, word))
        if not NAME.fullmatch(word):
            raise self.wrong('expected the name of a %s, of letters, digits, _ - and ., found %s' % (what, word))
        if word in names:
            raise self.wrong('there is a %s %s already' % (what, word))
        return word

    def known(self, word, names, what):
        try:
            return known(word, names, what)
        except BadInput as wrong:
            raise self.wrong(str(wrong) if names else '%s: expected a line `types …` before the first machine' % wrong) from None

    def read(self, words):
        """One line, split in words."""
        first, rest = words[0], words[1:]
        if '->' in words:
            self.row(words)
        elif first == 'types':
            self.add_types(rest)
        elif first == 'machine':
            self.add_machine(rest)
        elif first == 'states':
            self.add_states(rest)
        else:
            raise self.wrong('expected `types`, `machine`, `states` or a row (%s), found: %s' % (ROW_FORM, ' '.join(words)))

    def add_types(self, words):
        if self.machines:
            raise self.wrong('expected a row or a machine: `types` lines stand before the first machine')
        self.types_line = self.line
        for word in words:
            self.types.append(self.name(word, self.types, 'type'))

    def end_machine(self):
        """Note what is strange about the machine that was read. Who declares the states has said that they are meant."""
        if self.machines and not self.declared:
            self.notes += ['%s:%d: %s' % (self.path, self.machines[-1].line, note) for note in stray_states(self.machines[-1])]

    def add_machine(self, words):
        self.end_machine()
        if len(words) != 1:
            raise self.wrong('expected one name behind `machine`, found %s' % (' '.join(words) or 'none'))
        name = self.name(words[0], [machine.name for machine in self.machines], 'machine')
        self.machines.append(Machine(name, [], [], self.line, []))
        self.declared = False

    def add_states(self, words):
        if not self.machines:
            raise self.wrong('expected `machine NAME` before `states`')
        if self.machines[-1].rows:
            raise self.wrong('expected a row or a machine: `states` lines stand before the rows of their machine')
        if not words:
            raise self.wrong('expected the names of states behind `states`')
        self.declared = True
        for word in words:
            self.machines[-1].states.append(self.name(word, self.machines[-1].states, 'state'))

    def state(self, word):
        """The number of a state, which is new where no `states` line declares the states."""
        states = self.machines[-1].states
        if word not in states and not self.declared:
            states.append(self.name(word, states, 'state'))
        return self.known(word, states, 'state')

    def row(self, words):
        if not self.machines:
            raise self.wrong('expected `machine NAME` before the first row')
        left, entered, marks = self.row_parts(words)
        left = self.state(left)
        row = Row(left, self.state(entered), *self.marks(marks))
        self.machines[-1].rows.append(row)
        self.machines[-1].row_lines.append(self.line)

    def row_parts(self, words):
        """The two states of a row and its marks, as words."""
        if len(words) < 3 or words[1] != '->' or '->' in words[2:]:
            raise self.wrong('expected %s' % ROW_FORM)
        return words[0], words[2], words[3:]

    def marks(self, words):
        """The type sent, the type taken and progress."""
        found, words = {}, list(words)
        while words:
            word = words.pop(0)
            if word not in ('sends', 'takes', 'progress'):
                raise self.wrong('expected `sends TYPE`, `takes TYPE`, `progress` or the end of the line, found %s' % word)
            if word in found:
                raise self.wrong('expected `%s` once' % word)
            if word != 'progress' and not words:
                raise self.wrong('expected a type behind `%s`' % word)
            found[word] = True if word == 'progress' else self.known(words.pop(0), self.types, 'type')
        return found.get('sends'), found.get('takes'), 'progress' in found


def stray_states(machine):
    """States that rows enter and none leaves, or leave and none enters: often a name that was misspelt. Where a machine begins is free, but
    its first state is where it begins."""
    left, entered = {row.left for row in machine.rows}, {row.entered for row in machine.rows}
    for state, name in enumerate(machine.states):
        if state not in left:
            yield 'state %s of machine %s is never left' % (name, machine.name)
        elif state not in entered and state > 0:
            yield 'state %s of machine %s is never entered' % (name, machine.name)


def words_of(line):
    """The words of a line. An arrow stands between words also where no blank does."""
    return line.replace('→', '->').replace('->', ' -> ').split()


def parsed(path, text):
    """The plant that a text says."""
    reader = Reader(path)
    for reader.line, line in lines_of(text):
        reader.read(words_of(line))
    reader.end_machine()
    return Plant(path, reader.types, reader.machines, reader.types_line, notes=reader.notes)


def row_text(plant, machine, row):
    """A row as its line of the text: the states, and what it does in its order: it takes first, then sends."""
    marks = [['takes', plant.types[row.taken]]] if row.taken is not None else []
    marks += [['sends', plant.types[row.sent]]] if row.sent is not None else []
    marks += [['progress']] if row.progress else []
    return '%s -> %s' % (machine.states[row.left], machine.states[row.entered]), '  '.join(' '.join(mark) for mark in marks)


def appearing(machine):
    """The states as they first appear in the rows."""
    return list(dict.fromkeys(machine.states[s] for row in machine.rows for s in (row.left, row.entered)))


def machine_text(plant, m):
    machine = plant.machines[m]
    yield 'machine ' + machine.name
    if machine.states != appearing(machine):
        yield '  states ' + ' '.join(machine.states)
    shown = [row_text(plant, machine, row) for row in machine.rows]
    widths = [max(map(len, column)) for column in zip(*shown)]
    for number, columns in enumerate(shown, plant.first_row(m)):
        padded = [text.ljust(width) for text, width in zip(columns, widths) if width]
        yield '  ' + '  '.join(padded + ['# row %d' % number])


def printed(plant):
    """The text of a plant."""
    lines = ['types ' + ' '.join(plant.types)] if plant.types else []
    for m in range(len(plant.machines)):
        lines += ([''] if lines else []) + list(machine_text(plant, m))
    return '\n'.join(lines)
