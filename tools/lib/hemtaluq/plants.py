"""Plants: machines, states, types and rows with their names."""
import difflib
from collections import namedtuple

from .outcomes import BadInput
from .texts import is_number

# A row: the states by their numbers in the machine, and the types sent and taken, which may be None.
Row = namedtuple('Row', 'left entered sent taken progress')
# A machine, with the line of the text that names it and the lines of its rows.
Machine = namedtuple('Machine', 'name states rows line row_lines')


class Plant:
    """A plant: where it was read, its types' names, its machines, the bytes of its file, the bytes that were read, and what is strange about it."""

    def __init__(self, path, types, machines, types_line=1, data=b'', notes=()):
        self.path, self.types, self.machines, self.types_line, self.notes = path, types, machines, types_line, notes
        self.data = self.source = data
        self.rows = [(m, row) for m, machine in enumerate(machines) for row in machine.rows]

    def first_row(self, machine):
        """The number of a machine's first row: numbers run through the whole plant."""
        return sum(len(m.rows) for m in self.machines[:machine])

    def machine_number(self, word):
        """The number of a machine that is named, or given by its number."""
        names = [machine.name for machine in self.machines]
        return int(word) if word not in names and is_number(word) else known(word, names, 'machine')

    def type_number(self, word):
        """The number of a type that is named, or given by its number."""
        return int(word) if is_number(word) else known(word, self.types, 'type')


def known(word, names, what):
    """The number of a name."""
    if word in names:
        return names.index(word)
    near = difflib.get_close_matches(word, names, 1)
    raise BadInput('there is no %s %s%s' % (what, word, '; is it %s?' % near[0] if near else '; expected one of: %s' % ' '.join(names) if names else ''))
