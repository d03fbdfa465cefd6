"""What a command comes to: an answer of a proved call, a refusal of one, or input that cannot be brought to one."""
from collections import namedtuple

YES, NO, REFUSED = 0, 1, 2

# The exit status, the answer for scripts (what --json prints), the answer for people, and what was refused, for people.
Outcome = namedtuple('Outcome', 'status answer text refusal', defaults=('',))


class NotDone(Exception):
    """What ends a command: its words are for people, its answer is for scripts."""


class BadInput(NotDone):
    """Text or arguments that say no plant, no weights or no set: where, and what was expected."""

    def answer(self):
        return {'answer': 'bad input', 'words': str(self)}


class BadText(BadInput):
    """A text that is wrong in a line."""

    def __init__(self, path, line, expected):
        super().__init__('%s:%d: %s' % (path, line, expected))
        self.line, self.expected = line, expected

    def answer(self):
        return dict(super().answer(), line=self.line)


class Refused(NotDone):
    """A refusal of a proved call: its number and place, the header's words, and what stands at that place."""

    def __init__(self, library, answer, where):
        self.number, self.place = answer.number, answer.place
        self.words, self.where = library.faults[self.number], where
        super().__init__('refused %d %d\n%s' % (self.number, self.place, ': '.join([self.words] + [where] * bool(where))))

    def answer(self):
        return {'answer': 'refused', 'number': self.number, 'place': self.place, 'words': self.words, 'where': self.where}


def accepted(library, answer, where=lambda number, place: ''):
    """The answer, if it is no refusal; `where` says what stands at the place of one."""
    if library.kind(answer) == 'REFUSED':
        raise Refused(library, answer, where(answer.number, answer.place))
    return answer
