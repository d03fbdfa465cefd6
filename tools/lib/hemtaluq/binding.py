"""The shared library, called as its header says.

The header is the only description of the calls: their arguments and structs, the kinds of answers, the faults with their words, and the limits
are read from it, so a call that it gains can be made without a line here. `load` refuses a library of another version than its header's.
"""
import ctypes
import functools
import os
import re
from collections import namedtuple

from .outcomes import NotDone

HERE = os.path.dirname(os.path.realpath(__file__))
# Where library and header stand: in the repository, whose tools/dist makes them, in dist/; elsewhere under the prefix of the package.
REPOSITORY, INSTALLED = ('../../../dist/libhemtaluq.so', '../../../dist/hemtaluq.h'), ('../libhemtaluq.so', '../../include/hemtaluq.h')
C_TYPES = {'uint8_t': ctypes.c_uint8, 'uint16_t': ctypes.c_uint16, 'uint32_t': ctypes.c_uint32, 'uint64_t': ctypes.c_uint64,
           'int64_t': ctypes.c_int64, 'size_t': ctypes.c_size_t}

# A parameter of a call: its name, its C type, whether a list is lent, whether the call may write to that list, and its length where the header fixes it:
# a list of another length has its length behind it.
Parameter = namedtuple('Parameter', 'name type lent written length')
Call = namedtuple('Call', 'symbol answer parameters')
# A field of a struct; one that is a list has a length.
Field = namedtuple('Field', 'type name length')


class NotUsable(NotDone):
    """There is no library, or not the one of its header."""

    def answer(self):
        return {'answer': 'not usable', 'words': str(self)}


class Header:
    """What the header declares."""

    def __init__(self, text):
        self.numbers = {name: int(value) for name, value in re.findall(r'(?m)^#define HEMTALUQ_(\w+) (?:UINT64_C\()?(\d+)\)?', text)}
        self.kinds = {name: int(value) for name, value in self._constants(text, 'kind', r'HEMTALUQ_(\w+) = (\d+)')}
        self.faults = {int(value): words.strip() for value, words in self._constants(text, 'fault', r'= (\d+),?\s*/\* (.*?);')}
        self.structs = {name: self._fields(body) for body, name in re.findall(r'typedef struct \{(.*?)\} (\w+);', text, re.S)}
        symbols = dict(re.findall(r'(?m)^#define (hemtaluq_\w+) (hemtaluq_\w+)$', text))
        self.calls = {self._plain(name): Call(symbols.get(name, name), answer, self._parameters(arguments))
                      for answer, name, arguments in re.findall(r'(?m)^(\w+) (hemtaluq_\w+)\(([^)]*)\);', text)}

    @staticmethod
    def _constants(text, enum, pattern):
        return re.findall(pattern, text.split('enum hemtaluq_' + enum)[1].split('};')[0], re.S)

    @staticmethod
    def _plain(name):
        """A call's name without the revision, which a declaration has where no macro adds it: the header's inline functions, which are no symbols of
        the library, have these names for C."""
        return re.sub(r'_v\d+$', '', name.removeprefix('hemtaluq_'))

    @staticmethod
    def _fields(body):
        """A struct's fields, every one of which must be understood: a field that is passed over would shift the others."""
        lines = [line.strip() for line in re.sub(r'/\*.*?\*/', '', body, flags=re.S).split('\n') if line.strip()]
        found = [re.fullmatch(r'(\w+) (\w+)(?:\[(\d+)\])?;', line).groups() for line in lines]
        return [Field(kind, name, length and int(length)) for kind, name, length in found]

    @staticmethod
    def _parameters(arguments):
        """The parameters, without the lengths: the length of a list that is a pointer is the parameter behind it."""
        words = [' '.join(one.split()) for one in arguments.split(',') if one.strip() != 'void']
        found = [re.fullmatch(r'(const )?(\w+) (\*?)(\w+)(?:\[(\d+)\])?', one).groups() for one in words]
        return [Parameter(name, kind, bool(star or length), bool(star or length) and not const, length and int(length))
                for i, (const, kind, star, name, length) in enumerate(found) if i == 0 or not found[i - 1][2]]


def fitting(number, kind):
    """The number, or the largest that the C type holds where it does not hold it. That one is above every limit, so the call refuses it."""
    largest = 256 ** ctypes.sizeof(kind) - 1
    return number if 0 <= number <= largest else largest


def lent_list(value, kind):
    """A list as C has it: bytes and numbers are copied, a list that is a C array already stays and can be written to."""
    if isinstance(value, ctypes.Array):
        return value
    return (kind * len(value))(*(fitting(number, kind) for number in value))


def room(kind, length):
    """A list of zeros for a call to write to."""
    return (C_TYPES[kind] * length)()


class Library:
    """The calls, by the names in the header: `library.read(data)` answers the struct of hemtaluq_read."""

    def __init__(self, library, header):
        with open(header, encoding='utf-8') as source:
            self.header = Header(source.read())
        self.shared = ctypes.CDLL(library)
        answered, declared = self.shared.hemtaluq_version(), self.header.numbers['VERSION']
        if answered != declared:
            raise NotUsable('%s is of version %d and %s of version %d; run tools/dist again' % (library, answered, header, declared))
        self.kinds, self.limits, self.faults = self.header.kinds, self.header.numbers, self.header.faults

    def __getattr__(self, name):
        if name not in self.header.calls:
            raise AttributeError('the header declares no hemtaluq_' + name)
        return functools.partial(self.call, name)

    @functools.lru_cache(maxsize=None)
    def struct(self, name):
        """The C type of a struct of the header."""
        fields = [(field.name, C_TYPES[field.type] * field.length if field.length else C_TYPES[field.type]) for field in self.header.structs[name]]
        return type(name, (ctypes.Structure,), {'_fields_': fields})

    @functools.lru_cache(maxsize=None)
    def function(self, name):
        """The function of a call, with the type of its answer."""
        found = self.header.calls[name]
        function = getattr(self.shared, found.symbol)
        function.restype = self.struct(found.answer) if found.answer in self.header.structs else C_TYPES[found.answer]
        return function

    @staticmethod
    def arguments(name, parameter, value):
        """What C gets for a parameter: a number; a list's pointer, with its length behind it unless the header fixes that."""
        kind = C_TYPES[parameter.type]
        if not parameter.lent:
            return [kind(fitting(value, kind))]
        if parameter.written and not isinstance(value, ctypes.Array):
            raise TypeError('hemtaluq_%s writes to %s: lend it room' % (name, parameter.name))
        held = lent_list(value, kind)
        if parameter.length is None:
            return [ctypes.byref(held), ctypes.c_size_t(len(held))]
        if len(held) != parameter.length or held._type_ is not kind:
            raise TypeError('hemtaluq_%s takes %d numbers of %s for %s' % (name, parameter.length, parameter.type, parameter.name))
        return [ctypes.byref(held)]

    def call(self, name, *values):
        """Make a call. A list stands for its pointer and its length."""
        parameters = self.header.calls[name].parameters
        if len(values) != len(parameters):
            raise TypeError('hemtaluq_%s takes %s' % (name, ', '.join(p.name for p in parameters)))
        return self.function(name)(*(argument for parameter, value in zip(parameters, values) for argument in self.arguments(name, parameter, value)))

    def kind(self, answer):
        """What an answer is, by the header's name: 'PASSED'."""
        return next(name for name, value in self.kinds.items() if value == answer.kind)


@functools.lru_cache(maxsize=None)
def load():
    """The library of this package."""
    place = REPOSITORY if os.path.isfile(os.path.join(HERE, '..', '..', 'dist')) else INSTALLED
    library, header = (os.path.normpath(os.path.join(HERE, path)) for path in place)
    if not os.path.exists(library) or not os.path.exists(header):
        raise NotUsable('%s or %s is not there; tools/dist, which needs the kit\'s rt, proves and makes them' % (library, header))
    try:
        return Library(library, header)
    except (OSError, LookupError, ValueError, AttributeError):
        raise NotUsable('%s is no library, or %s is not its header; run tools/dist again' % (library, header)) from None
