"""Weights and contents: a number for each type, by name, in order, or in a file (options.AMOUNTS says how)."""
from .outcomes import BadInput, BadText
from .plants import known
from .texts import bytes_of, counted, decoded, in_line, is_number, is_text, lines_of


def add_named(numbers, types, name, number, what):
    """Set the number of a type that has none yet."""
    t = known(name, types, 'type')
    if not is_number(number):
        raise BadInput('expected a whole number for the %s of %s, found %s' % (what, name, number))
    if numbers[t] is not None:
        raise BadInput('the %s of %s stands here twice' % (what, name))
    numbers[t] = int(number)


def from_text(path, text, types, what):
    """The numbers of a text: all in order, or one by name in each line."""
    lines = [(number, line.replace('=', ' ').split()) for number, line in lines_of(text)]
    if all(is_number(word) for _, words in lines for word in words):
        return [int(word) for _, words in lines for word in words]
    numbers = [None] * len(types)
    for line, words in lines:
        if len(words) != 2:
            raise BadText(path, line, 'expected NAME NUMBER, the %s of a type' % what)
        in_line(path, line, add_named, numbers, types, *words, what)
    return numbers


def from_file(path, types, what):
    """The numbers of a file. The two bytes of a weight within the limits are no text: the second is at most 3."""
    data = bytes_of(path)
    if is_text(data):
        return from_text(path, decoded(path, data), types, what)
    if what != 'weight':
        raise BadInput('%s: expected a text with NAME NUMBER in each line, the %s of a type' % (path, what))
    if len(data) % 2:
        raise BadInput('%s: expected two bytes for each weight, found %s' % (path, counted(len(data), 'byte')))
    return [data[i] + 256 * data[i + 1] for i in range(0, len(data), 2)]


def words_of(given):
    return [word for argument in given for word in argument.split(',') if word]


def numbers_for(plant, given, what):
    """The numbers that arguments say. How many there must be and how large they may be, the calls judge."""
    words = words_of(given)
    if words and all(is_number(word) for word in words):
        return [int(word) for word in words]
    if len(words) == 1 and '=' not in words[0]:
        numbers = from_file(words[0], plant.types, what)
    else:
        numbers = [None] * len(plant.types)
        for word in words:
            if '=' not in word:
                raise BadInput('expected NAME=NUMBER, the %s of a type, found %s' % (what, word))
            add_named(numbers, plant.types, *word.split('=', 1), what)
    return [number or 0 for number in numbers]


def weights_for(plant, arguments):
    """The weights. Where there are types, not to give any is a mistake more often than it means 0 for all."""
    if plant.types and not words_of(arguments.weights):
        raise BadInput('expected weights, such as -w %s=1; `hemtaluq weights` looks for weights that pass' % plant.types[0])
    return numbers_for(plant, arguments.weights, 'weight')


def contents_for(plant, arguments):
    return numbers_for(plant, arguments.contents, 'content')


def in_words(plant, numbers):
    """`request 2, answer 1`; numbers without a type do not come this far."""
    return ', '.join('%s %d' % pair for pair in zip(plant.types, numbers))


def kept_form(plant, weights, path):
    """The bytes of a file that `from_file` reads as these weights; one whose name ends with .bin is for the program `ceiling` and for cabinets."""
    if path.endswith('.bin'):
        return b''.join(weight.to_bytes(2, 'little') for weight in weights)
    width = max(map(len, plant.types), default=0)
    return ''.join('%s %d\n' % (name.ljust(width), weight) for name, weight in zip(plant.types, weights)).encode()
