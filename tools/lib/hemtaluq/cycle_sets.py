"""Sets of repeated cycles as text: a line for each cycle.

    panel 1 time rows 0 1
    probe 3 times rows 2 3

The rows are given by their numbers, in running order, and may begin anywhere on the cycle. What follows a # is a comment.
"""
from collections import namedtuple

from .outcomes import BadText
from .texts import grouped, in_line, is_number, lines_of
from .words import rows_words

FORM = 'MACHINE NUMBER times rows ROW ROW …'
# A cycle of a set: the machine by its number, how often it is repeated, its rows, and its line.
Entry = namedtuple('Entry', 'machine repeats rows line')


def entry_from(plant, path, line, words):
    if len(words) < 5 or words[2] not in ('time', 'times') or words[3] != 'rows':
        raise BadText(path, line, 'expected ' + FORM)
    for word in [words[1]] + words[4:]:
        if not is_number(word):
            raise BadText(path, line, 'expected a whole number, found %s (%s)' % (word, FORM))
    return Entry(in_line(path, line, plant.machine_number, words[0]), int(words[1]), [int(word) for word in words[4:]], line)


def parsed(plant, path, text):
    """The entries that a text says."""
    return [entry_from(plant, path, number, line.split()) for number, line in lines_of(text)]


def numbers_of(entries):
    """The list of numbers that says a set."""
    return [number for entry in entries for number in (entry.machine, entry.repeats, len(entry.rows), *entry.rows)]


def entry_text(plant, entry):
    return '%s %d time%s rows %s' % (plant.machines[entry.machine].name, entry.repeats, '' if entry.repeats == 1 else 's', ' '.join(map(str, entry.rows)))


def place_words(plant, entry, number, place, limits):
    """What is refused with a number at a place of an entry: the whole cycle, whose rows are shown, the entry as one too many, or one number."""
    if number == 17:
        return '\n'.join(['the cycle of ' + plant.machines[entry.machine].name] + rows_words(plant, entry.rows))
    if number == 18:
        return 'expected at most %d entries' % limits['MOST_ENTRIES']
    if place == 0:
        return 'machine %d, expected a machine of the plant' % entry.machine
    if place == 1:
        return '%s repeats, expected 1 to %s' % (grouped(entry.repeats), grouped(limits['LARGEST_AMOUNT']))
    if place == 2:
        return '%d rows, expected 1 to %d' % (len(entry.rows), limits['CYCLE_ENTRIES'])
    return 'row %d, expected a row of the plant' % entry.rows[place - 3]


def where_in_set(plant, path, entries, limits):
    """What stands at the place of a refusal of a set: an index in its list of numbers."""
    def where(number, place):
        for entry in entries:
            if place < 3 + len(entry.rows):
                return '%s:%d: %s' % (path, entry.line, place_words(plant, entry, number, place, limits))
            place -= 3 + len(entry.rows)
        return '%s has no entry' % path
    return where
