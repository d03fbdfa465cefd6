"""Lists of numbers for hemtaluq_write, as requests: at their limits, cut off, damaged and gone on, with buffers of many lengths.

The list of every plant of evidence_answers.py is written there. Here are every truncation of a set of lists, each of their numbers changed,
taken out and put in, the same at some places of the longest list, and for plants of many shapes buffers of every length, or of lengths near
the file's where that is long.
"""
import evidence_calls as calls
import evidence_plants as plants
import writing
from evidence_independent import Refused
from reading import LONGEST_FILE
from writing import LONGEST_LIST

SHORT = 40
VALUES = (0, 1, 2, 3, 4, 16, 17, 63, 64, 65, 255, 256, 65535)


def request(numbers, room):
    return calls.request(numbers=numbers, write_room=max(0, room), calls=('write',))


def limits(independent):
    """The limits of the older tests, and each that is written with a buffer one byte too short, and with a number more."""
    for numbers in writing.edges():
        yield request(numbers, LONGEST_FILE)
        yield request(numbers, LONGEST_FILE + 1)
        yield request(numbers + [0], LONGEST_FILE)
        yield request(numbers + [0], 0)
        try:
            yield request(numbers, len(independent.file(independent.listed(numbers))) - 1)
        except Refused:
            yield request(numbers, 0)


def variants(numbers, places):
    """At these places of a list: the list cut off, cut off behind a number that is changed, the number taken out, changed, also together with the
    next one, and numbers put in."""
    for i in places:
        yield numbers[:i]
        yield numbers[:i] + numbers[i + 1:]
        yield numbers[:i] + [65535]
        yield numbers[:i] + [65535, 65535] + numbers[i + 2:]
        for x in sorted({*VALUES, numbers[i] + 1, numbers[i] + 256} - {numbers[i]}):
            yield numbers[:i] + [x] + numbers[i + 1:]
        for x in (0, 1, 64):
            yield numbers[:i] + [x] + numbers[i:]
    for more in ([0], [1], [65535], [0, 0], numbers):
        yield numbers + more


def damaged(files, independent):
    """Variants of the lists of these files at every place, and of the longest list at some; the buffers are about as long as the file."""
    for data in files:
        plant = independent.plant(data)
        numbers, room = independent.numbers(plant), len(independent.file(plant))
        for i, variant in enumerate(variants(numbers, range(len(numbers)))):
            yield request(variant, room + i % 5 - 2)
    longest = writing.longest_list()
    for variant in variants(longest, [*range(0, 14), *range(300, LONGEST_LIST - 8, 400), *range(LONGEST_LIST - 8, LONGEST_LIST)]):
        yield request(variant, LONGEST_FILE)


def lengths(rng, independent, count):
    """Buffers of every length, or of lengths near the file's, for plants of many shapes."""
    for i in range(count):
        plant = independent.plant(plants.plant_file(rng, *rng.choice([maker for maker, _ in plants.SHAPES])(rng)))
        numbers, length = independent.numbers(plant), len(independent.file(plant))
        for room in range(length + 4) if length < SHORT else [0, 1, length // 2, *range(length - 3, length + 4)]:
            yield request(numbers, room)
