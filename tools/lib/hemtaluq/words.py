"""What the proved calls answer, in the words of the plant."""
from . import amounts
from .plant_text import row_text
from .texts import counted, grouped


def weight_words(row, weights):
    """The weight of a row's message; the weights of both where it takes and sends."""
    messages = [message for message in (row.taken, row.sent) if message is not None]
    if len(messages) == 2:
        return '(takes %s, sends %s)' % tuple(grouped(weights[message]) for message in messages)
    return '(weight %s)' % grouped(weights[messages[0]]) if messages else ''


def row_words(plant, number, weights=None):
    """A row's number, its states and what it does, with the weight of its message where there are weights."""
    m, row = plant.rows[number]
    move, marks = row_text(plant, plant.machines[m], row)
    return 'row %d' % number, move, marks, '' if weights is None else weight_words(row, weights)


def columns(lines):
    """Lines of cells, with the cells below each other."""
    widths = [max(map(len, column)) for column in zip(*lines)]
    return ['  ' + '  '.join(cell.ljust(width) for cell, width in zip(cells, widths) if width).rstrip() for cells in lines]


def rows_words(plant, rows, weights=None):
    return columns([row_words(plant, row, weights) for row in rows])


def row_json(plant, number):
    m, row = plant.rows[number]
    machine = plant.machines[m]
    return {'row': number, 'machine': machine.name, 'left': machine.states[row.left], 'entered': machine.states[row.entered],
            'sends': None if row.sent is None else plant.types[row.sent], 'takes': None if row.taken is None else plant.types[row.taken]}


def where_in_amounts(plant, weights, contents=(), g=0, d=0):
    """What stands at the place of a refusal of weights, contents, g or d."""
    def where(number, place):
        if number == 9:
            return 'the plant has %s, and %s given' % (counted(len(plant.types), 'type'), given(len(weights), 'weight'))
        if number == 10:
            return 'the weight of %s is %s' % (plant.types[place], grouped(weights[place]))
        if number == 20:
            return 'the plant has %s, and %s given' % (counted(len(plant.types), 'type'), given(len(contents), 'content'))
        if number == 21 and place >= len(plant.types):
            return ('g is %s' % grouped(g), 'd is %s' % grouped(d))[place - len(plant.types)]
        if number == 21:
            return 'the content of %s is %s' % (plant.types[place], grouped(contents[place]))
        return '`hemtaluq weigh` shows a quiet cycle that weighs zero or more' if number == 22 else ''
    return where


def given(number, noun):
    return '%s %s' % (counted(number, noun), 'was' if number == 1 else 'were')


def named(plant, numbers):
    return dict(zip(plant.types, numbers))


PRICE_CLASS = 'The price class is how many of the numbers 1, 2, 4, 8 and so on are not above the ceiling.'
SETTING = 'From any states and any contents of the buffers, in whichever order the machines move and whatever the bus loses,'
DOUBLING = 'In a doubling the bus delivers one message twice, as a radio link may do.'


def figures_of(answer):
    """The figures of weighing, by the names that scripts get."""
    return {'F': answer.base, 'n': answer.most_states, 'G': answer.per_progress, 'nw': answer.per_doubling}


def bound(answer):
    """The ceiling as a formula, from the figures of weighing."""
    return '%s + %s × W + %s × g + %s × d' % tuple(map(grouped, figures_of(answer).values()))


def opening_weight(plant, weights):
    """W as a formula."""
    return ' + '.join('%s × %s' % (grouped(weight), name) for name, weight in zip(plant.types, weights) if weight) or '0'


def passed_words(plant, weights, answer):
    given = 'with the weights ' + amounts.in_words(plant, weights) if plant.types else 'as there are no types, whatever the weights'
    return ['passed %d %d %d %d' % tuple(figures_of(answer).values()), 'Every quiet cycle weighs below zero, %s.' % given,
            SETTING, 'at most %s quiet rows (rows without progress) happen:' % bound(answer),
            '  W  the weight of what the buffers hold at the start, %s' % opening_weight(plant, weights),
            '  g  how many progress rows happen', '  d  how many doublings happen: how often the bus delivers one message twice']


def cycle_words(plant, weights, rows):
    machine = plant.machines[plant.rows[rows[0]][0]].name
    return ['cycle ' + ' '.join(map(str, rows)), 'A quiet cycle of machine %s weighs zero or more:' % machine, *rows_words(plant, rows, weights),
            'These weights do not rule out that it goes on for ever without progress; `hemtaluq weights` looks for weights that do.',
            'No quiet cycle that weighs zero or more has fewer rows.']
