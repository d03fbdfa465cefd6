"""Weights judged, and ceilings: weigh, quote."""
from ..amounts import contents_for, in_words, kept_form, weights_for
from ..calls import quoted, weighed
from ..options import AMOUNTS, MOST_DOUBLINGS, Once, add_contents, add_output, add_weights, keep, whole_number
from ..outcomes import NO, YES, Outcome
from ..texts import counted
from ..words import DOUBLING, PRICE_CLASS, cycle_words, figures_of, named, passed_words, row_json

ORDER = 20

WEIGH = '''Judge weights, one for each type, 0 to 1,000. They pass exactly when every quiet cycle (one without progress) weighs below zero, where
a row weighs the weight of what it sends less that of what it takes. Then F, n, G and n × w make the ceiling F + n × W + G × g + n × w × d,
which is told as a formula: n is the most states of a machine, w the largest weight, W the weight of what the buffers hold at the start,
g counts the progress rows and d the doublings. %s
Otherwise a shortest quiet cycle that weighs zero or more is shown, row by row: these weights do not rule out that it goes on for ever.''' % DOUBLING
QUOTE = '''Quote a ceiling: how many quiet rows can happen at most in a run that opens with these contents of the buffers and has at most G
progress rows and at most D doublings. G is 0 for the time up to the first fresh reading, 1 up to the second.
%s
Contents, G and D are at most 1,000,000. %s''' % (MOST_DOUBLINGS, PRICE_CLASS)


def weigh(library, arguments):
    plant, weights = arguments.plant, weights_for(arguments.plant, arguments)
    answer, rows = weighed(library, plant, weights)
    if library.kind(answer) != 'PASSED':
        said = {'answer': 'cycle', 'rows': [row_json(plant, row) for row in rows], 'weights': named(plant, weights)}
        return Outcome(NO, said, '\n'.join(cycle_words(plant, weights, rows)))
    if arguments.output:
        keep(arguments.output, kept_form(plant, weights, arguments.output), arguments)
    said = dict(answer='passed', **figures_of(answer), weights=named(plant, weights))
    return Outcome(YES, said, '\n'.join(passed_words(plant, weights, answer)))


def quote(library, arguments):
    plant, weights, contents = arguments.plant, weights_for(arguments.plant, arguments), contents_for(arguments.plant, arguments)
    answer = quoted(library, plant, weights, contents, arguments.g, arguments.d)
    said = {'answer': 'ceiling', 'ceiling': answer.ceiling, 'class': answer.price_class, 'g': arguments.g, 'd': arguments.d,
            'weights': named(plant, weights), 'contents': named(plant, contents)}
    opening = 'with the contents ' + in_words(plant, contents) if plant.types else 'without types'
    text = ['ceiling %d, price class %d' % (answer.ceiling, answer.price_class),
            'No run that opens %s and has at most %s and at most %s has more than %s.'
            % (opening, counted(arguments.g, 'progress row'), counted(arguments.d, 'doubling'), counted(answer.ceiling, 'quiet row'))]
    return Outcome(YES, said, '\n'.join(text))


def add(commands):
    one = commands.add('weigh', weigh, 'judge weights: passed with the figures, or a quiet cycle in words', WEIGH,
                       '  hemtaluq weigh plant.txt -w request=2 answer=1\n  hemtaluq weigh plant.bin -w 2 1\n'
                       '  hemtaluq weigh plant.txt -w weights.txt -o weights.bin\n\n' + AMOUNTS)
    add_weights(one)
    add_output(one, 'keep weights that pass, as a text for -w; as weights.bin, for the program `ceiling` and for cabinets, where the name ends so')
    one = commands.add('quote', quote, 'the ceiling for contents, progress rows and doublings, with its price class', QUOTE,
                       '  hemtaluq quote plant.txt -w request=2 answer=1 -c request=3 answer=4 -g 1\n'
                       '  hemtaluq quote plant.txt -w request=2 answer=1 -c request=3 answer=4 -g 1 -d 3\n\n' + AMOUNTS)
    add_weights(one)
    add_contents(one)
    one.add_argument('-g', type=whole_number, action=Once, default=0, metavar='G', help='the most progress rows (default: 0)')
    one.add_argument('-d', type=whole_number, action=Once, default=0, metavar='D', help='the most doublings (default: 0)')
