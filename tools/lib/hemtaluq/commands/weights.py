"""Weights for a plant, or a proof that there are none: weights."""
import sys

from .. import cycle_sets, weight_search
from ..amounts import in_words, kept_form
from ..options import Once, add_output, keep
from ..outcomes import NO, REFUSED, YES, Outcome
from ..texts import counted, grouped
from ..words import figures_of, named, passed_words, rows_words

ORDER = 25

WEIGHTS = '''Find weights that pass, or a balanced set of cycles, which shows that there are none.

The solver glpsol (Debian's package glpk-utils) proposes weights for the quiet cycles known so far, the proved call judges them for the
whole plant and shows another cycle, and so on. In the end the proved call has passed the weights, or has confirmed a balanced set. So the
answer holds whatever the solver does; that the largest weight is as small as can be, and then the sum of the weights, is the solver's word.

A balanced set is quiet cycles, repeated, that together send at least what they take of each type; where there is one, no weights pass. What
lies beyond the limits of the calls no proved call can judge: that is told as undecided, with exit status 2.'''


def teller(silent):
    """Says on standard error how far the search is: on a terminal in one line, which is cleared first."""
    begin, end = (('\r\x1b[K', '') if sys.stderr.isatty() else ('', '\n')) if sys.stderr else ('', '')

    def told(rounds, cycles, largest):
        if not silent and sys.stderr:
            print('%sround %d: %s known, largest weight %d' % (begin, rounds, counted(cycles, 'quiet cycle'), largest), file=sys.stderr, end=end, flush=True)

    def done():
        if not silent and begin:
            print(begin, file=sys.stderr, end='', flush=True)
    return told, done


def after(found):
    return 'after %s, with %s known' % (counted(found.rounds, 'round'), counted(found.cycles, 'quiet cycle'))


def found_weights(plant, found, arguments):
    if arguments.output:
        keep(arguments.output, kept_form(plant, found.weights, arguments.output), arguments)
    said = dict(answer='weights', weights=named(plant, found.weights), rounds=found.rounds, cycles=found.cycles, **figures_of(found.figures))
    return Outcome(YES, said, '\n'.join(passed_words(plant, found.weights, found.figures) + ['Found %s.' % after(found)]))


def set_json(plant, entries):
    return [{'machine': plant.machines[e.machine].name, 'repeats': e.repeats, 'rows': e.rows} for e in entries]


def set_words(plant, entries):
    """Each cycle of a set as its line of the text of sets, with its rows in words."""
    lines = []
    for entry in entries:
        lines += [cycle_sets.entry_text(plant, entry)] + ['  # ' + row.strip() for row in rows_words(plant, entry.rows)]
    return lines


def found_set(plant, found, arguments):
    if arguments.set:
        keep(arguments.set, ('\n'.join(set_words(plant, found.entries)) + '\n').encode(), arguments)
    said = {'answer': 'set', 'entries': set_json(plant, found.entries), 'rounds': found.rounds, 'cycles': found.cycles}
    text = ['no weights pass',
            'These quiet cycles are a balanced set: repeated so, they send at least what they take of each type. The proved call confirms it.',
            *set_words(plant, found.entries), 'Found %s.' % after(found)]
    return Outcome(NO, said, '\n'.join(text))


def found_beyond(plant, found, limit):
    """Neither side within the limits: what was found is shown, and that no proved call judged it."""
    if found.entries:
        words, lines = 'A balanced set has repeats that %d entries do not hold' % limit['MOST_ENTRIES'], set_words(plant, found.entries)
    else:
        words, lines = 'Weights above %s would pass' % grouped(limit['LARGEST_WEIGHT']), ['  ' + in_words(plant, found.weights)]
    text = ['undecided: what was found lies beyond the limits of the calls, so no proved call judged it.', words + ', by the word of the solver and of this command alone:',
            *lines, 'No weights of at most %s pass, by the solver\'s word. Found %s.' % (grouped(limit['LARGEST_WEIGHT']), after(found))]
    said = {'answer': 'beyond', 'weights': named(plant, found.weights), 'entries': set_json(plant, found.entries), 'rounds': found.rounds,
            'cycles': found.cycles}
    return Outcome(REFUSED, said, '\n'.join(text))


def weights(library, arguments):
    plant = arguments.plant
    told, done = teller(arguments.json or arguments.quiet)
    found = weight_search.Search(library, plant, told).found()
    done()
    if isinstance(found, weight_search.Weights):
        return found_weights(plant, found, arguments)
    if isinstance(found, weight_search.Balanced):
        return found_set(plant, found, arguments)
    return found_beyond(plant, found, library.limits)


def add(commands):
    one = commands.add('weights', weights, 'find weights that pass, or a proof that there are none', WEIGHTS,
                       '  hemtaluq weights plant.txt -o weights.txt && hemtaluq weigh plant.txt -w weights.txt\n'
                       '  hemtaluq weights plant.txt -s set.txt || hemtaluq confirm plant.txt set.txt')
    add_output(one, 'keep the weights that are found, as `weigh -o` does')
    one.add_argument('-s', '--set', action=Once, metavar='FILE', help='keep the balanced set that is found, for `confirm`')
    one.add_argument('-q', '--quiet', action='store_true', help='say nothing of the rounds')
