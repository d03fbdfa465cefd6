"""Cycles: list, confirm."""
from .. import cycle_sets
from ..calls import confirmed, listed
from ..options import whole_number
from ..outcomes import NO, REFUSED, YES, Outcome, Refused
from ..texts import bytes_of, counted, decoded, grouped
from ..words import columns

ORDER = 30
MOST = 1 << 22

CONFIRM = '''Confirm a balanced set: repeated quiet cycles that together send at least what they take of each type. Where there is one, no
weights pass, whatever they are. The set is a text of at most 256 lines, with at most 1,000,000 repeats of at most 64 rows in each:
%s''' % cycle_sets.__doc__.split('\n', 1)[1]


def cycle_cells(plant, rows):
    machine = plant.machines[plant.rows[rows[0]][0]]
    states = [machine.states[plant.rows[row][1].left] for row in rows]
    progress = any(plant.rows[row][1].progress for row in rows)
    return ' '.join(map(str, rows)), ' -> '.join(states + states[:1]), 'progress' if progress else 'quiet'


def listing_words(plant, machine, cycles):
    heading = 'machine %s: %s' % (plant.machines[machine].name, counted(len(cycles), 'simple cycle'))
    return [heading] + columns([cycle_cells(plant, rows) for rows in cycles])


def listed_all(library, plant, most):
    """All machines. Where one of them is refused, the others are listed all the same."""
    answers, text, refusals = [], [], []
    for m, machine in enumerate(plant.machines):
        try:
            cycles = listed(library, plant, m, most)
            answers.append({'answer': 'listed', 'machine': machine.name, 'cycles': cycles})
            text += listing_words(plant, m, cycles)
        except Refused as refused:
            answers.append(dict(refused.answer(), machine=machine.name))
            refusals.append('machine %s: %s' % (machine.name, refused))
    return Outcome(REFUSED if refusals else YES, {'answer': 'refused' if refusals else 'listed', 'machines': answers}, '\n'.join(text), '\n'.join(refusals))


def list_cycles(library, arguments):
    plant = arguments.plant
    if not arguments.machine:
        return listed_all(library, plant, arguments.most)
    machine = plant.machine_number(arguments.machine)
    cycles = listed(library, plant, machine, arguments.most)
    answers = [{'answer': 'listed', 'machine': plant.machines[machine].name, 'cycles': cycles}]
    return Outcome(YES, {'answer': 'listed', 'machines': answers}, '\n'.join(listing_words(plant, machine, cycles)))


def confirm(library, arguments):
    plant = arguments.plant
    entries = cycle_sets.parsed(plant, arguments.set, decoded(arguments.set, bytes_of(arguments.set)))
    answer = confirmed(library, plant, arguments.set, entries)
    if library.kind(answer) == 'CONFIRMED':
        return Outcome(YES, {'answer': 'confirmed'}, 'confirmed\nThe set is balanced: it sends at least what it takes of each type. So no weights pass.')
    name = plant.types[answer.message_type]
    return Outcome(NO, {'answer': 'negative', 'type': name, 'sum': answer.sum},
                   'negative %d %d\nOf %s the set takes %s more than it sends, so it is not balanced.'
                   % (answer.message_type, answer.sum, name, grouped(-answer.sum)))


def add(commands):
    one = commands.add('list', list_cycles, 'list the simple cycles of a machine, or of all',
                       'List every simple cycle of a machine, quiet or not, each once: its rows, the states that it goes through, and whether it has\n'
                       'progress. A machine has at most 24 states and 48 rows for this.', '  hemtaluq list plant.txt\n  hemtaluq list plant.txt probe')
    one.add_argument('machine', metavar='MACHINE', nargs='?', help='a machine, by name or number (default: all)')
    one.add_argument('--most', type=whole_number, default=MOST, metavar='N', help='lend a list of at most N entries (default: {:,})'.format(MOST))
    one = commands.add('confirm', confirm, 'confirm a balanced set of cycles: then no weights pass', CONFIRM, '  hemtaluq confirm plant.txt set.txt')
    one.add_argument('set', metavar='SET', help='the text of the set; - for standard input')
