"""Pictures: draw."""
import os

from .. import drawing
from ..amounts import weights_for
from ..calls import weighed
from ..options import add_output, add_weights, keep
from ..outcomes import YES, BadInput, Outcome

ORDER = 50
FORMS = ('svg', 'pdf', 'png', 'gv')


def draw(library, arguments):
    plant = arguments.plant
    red = weighed(library, plant, weights_for(plant, arguments))[1] if arguments.weights else []
    if not arguments.output:
        text = drawing.graphviz(plant, red)
        return Outcome(YES, {'answer': 'drawn', 'graphviz': text, 'red': red}, text)
    form = os.path.splitext(arguments.output)[1][1:].lower()
    if form not in FORMS:
        raise BadInput('expected a file that ends with %s, found %s' % (', '.join('.' + one for one in FORMS), arguments.output))
    keep(arguments.output, (drawing.graphviz(plant, red) + '\n').encode() if form == 'gv' else drawing.picture(plant, red, form), arguments)
    cycle = ', with the cycle %s in red' % ' '.join(map(str, red)) if red else ''
    return Outcome(YES, {'answer': 'drawn', 'file': arguments.output, 'red': red}, 'drew %s%s' % (arguments.output, cycle))


def add(commands):
    one = commands.add('draw', draw, 'draw a plant, and in red the cycle that weights show',
                       'Draw a plant: a cluster for each machine, states as nodes, rows as arrows. An arrow has its row\'s number, ?type for a type\n'
                       'taken and !type for a type sent; a progress row has a star and a double line. With weights that do not pass, the rows of the\n'
                       'shortest quiet cycle that `weigh` shows are red.',
                       '  hemtaluq draw plant.txt -o plant.svg\n  hemtaluq draw plant.txt -w request=1 answer=1 | dot -Tpng -o plant.png')
    add_weights(one)
    add_output(one, 'a picture, by its ending: .svg, .pdf, .png, or .gv for Graphviz text (default: that text on standard output)')
