"""The sheet for the contract: report."""
import datetime
import hashlib
import itertools
import os
from collections import namedtuple

from .. import page
from ..amounts import contents_for, weights_for
from ..calls import quoted, weighed
from ..options import AMOUNTS, MOST_DOUBLINGS, add_contents, add_output, add_weights, keep, whole_number
from ..outcomes import NO, YES, Outcome, Refused
from ..texts import counted

ORDER = 60
PROGRESS_ROWS = [0, 1, 10, 100, 1000, 10000]
DOUBLINGS = [0]

Sheet = namedtuple('Sheet', 'title date source version counts weights contents answer cycle quotes')


def quotes_for(library, plant, weights, contents, progress_rows, doublings):
    """The ceilings for each g and each d, or none where the weights do not pass. All numbers are judged either way, for that is found last."""
    quotes = []
    for g, d in itertools.product(progress_rows, doublings):
        try:
            quotes.append((g, d, quoted(library, plant, weights, contents, g, d)))
        except Refused as refused:
            if refused.number != 22:
                raise
    return quotes


def source_of(plant):
    """The name of the plant's text or file, and what holds the sheet to its bytes. Names stand in the text alone."""
    read, own = hashlib.sha256(plant.source).hexdigest(), hashlib.sha256(plant.data).hexdigest()
    about = '%s, SHA-256 %s' % (os.path.basename(plant.path) if plant.path != '-' else 'standard input', read)
    return about + ('' if read == own else ' · its plant file of %s, SHA-256 %s' % (counted(len(plant.data), 'byte'), own))


def report(library, arguments):
    plant, weights, contents = arguments.plant, weights_for(arguments.plant, arguments), contents_for(arguments.plant, arguments)
    quotes = quotes_for(library, plant, weights, contents, arguments.g or PROGRESS_ROWS, arguments.d or DOUBLINGS)
    answer, cycle = weighed(library, plant, weights)
    title = arguments.title or os.path.splitext(os.path.basename(plant.path))[0].strip('-') or 'Plant'
    sheet = Sheet(title, arguments.date, source_of(plant), library.limits['VERSION'], library.read(plant.data), weights, contents, answer, cycle, quotes)
    picture, missing = page.picture(plant, cycle)
    keep(arguments.output, page.html(plant, sheet, picture).encode(errors='replace'), arguments)
    verdict = 'cycle' if cycle else 'passed'
    words = '%s: wrote %s' % (verdict, arguments.output) + (', without a drawing: %s' % missing if missing else '')
    return Outcome(NO if cycle else YES, {'answer': verdict, 'file': arguments.output, 'drawing': not missing}, words)


def add(commands):
    one = commands.add('report', report, 'write the sheet for the contract, an HTML page that prints on A4',
                       'Write one HTML page, with nothing from outside: the plant\'s drawing (where Graphviz is installed), the weights beside the figures,\n'
                       'the ceiling in the words of the contract, ceilings and price classes for each G with each D; or the cycle in red, with its rows.\n'
                       + MOST_DOUBLINGS,
                       '  hemtaluq report plant.txt -w request=2 answer=1 -c request=3 answer=4 -o sheet.html --title "Kiln 2, Rauhdorf"\n'
                       '  hemtaluq report plant.txt -w request=2 answer=1 -c request=3 answer=4 -o sheet.html -g 1 10 -d 0 3\n\n' + AMOUNTS)
    add_weights(one)
    add_contents(one)
    one.add_argument('-g', type=whole_number, nargs='+', action='extend', metavar='G', help='the numbers of progress rows to quote (default: 0 1 10 … 10000)')
    one.add_argument('-d', type=whole_number, nargs='+', action='extend', metavar='D', help='the numbers of doublings to quote (default: 0)')
    add_output(one, 'the page to write', required=True)
    one.add_argument('--title', metavar='TEXT', help='the heading (default: the name of the plant\'s file)')
    one.add_argument('--date', metavar='TEXT', default=datetime.date.today().isoformat(), help='the date on the sheet (default: today)')
