"""The sheet for the contract: one HTML page without anything from outside, for a screen and for A4."""
import re
from html import escape

from . import drawing
from .outcomes import BadInput
from .texts import counted, grouped
from .words import DOUBLING, PRICE_CLASS, SETTING, bound, opening_weight

# How long the drawing may take.
SECONDS = 60
STYLE = '''@page { size: A4; margin: 16mm }
* { box-sizing: border-box }
body { font: 10.5pt/1.4 "DejaVu Sans", Arial, sans-serif; color: #1b1b1b; max-width: 178mm; margin: 8mm auto; padding: 0 2mm }
h1 { font-size: 17pt; margin: 0 0 1mm } h2 { font-size: 12pt; margin: 6mm 0 2mm; border-bottom: 0.3mm solid #999 }
.about { color: #555; margin: 0 0 4mm; overflow-wrap: anywhere }
.verdict { border: 0.5mm solid #1d6b35; padding: 3mm 4mm; margin: 4mm 0; overflow-wrap: anywhere } .verdict.cycle { border-color: #c00000 }
.verdict strong { font-size: 13pt; color: #1d6b35 } .verdict.cycle strong, .red, .red td { color: #c00000 }
.formula { font-size: 13pt; margin: 2mm 0 } .pair { display: flex; gap: 8mm; align-items: flex-start }
table { border-collapse: collapse; margin: 1mm 0 2mm; max-width: 100%; min-width: 0 } .number { text-align: right; white-space: nowrap }
th, td { border: 0.2mm solid #aaa; padding: 0.7mm 2.5mm; text-align: left } td { overflow-wrap: anywhere } th { background: #eee }
figure { margin: 0; text-align: center } figure svg { max-width: 100%; max-height: 200mm; height: auto } figcaption { color: #555; font-size: 9pt }
tr, figure, .verdict { break-inside: avoid } h2 { break-after: avoid } thead { display: table-header-group }
footer { margin-top: 6mm; font-size: 9pt; color: #333 } footer p { margin: 1mm 0 }
@media print { body { margin: 0; padding: 0; max-width: none } }'''


CAPTION = 'An arrow is a row, with its number. !type: the row sends it. ?type: it takes one, before it sends. ★ and a double line: progress.'


def cell(value):
    """A cell of a table; numbers stand to the right."""
    return '<td class="number">%s</td>' % grouped(value) if isinstance(value, int) else '<td>%s</td>' % escape(value)


def table(head, rows, red=()):
    """A table; the rows whose first cell is among `red` are red."""
    lines = ['<table>', '<thead><tr>%s</tr></thead>' % ''.join('<th>%s</th>' % escape(one) for one in head)]
    lines += ['<tr%s>%s</tr>' % (' class="red"' if row[0] in red else '', ''.join(map(cell, row))) for row in rows]
    return '\n'.join(lines + ['</table>'])


def picture(plant, red):
    """Graphviz's drawing, and why there is none."""
    try:
        found = re.search(r'<svg.*</svg>', drawing.picture(plant, red, 'svg', SECONDS).decode(errors='replace'), re.S)
        if found is None:
            raise BadInput('Graphviz\'s dot made something else')
    except BadInput as wrong:
        return '<p>No drawing: %s.</p>' % escape(str(wrong)), str(wrong)
    return '<figure>%s<figcaption>%s%s</figcaption></figure>' % (found.group(), CAPTION, ' Red: the cycle.' if red else ''), ''


def rows_table(plant, numbers, red=()):
    rows = []
    for number in numbers:
        m, row = plant.rows[number]
        machine = plant.machines[m]
        rows.append((number, machine.name, machine.states[row.left], machine.states[row.entered], plant.types[row.sent] if row.sent is not None else '',
                     plant.types[row.taken] if row.taken is not None else '', '★' if row.progress else ''))
    return table(('row', 'machine', 'leaves', 'enters', 'sends', 'takes', 'progress'), rows, red)


def passed_part(plant, sheet):
    answer, quotes = sheet.answer, [(g, d, quote.ceiling, quote.price_class) for g, d, quote in sheet.quotes]
    figures = [('F', answer.base, 'with empty buffers'), ('n', answer.most_states, 'for each unit of W'), ('G', answer.per_progress, 'for each progress row'),
               ('n × w', answer.per_doubling, 'for each doubling')]
    return [
        '<section class="verdict passed"><strong>Passed</strong>', '<p>%s the quiet rows (rows without progress) that happen number at most</p>' % SETTING,
        '<p class="formula">%s</p>' % escape(bound(answer)),
        '<p>W is the weight of what the buffers hold at the start, %s; g counts the progress rows that happen, and d the doublings. %s</p></section>'
        % (escape(opening_weight(plant, sheet.weights)), DOUBLING),
        '<h2>Weights and figures</h2>', '<div class="pair">',
        table(('message type', 'weight', 'opening content'), list(zip(plant.types, sheet.weights, sheet.contents))),
        table(('figure', 'value', 'meaning'), figures), '</div>', '<p>n is the most states of a machine, w the largest weight.</p>', '<h2>Ceilings</h2>',
        '<p>No run that opens with these contents, from any states, with at most g progress rows and at most d doublings, has more quiet rows than the '
        'ceiling.</p>', table(('progress rows g', 'doublings d', 'ceiling', 'price class'), quotes), '<p>%s</p>' % PRICE_CLASS]


def cycle_part(plant, sheet):
    machine = plant.machines[plant.rows[sheet.cycle[0]][0]].name
    return [
        '<section class="verdict cycle"><strong>Not passed</strong>',
        '<p>A quiet cycle of machine %s, of %s, weighs zero or more: these weights do not rule out that it goes on for ever without progress. No '
        'quiet cycle that weighs zero or more, of any machine, has fewer rows.</p></section>' % (escape(machine), counted(len(sheet.cycle), 'row')),
        '<h2>The cycle</h2>', rows_table(plant, sheet.cycle, set(sheet.cycle)),
        '<h2>Weights</h2>', table(('message type', 'weight'), list(zip(plant.types, sheet.weights)))]


def closing(sheet):
    """What is proved and what is not."""
    said = 'the verdict and the cycle are answers' if sheet.cycle else 'the verdict, the figures and the ceilings with their classes are answers'
    then = 'every other such cycle has at least as many rows' if sheet.cycle else 'the bound holds for every run of the plant file named above'
    return ['<footer>',
            '<p><b>Proved:</b> %s of libhemtaluq, version %d, whose calls are proved to meet their contracts; %s.</p>' % (said, sheet.version, then),
            '<p><b>Not proved:</b> that this plant is the one on site, its names and its drawing, and the program that made this page of the answers.</p>',
            '</footer>']


def html(plant, sheet, drawn):
    """The page, with the plant's drawing."""
    about = '%s · %s, %s, %s · %s' % (sheet.date, counted(sheet.counts.machines, 'machine'), counted(sheet.counts.types, 'type'),
                                      counted(sheet.counts.rows, 'row'), sheet.source)
    lines = ['<!DOCTYPE html>', '<html lang="en">', '<head>', '<meta charset="utf-8">', '<title>%s</title>' % escape(sheet.title),
             '<style>\n%s\n</style>' % STYLE, '</head>', '<body>', '<h1>%s</h1>' % escape(sheet.title), '<p class="about">%s</p>' % escape(about)]
    lines += cycle_part(plant, sheet) if sheet.cycle else passed_part(plant, sheet)
    lines += ['<h2>The plant</h2>', drawn, '<h2>Its rows</h2>', rows_table(plant, range(len(plant.rows)), set(sheet.cycle))]
    return '\n'.join(lines + closing(sheet) + ['</body>', '</html>', ''])
