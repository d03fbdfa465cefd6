"""A plant as Graphviz text: a cluster for each machine, states as nodes, rows as edges; and pictures by Graphviz's dot."""
import shutil
import subprocess

from .outcomes import BadInput


def label_of(plant, number, row):
    """A row's number, ?type for a type taken, then !type for a type sent, as it takes first, and a star for progress."""
    words = [str(number)]
    words += ['?' + plant.types[row.taken]] if row.taken is not None else []
    words += ['!' + plant.types[row.sent]] if row.sent is not None else []
    return ' '.join(words + (['★'] if row.progress else []))


def edge(plant, m, number, row, red):
    marks = ['label="%s"' % label_of(plant, number, row)]
    marks += ['color="black:white:black"'] if row.progress else []
    marks += ['color=red', 'fontcolor=red'] if number in red else []
    return '    m%ds%d -> m%ds%d [%s];' % (m, row.left, m, row.entered, ', '.join(marks))


def graphviz(plant, red=()):
    """The text for dot; the rows named are red. The last machine comes first: dot draws from the bottom up."""
    lines = ['digraph plant {', '  rankdir=LR;', '  graph [fontname="Helvetica"];', '  node [shape=ellipse, fontname="Helvetica"];',
             '  edge [fontname="Helvetica"];']
    for m, machine in reversed(list(enumerate(plant.machines))):
        lines += ['  subgraph cluster_%d {' % m, '    label="%s";' % machine.name]
        lines += ['    m%ds%d [label="%s"];' % (m, s, state) for s, state in enumerate(machine.states)]
        lines += [edge(plant, m, number, row, red) for number, row in enumerate(machine.rows, plant.first_row(m))]
        lines.append('  }')
    return '\n'.join(lines + ['}'])


def picture(plant, red, form, seconds=None):
    """The bytes of a picture, such as an svg. Plants of very many rows take dot minutes."""
    if shutil.which('dot') is None:
        raise BadInput('a picture needs Graphviz\'s dot, of Debian\'s package graphviz, which is not installed')
    try:
        done = subprocess.run(['dot', '-T' + form], input=graphviz(plant, red).encode(), capture_output=True, timeout=seconds, check=False)
    except subprocess.TimeoutExpired:
        raise BadInput('Graphviz\'s dot takes longer than %d s' % seconds) from None
    if done.returncode:
        raise BadInput('Graphviz\'s dot makes no %s: %s' % (form, done.stderr.decode(errors='replace').strip()))
    return done.stdout
