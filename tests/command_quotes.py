"""`weigh` and `quote` on random plants, with contents, g and d within the limits and above: the command says the figures, the ceilings, the price
classes and the refusals of the independent implementation, and beside them the numbers that it was asked for.

PLANTED are errors in the command, one at a time, that these comparisons must find.
"""
import random
import sys
from argparse import Namespace
from unittest import mock

import evidence_plants
from command_texts import Wrong, drawn, loaded
from evidence_independent import Independent, Refused

from hemtaluq import binding, calls, outcomes, words
from hemtaluq.commands import weighing

QUOTES = 2000
SHAPES = [evidence_plants.passing, evidence_plants.passing, evidence_plants.small, evidence_plants.one_state, evidence_plants.many_types]
# Values of g and d. 4,294,967,296 and above would be small numbers, if they wrapped at their width.
COUNTS = [0, 0, 1, 2, 3, 700, 999999, 1000000, 1000001, 4294967295, 4294967296, 4294967299]


def counted(number, noun):
    return '%s %s%s' % ('{:,}'.format(number), noun, 's' if number != 1 else '')


def hold_figures(plant, weights, got, owed):
    """What `weigh` says of weights that pass, to people and to scripts."""
    figures = list(map(int, owed.split()[1:]))
    formula = 'at most %s + %s × W + %s × g + %s × d quiet rows' % tuple('{:,}'.format(number) for number in figures)
    if got.text.split('\n')[0] != owed or formula not in got.text or [got.answer[name] for name in ('F', 'n', 'G', 'nw')] != figures:
        raise Wrong('weigh: plant %s, weights %s: %s' % (plant.data.hex(), weights, got))


def hold_ceiling(plant, g, d, got, owed):
    ceiling, price_class = map(int, owed.split()[1:])
    sentence = ' and has at most %s and at most %s has more than %s.' % (counted(g, 'progress row'), counted(d, 'doubling'), counted(ceiling, 'quiet row'))
    if not got.text.startswith('ceiling %d, price class %d\nNo run that opens with' % (ceiling, price_class)) or not got.text.endswith(sentence) \
            or [got.answer[name] for name in ('ceiling', 'class', 'g', 'd')] != [ceiling, price_class, g, d]:
        raise Wrong('quote: plant %s, g %d, d %d: %s' % (plant.data.hex(), g, d, got))


def hold_refusal(plant, contents, g, d, got, owed):
    """The number and the place; a content, g or d is told with its name and its value."""
    names = ['the content of ' + name for name in plant.types] + ['g', 'd']
    told = '%s is %s' % (names[owed[1]], '{:,}'.format([*contents, g, d][owed[1]])) if owed[0] == 21 else None
    if (got.number, got.place) != owed or told not in (None, got.where):
        raise Wrong('quote: plant %s, contents %s, g %d, d %d, refused %d %d: %s' % (plant.data.hex(), contents, g, d, *owed, got))


def quote(library, independent, plant, other, weights, contents, g, d):
    """The kind of the answer, which is that of the independent implementation: a ceiling, and whether with doublings; or the number of a refusal, and
    its place less the count of types: 0 for g, 1 for d."""
    arguments = Namespace(plant=plant, weights=list(map(str, weights)), contents=list(map(str, contents)), g=g, d=d, output=None)
    try:
        owed = independent.quote(other, weights, contents, g, d)
    except Refused as refused:
        try:
            raise Wrong('quote: plant %s is not refused: %s' % (plant.data.hex(), weighing.quote(library, arguments)))
        except outcomes.Refused as got:
            hold_refusal(plant, contents, g, d, got, refused.args)
        return refused.args[0], refused.args[1] - other.types
    hold_ceiling(plant, g, d, weighing.quote(library, arguments), owed)
    hold_figures(plant, weights, weighing.weigh(library, arguments), independent.weigh(other, weights, 64))
    return 'ceiling', d > 0


def quotes(library, seed, count):
    """The kinds of answers that the quotes had."""
    rng, independent, kinds = random.Random(seed), Independent(), []
    for _ in range(count):
        data = evidence_plants.plant_file(rng, *drawn(rng, rng.choice(SHAPES)))
        plant, other = loaded(library, data), independent.plant(data)
        weights, contents = evidence_plants.weights_for(rng, other.types), evidence_plants.contents_for(rng, other.types)
        if weights and contents:
            kinds.append(quote(library, independent, plant, other, weights, contents, rng.choice(COUNTS), rng.choice(COUNTS)))
    return kinds


# ---- planted errors

def asked_with(change):
    """The call gets other numbers of progress rows and doublings."""
    return lambda library, plant, weights, contents, g, d: calls.quoted(library, plant, weights, contents, *change(g, d))


def d_as_g(plant, *numbers, where_in_amounts=words.where_in_amounts):
    """What is told of d is what is told of g."""
    return lambda number, place: where_in_amounts(plant, *numbers)(number, min(place, len(plant.types)))


def without_weight(answer, figures_of=words.figures_of):
    """The last figure is n, without the largest weight."""
    return dict(figures_of(answer), nw=answer.most_states)


PLANTED = [
    ('d is not handed on', weighing, 'quoted', asked_with(lambda g, d: (g, 0))),
    ('g and d are handed on for each other', weighing, 'quoted', asked_with(lambda g, d: (d, g))),
    ('g and d wrap at their width', binding, 'fitting', lambda number, kind: number),
    ('a d above the limit is told as g', calls, 'where_in_amounts', d_as_g),
    ('n is told in place of n × w', words, 'figures_of', without_weight),
    ('n is told to scripts in place of n × w', weighing, 'figures_of', without_weight),
]


def catches(library):
    """How many planted errors are found."""
    for name, module, attribute, wrong in PLANTED:
        try:
            with mock.patch.object(module, attribute, wrong):
                quotes(library, 1, 300)
        except (Wrong, outcomes.NotDone):
            continue
        sys.exit('command.py: quotes: the planted error "%s" is not found' % name)
    return len(PLANTED)


def hold(seed):
    """How many quotes were held, and how many planted errors were found."""
    library = binding.load()
    try:
        kinds = quotes(library, seed, QUOTES)
    except (Wrong, outcomes.NotDone) as wrong:
        sys.exit('command.py: %s' % wrong)
    if min(kinds.count(kind) for kind in (('ceiling', True), ('ceiling', False), (21, 0), (21, 1))) < 50:
        sys.exit('command.py: quotes: a kind of answers is rare')
    return len(kinds), catches(library)
