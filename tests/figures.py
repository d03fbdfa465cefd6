"""The figures of README's section Tests. A test holds each of its own to what it counted, so it fails where README says otherwise.

FIGURES has for each figure the phrase that it stands in, with # in its place. documents.py holds that each phrase stands in
the section once, that no other number does, and that a test holds each figure. The figures are those of the tests as the
gate runs them: with another seed, or more cases, nothing is held.
"""
import os
import re
import sys

ROOT = os.path.dirname(os.path.dirname(os.path.abspath(__file__)))
SEED = 2006
FIGURES = {
    'planted_in_all': 'takes on # planted errors',
    'planted_in_the_product': '# in the product',
    'planted_in_implementations': '# in the independent implementation and in the listings of networkx',
    'planted_in_solutions': '# in the solver\'s inequalities and in certificates',
    'planted_in_runs': '# in the simulator and the bound',
    'share_of_the_bound': 'they came to # % of it',
    'defined_numbers': '# numbers on random plants',
    'compiled_cases': '# files, plants, lists and sets',
    'watched_events': '# events put to a watcher',
    'watched_happened': '# of which happen',
    'small_plants': '# plants of up to three rows',
    'small_files': 'none of their # files',
    'chains': '# listings, within',
    'chain_milliseconds': 'within # ms of CPU time each',
    'judged_by_mean': '# machines with too many cycles',
    'shaped_plants': '# plants of many shapes',
    'damaged_files': '# truncated and damaged files',
    'twin_files': '# files with twins or near twins',
    'other_lengths': '# lengths of lent lists',
    'damaged_lists': '# truncated and damaged lists of numbers',
    'twin_lists': '# lists with twins or near twins',
    'buffer_lengths': '# lengths of buffers',
    'written_anew': '# plants written anew',
    'written_shorter': '# of them in fewer bytes',
    'certificates': '# stored certificates',
    'solved_anew': '# plants solved anew',
    'listed_machines': '# machines |',
    'events': '# events that happen',
    'doublings': '# of them doublings',
    'maxima': '# exact maxima',
    'maxima_with_doublings': '# of which meet the ceiling with a doubling',
    'stored_runs': '# stored runs |',
    'watched_lists': '# lists of events |',
    'program_runs': '# runs, files missing',
    'program_missing': 'files missing in #',
    'interface_checks': '# checks',
    'cabinet_runs': '# runs of each cabinet program',
    'designer_runs': '# runs of each designer program',
    'panel_runs': '# runs of each panel program',
    'example_lines': '# lines |',
    'command_runs': '# stored runs, ',
    'command_texts': ', # texts |',
    'command_plants': '# plants there and back',
    'command_planted': '# planted errors found |',
    'command_quotes': '# quotes of random plants',
    'command_lines': '# lines of random runs',
}
# Numbers that are no figures.
OTHERS = ['document 01', 'length 0', 'C99', '(1) to (4)', 'n = 1', 'w = 0']


def section():
    with open(os.path.join(ROOT, 'README.md'), encoding='utf-8') as source:
        text = source.read()
    return ' '.join(text.split('\n## Tests\n')[1].split('\n## ')[0].split())


def pattern(phrase):
    before, after = phrase.split('#')
    return r'(?<![\d,])%s(\d[\d,]*)%s' % (re.escape(before), re.escape(after))


def hold(**counted):
    """Stop where README has another number than was counted."""
    text = section()
    for name, number in counted.items():
        found = re.findall(pattern(FIGURES[name]), text)
        if found != ['{:,}'.format(number)]:
            sys.exit('figures.py: README has %s for "%s", but %s were counted' % (' and '.join(found) or 'nothing', FIGURES[name], '{:,}'.format(number)))


def faults(sources):
    """What is wrong with the section: a phrase not there once, a figure that no test holds, a number that is no figure."""
    text, wrong = section(), []
    for name, phrase in FIGURES.items():
        if len(re.findall(pattern(phrase), text)) != 1:
            wrong.append('README: "%s" stands in the section Tests %d times' % (phrase, len(re.findall(pattern(phrase), text))))
        if not any(re.search(r'\b%s=' % name, source) for source in sources):
            wrong.append('figures.py: no test holds %s' % name)
    for phrase in FIGURES.values():
        text = re.sub(pattern(phrase), phrase, text)
    for phrase in OTHERS:
        text = text.replace(phrase, '')
    return wrong + ['README: nothing holds the number %s of the section Tests' % number for number in re.findall(r'\d[\d,]*', text)]
