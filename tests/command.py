"""The command for people, tools/hemtaluq: its texts, its words, its pages, its search for weights, and its installation.

- stored runs: data/command.txt, and the runs that README.md and examples/README.md show (command_runs.py)
- plant texts: wrong ones, and the way there and back of the plants of the evidence (command_texts.py)
- figures and ceilings: random plants, contents, progress rows and doublings (command_quotes.py)
- runs that are watched: random plants and events, over a pipe, and ended by Ctrl-C (command_watch.py)
- weights: the plants of the stored certificates, and a solver that answers anything (command_weights.py)
- pages: their structure, and in a browser (command_page.py)
- installed by `tools/dist --prefix`: the command, the shared library by pkg-config, and what is refused: another version, no library

Where glpsol, dot, chromium or pkg-config is not installed, the last line says what was not tried.

    python3 tests/command.py [SEED]
"""
import glob
import os
import re
import shlex
import shutil
import subprocess
import sys
import tempfile

import building
import figures

building.dist()

import command_page  # noqa: E402
import command_quotes  # noqa: E402
import command_runs  # noqa: E402
import command_texts  # noqa: E402
import command_watch  # noqa: E402
import command_weights  # noqa: E402

ROOT = building.ROOT
# A group of commands, in a file of its own.
GROUP = '''from ..outcomes import YES, Outcome
ORDER = 99
def add(commands):
    commands.add('largest', lambda library, arguments: Outcome(YES, {}, str(library.limits['LARGEST_WEIGHT'])), 'the largest weight', '', plant=False)
'''
# Runs that need a program which may be missing.
NEEDS = {'glpsol': r'hemtaluq weights ', 'dot': r'\.svg'}


def text_of(path):
    with open(os.path.join(ROOT, path), encoding='utf-8') as source:
        return source.read()


def readme_section():
    return text_of('README.md').split('\n## From a drawing to a sheet\n')[1].split('\n## ')[0]


def shown_in_readme():
    """The runs that README.md shows."""
    return command_runs.stored('\n'.join(line[4:] for line in readme_section().split('\n') if not line or line.startswith('    ')))


def shown_in_examples():
    """The runs that examples/README.md shows, between lines of three backquotes."""
    return command_runs.stored(''.join(text_of('examples/README.md').split('```\n')[1::2]))


def hold_commands():
    """README.md names the commands that the help has, in its order."""
    helped = re.findall(r'(?m)^    (\w+) ', run([os.path.join(ROOT, 'tools', 'hemtaluq'), '--help']))
    named = re.findall(r'`(\w+)`', re.split(r'\sof it \(', readme_section())[1].split(')')[0])
    if helped != named:
        sys.exit('command.py: README.md names %s, where the help has %s' % (named, helped))


def hold_runs(folder):
    """All stored runs whose programs are there."""
    sources = (('data/command.txt', command_runs.stored(command_runs.without_comments(text_of('tests/data/command.txt')))),
               ('README.md', shown_in_readme()), ('examples/README.md', shown_in_examples()))
    os.symlink(os.path.join(ROOT, 'examples'), os.path.join(folder, 'examples'))
    os.symlink(os.path.join(ROOT, 'tools'), os.path.join(folder, 'tools'))
    count = 0
    for where, runs in sources:
        count += command_runs.hold(folder, [run for run in runs if not any(re.search(need, run[0]) and not shutil.which(program)
                                                                            for program, need in NEEDS.items())], where)
    return count, sum(len(runs) for _, runs in sources)


# ---- installed

def run(command, status=0, **options):
    done = subprocess.run(command, capture_output=True, text=True, check=False, **options)
    if done.returncode != status:
        sys.exit('command.py: %s: exit status %d\n%s' % (' '.join(command), done.returncode, done.stdout + done.stderr))
    return done.stdout + done.stderr


def hold_installed(folder):
    """The command under a prefix, from another folder and by a link; and without a library, or with one of another version."""
    prefix, plant = os.path.join(folder, 'the prefix'), os.path.join(ROOT, 'examples', 'plant_a', 'plant.txt')
    os.makedirs(os.path.join(prefix, 'lib', 'hemtaluq', 'commands'))
    os.makedirs(os.path.join(folder, 'dist'))
    old, gone = [os.path.join(prefix, 'lib', name) for name in ('libhemtaluq.so.2', 'hemtaluq/commands/gone.py')]
    for path in [old, gone] + [os.path.join(folder, 'dist', name) for name in ('libhemtaluq.so', 'hemtaluq.h')]:
        with open(path, 'w', encoding='ascii') as out:
            out.write('older, or another product\'s')
    run([os.path.join(ROOT, 'tools', 'dist'), '--prefix', 'the prefix'], cwd=folder)
    if not os.path.exists(old) or os.path.exists(gone) or glob.glob(os.path.join(prefix, '**', '__pycache__'), recursive=True):
        sys.exit('command.py: a file of an older command stays in the prefix, or an older library does not')
    os.symlink(os.path.join(prefix, 'bin', 'hemtaluq'), os.path.join(folder, 'linked'))
    for command in (os.path.join(prefix, 'bin', 'hemtaluq'), os.path.join(folder, 'linked')):
        if not run([command, 'weigh', plant, '-w', '2', '1'], cwd='/').startswith('passed 10 2 9 4\n'):
            sys.exit('command.py: the installed command answers otherwise')
    header = os.path.join(prefix, 'include', 'hemtaluq.h')
    with open(header, encoding='utf-8') as source:
        text = source.read()
    for version in (1, 999):
        with open(header, 'w', encoding='utf-8') as out:
            out.write(re.sub(r'(#define HEMTALUQ_VERSION) \d+', r'\1 %d' % version, text))
        if 'of version %d; run tools/dist again' % version not in run([command, 'weigh', plant], 2):
            sys.exit('command.py: a library of another version than the header\'s is used')
    with open(header, 'w', encoding='utf-8') as out:
        out.write(text)
    with open(os.path.join(prefix, 'lib', 'hemtaluq', 'commands', 'group.py'), 'w', encoding='utf-8') as out:
        out.write(GROUP)
    if run([command, 'largest']) != '1000\n' or 'the largest weight' not in run([command, '--help']):
        sys.exit('command.py: a group of commands is not found by its file')
    return prefix, command


def hold_linked(folder, prefix):
    """A program of examples/ with the shared library, found by pkg-config; with the library of another version it does not start."""
    program, environment = os.path.join(folder, 'cabinet'), dict(os.environ, PKG_CONFIG_PATH=os.path.join(prefix, 'lib', 'pkgconfig'))
    found = shlex.split(run(['pkg-config', '--cflags', '--libs', 'hemtaluq'], env=environment))
    run(['gcc', os.path.join(ROOT, 'examples/cabinet/cabinet.c'), *found, '-o', program])
    arguments = [program] + [os.path.join(ROOT, 'examples/plant_a', name) for name in ('plant.bin', 'weights.bin')] + ['1', '0', '3', '4']
    version = os.readlink(os.path.join(prefix, 'lib', 'libhemtaluq.so')).rsplit('.', 1)[1]
    if run(['pkg-config', '--modversion', 'hemtaluq'], env=environment) != version + '\n' or 'libhemtaluq.so.' + version not in run(['objdump', '-p', program]):
        sys.exit('command.py: the shared library does not carry its version')
    environment['LD_LIBRARY_PATH'] = os.path.join(prefix, 'lib')
    if run(arguments, env=environment) != 'at most 39 steps without a fresh reading (price class 6)\n':
        sys.exit('command.py: the program with the shared library answers otherwise')
    shared = os.path.join(prefix, 'lib', os.readlink(os.path.join(prefix, 'lib', 'libhemtaluq.so')))
    os.rename(shared, shared + '9')
    if 'cannot open shared object file' not in run(arguments, 127, env=environment):
        sys.exit('command.py: a program starts with the library of another version')
    os.rename(shared + '9', shared)


def hold_broken(prefix, command):
    """With a header that is none, or without it, the command says what to do."""
    header = os.path.join(prefix, 'include', 'hemtaluq.h')
    with open(header, 'w', encoding='ascii') as out:
        out.write('no header')
    told = run([command, 'weigh', '-'], 2)
    os.remove(header)
    if 'is not its header; run tools/dist again' not in told or 'needs the kit\'s rt, proves and makes them' not in run([command, 'weigh', '-'], 2):
        sys.exit('command.py: the command without its library and header')


def main():
    seed = int(sys.argv[1]) if len(sys.argv) > 1 else figures.SEED
    missing = [program for program in ('glpsol', 'dot', 'chromium', 'pkg-config') if not shutil.which(program)]
    with tempfile.TemporaryDirectory() as folder:
        hold_commands()
        tried, runs = hold_runs(folder)
        texts, plants, planted = command_texts.hold(seed)
        quotes, planted_in_quotes = command_quotes.hold(seed)
        lines, planted_in_watch = command_watch.hold(seed)
        certificates, planted_in_weights = command_weights.hold(seed)
        planted += planted_in_quotes + planted_in_watch + planted_in_weights
        command_page.hold(folder)
        prefix, command = hold_installed(folder)
        if 'pkg-config' not in missing:
            hold_linked(folder, prefix)
        hold_broken(prefix, command)
    figures.hold(command_runs=runs, command_texts=texts, command_plants=plants, command_quotes=quotes, command_lines=lines, command_planted=planted)
    print('command.py: %d stored runs, %d texts, %d plants there and back, %d quotes, %d lines of runs, weights on %d plants, pages, installation, '
          '%d planted errors found%s'
          % (tried, texts, plants, quotes, lines, certificates, planted,
             '; not installed, so what needs them was not tried: ' + ', '.join(missing) if missing else ''))


if __name__ == '__main__':
    main()
