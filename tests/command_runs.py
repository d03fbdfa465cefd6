"""Runs of the command as stored: data/command.txt, and what README.md and examples/README.md show. Each is run by bash in a folder with the examples."""
import os
import re
import subprocess
import sys

ROOT = os.path.dirname(os.path.dirname(os.path.abspath(__file__)))


def stored(text):
    """The runs of a text: each command, and what it prints, with the exit status in brackets where that is not 0."""
    runs = []
    for line in text.split('\n'):
        if line.startswith('$ '):
            runs.append((line[2:], []))
        elif runs:
            runs[-1][1].append(line)
    return [(command, '\n'.join(lines)) for command, lines in runs]


def without_comments(text):
    """The text up to its first run, and what stands between a blank line with a comment and the next run, left out."""
    return re.sub(r'(?m)^# .*\n|\n(?=# )', '', text)


def printed(folder, command):
    environment = dict(os.environ, PATH=os.path.join(ROOT, 'tools') + ':' + os.environ['PATH'])
    done = subprocess.run(['bash', '-c', command], cwd=folder, env=environment, stdout=subprocess.PIPE, stderr=subprocess.STDOUT, text=True, check=False)
    return done.stdout + ('[%d]\n' % done.returncode if done.returncode else '')


def hold(folder, runs, where):
    """Stop at the first run that prints something else."""
    for command, owed in runs:
        got = printed(folder, command)
        if got.strip('\n') != owed.strip('\n'):
            sys.exit('command.py: %s: `%s` prints\n%s\nwhere this is stored:\n%s' % (where, command, got, owed))
    return len(runs)
