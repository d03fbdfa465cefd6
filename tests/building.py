"""What the tests build. Each is built anew from the source, whatever is there already, and once in a process: no test judges an old program.

What is proved and unchanged takes `rt` a moment only.
"""
import functools
import os
import subprocess
import sys

ROOT = os.path.dirname(os.path.dirname(os.path.abspath(__file__)))


def run(*command, folder=ROOT):
    done = subprocess.run(command, cwd=folder, stdin=subprocess.DEVNULL, capture_output=True, text=True)
    if done.returncode != 0:
        sys.exit('building.py: %s failed:\n%s' % (' '.join(command), (done.stdout + done.stderr)[-3000:]))


@functools.lru_cache(None)
def ceiling():
    """The path of the program `ceiling`. `rt run` runs it once, in the folder of the crate."""
    crate = os.path.join(ROOT, 'crates', 'ceiling')
    run('rt', 'run', folder=crate)
    return os.path.join(crate, 'out', 'ceiling')


@functools.lru_cache(None)
def dist():
    """The folder with the static library and its header."""
    run('tools/dist')
    return os.path.join(ROOT, 'dist')
