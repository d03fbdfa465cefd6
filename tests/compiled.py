"""Compare the compiled calls with second implementations: reading.py, weighing.py, quoting.py, listing.py,
cycle_sets.py, writing.py and watching.py.

The calls are those of the C interface. The library is built in a folder of its own, from a copy of the crates in which the
interface has one export more, of what `decode` holds, and so uses `decoding`. What rt keeps of the same crates' proofs is used.

    python3 tests/compiled.py [SEED]
"""
import os
import shutil
import subprocess
import sys
import tempfile

import cycle_sets
import figures
import listing
import quoting
import reading
import watching
import weighing
import writing

ROOT = os.path.dirname(os.path.dirname(os.path.abspath(__file__)))
PARTS = {'reading': reading, 'weighing': weighing, 'quoting': quoting, 'listing': listing, 'cycle_sets': cycle_sets, 'writing': writing,
         'watching': watching}


def run(folder, command):
    done = subprocess.run(command, cwd=folder, capture_output=True, text=True)
    if done.returncode != 0:
        sys.exit('compiled.py: %s failed:\n%s' % (' '.join(command), (done.stdout + done.stderr)[-3000:]))


def build(folder):
    for part in ('crates', 'include'):
        shutil.copytree(os.path.join(ROOT, part), os.path.join(folder, part), ignore=shutil.ignore_patterns('out'))    # others write there
    with open(os.path.join(ROOT, 'crates.txt'), encoding='utf-8') as source, open(os.path.join(folder, 'crates.txt'), 'w', encoding='utf-8') as out:
        out.write(source.read().replace('\ncabinet_c staticlib: ', '\ncabinet_c staticlib: decoding '))
    with open(os.path.join(folder, 'crates', 'cabinet_c', 'src', 'lib.rt'), 'a', encoding='utf-8') as source:
        source.write(reading.PROBE)
    crates = ('cabinet_c', 'panel_c')
    for crate in crates:
        run(os.path.join(folder, 'crates', crate), ['rt', 'lib'])
    libraries = [word for crate in crates for word in ('-Lcrates/%s/out' % crate, '-l' + crate)]
    for name, part in PARTS.items():
        with open(os.path.join(folder, name + '.c'), 'w', encoding='utf-8') as out:
            out.write(part.DRIVER)
        run(folder, ['gcc', '-O2', '-Wall', '-Wextra', '-Werror', '-Iinclude', name + '.c', *libraries, '-o', name])


def main():
    seed = int(sys.argv[1]) if len(sys.argv) > 1 else figures.SEED
    with tempfile.TemporaryDirectory() as folder:
        build(folder)
        cases = sum(part.compare(os.path.join(folder, name), seed) for name, part in PARTS.items())
    print('compiled.py: %d cases in all' % cases)
    if seed == figures.SEED:
        figures.hold(compiled_cases=cases)


if __name__ == '__main__':
    main()
