"""Outside evidence: the proved calls held against the world. Each part prints one line with its counts.

- answers: the six calls against an independent implementation, on plants of many shapes and on damaged files and lists
- solver: an outside solver's solutions of the published test, judged by the calls
- cycles: listings against an outside library for graphs
- runs: long runs and exact maxima against the bound
- program: `ceiling` as a process
- watching: the calls on a watcher, with errors planted in them

Every part also takes on planted errors, one after the other, and stops when it does not find one: in what the product is held
against, and in the product itself (evidence_product.py, evidence_program.py, evidence_watching.py). Where networkx or glpsol is not installed, the
part says what is not run. All is drawn from the seed. The calls are those of the static library in dist/, which is built here.
What is counted must be what README's section Tests says (figures.py).

    python3 tests/evidence.py [--long] [--only PART] [SEED]
"""
import argparse
import sys
import tempfile
import time
from collections import Counter

import evidence_answers
import evidence_calls
import evidence_cycles
import evidence_program
import evidence_runs
import evidence_solver
import evidence_watching
import figures

# A part gives what it counted, and the names of the figures that it could not count in full.
PARTS = {
    'answers': evidence_answers.main,
    'solver': lambda program, folder, seed, long: evidence_solver.main(program, seed, long),
    'cycles': lambda program, folder, seed, long: evidence_cycles.main(program, seed, long),
    'runs': evidence_runs.main,
    'program': lambda program, folder, seed, long: evidence_program.main(seed, long),
    'watching': lambda program, folder, seed, long: evidence_watching.main(folder, seed, long),
}


def hold_figures(counted, missing):
    figures.hold(**{name: number for name, number in counted.items() if name not in missing})


def main():
    parser = argparse.ArgumentParser()
    parser.add_argument('--long', action='store_true', help='several times as many cases')
    parser.add_argument('--only', choices=PARTS, help='one part only')
    parser.add_argument('seed', nargs='?', type=int, default=figures.SEED)
    given = parser.parse_args()
    sys.stdout.reconfigure(line_buffering=True)
    start, counted, missing = time.time(), Counter(), []
    with tempfile.TemporaryDirectory() as folder:
        program = evidence_calls.build(folder)
        for name, part in PARTS.items():
            if given.only in (None, name):
                numbers, absent = part(program, folder, given.seed, given.long)
                counted.update(numbers)
                missing += absent
    planted = sum(number for name, number in counted.items() if name.startswith('planted_'))
    print('evidence: seed %d, %d planted errors taken on and found, %d of them in the product; %d seconds'
          % (given.seed, planted, counted['planted_in_the_product'], time.time() - start))
    if given.only is None and not given.long and given.seed == figures.SEED:
        hold_figures(dict(counted, planted_in_all=planted), missing)


if __name__ == '__main__':
    main()
