"""Linear programs for GLPK's glpsol. Nothing here is believed: what it answers is judged by proved calls.

A problem has named variables, all at least 0, and rows: sums of whole multiples of them that are at least or at most a number.
"""
import functools
import os
import shutil
import subprocess
import tempfile
from collections import namedtuple
from fractions import Fraction

from .outcomes import BadInput

PACKAGE = 'glpk-utils'
SECONDS = 60

# Factors is a list with a number for each variable; sign is '<=', '>=' or '='.
Row = namedtuple('Row', 'factors sign bound')
Problem = namedtuple('Problem', 'count objective rows most whole')


class NotDecided(BadInput):
    """The solver did not finish."""


def needed():
    if shutil.which('glpsol') is None:
        raise BadInput('this needs the solver glpsol, of Debian\'s package %s, which is not installed: apt-get install %s' % (PACKAGE, PACKAGE))


def sum_text(factors):
    return ''.join(' %+d x%d' % (factor, i) for i, factor in enumerate(factors) if factor) or ' 0 x0'


def objective_text(factors):
    """With every variable, also one without a cost: the solver numbers them as they first appear."""
    return ''.join(' %+d x%d' % (factor, i) for i, factor in enumerate(factors))


def text_of(problem):
    """The problem in the format that CPLEX made common."""
    names = ['x%d' % i for i in range(problem.count)]
    lines = ['Minimize', ' cost:' + objective_text(problem.objective), 'Subject To']
    lines += [' r%d:%s %s %d' % (i, sum_text(row.factors), row.sign, row.bound) for i, row in enumerate(problem.rows)]
    if problem.most is not None:
        lines += ['Bounds'] + [' 0 <= %s <= %d' % (name, problem.most) for name in names]
    if problem.whole:
        lines += ['General'] + [' ' + name for name in names]
    return '\n'.join(lines + ['End', ''])


def understood(function):
    """What a function reads of the solver's answer; of an answer that is none, that the solver did not decide."""
    @functools.wraps(function)
    def read(problem):
        try:
            return function(problem)
        except (ValueError, LookupError, StopIteration, OverflowError):
            raise NotDecided('glpsol\'s answer cannot be read') from None
    return read


def answer_of(problem, *options):
    """The words of each line that glpsol writes as its solution."""
    with tempfile.TemporaryDirectory() as folder:
        given, found = os.path.join(folder, 'given'), os.path.join(folder, 'found')
        with open(given, 'w', encoding='ascii') as out:
            out.write(text_of(problem))
        try:
            subprocess.run(['glpsol', '--nopresol', *options, '--tmlim', str(SECONDS), '--lp', given, '-w', found], stdout=subprocess.DEVNULL,
                           stderr=subprocess.DEVNULL, timeout=2 * SECONDS, check=True)
        except (subprocess.SubprocessError, OSError):
            raise NotDecided('glpsol failed') from None
        if not os.path.exists(found):
            raise NotDecided('glpsol failed')
        with open(found, encoding='ascii') as lines:
            return [line.split() for line in lines if line.strip()]


def status_of(words):
    return next(line[4] for line in words if line[0] == 's')


@understood
def whole_solution(problem):
    """A best solution in whole numbers, or None where there is none."""
    words = answer_of(problem)
    if status_of(words) == 'n':
        return None
    if status_of(words) not in 'of':
        raise NotDecided('glpsol did not decide within %d s' % SECONDS)
    return solution_of(problem, [round(float(line[2])) for line in words if line[0] == 'j'])


@understood
def exact_solution(problem):
    """A best corner of the problem in exact fractions, or None where there is no solution.

    The solver writes rounded numbers. What it says of a corner is which variables are not 0 there and which rows hold with equality; these
    equations are solved anew, exactly.
    """
    words = answer_of(problem, '--exact')
    if status_of(words) == 'n':
        return None
    if status_of(words) != 'f':
        raise NotDecided('glpsol did not decide within %d s' % SECONDS)
    basic = [i for i, line in enumerate(line for line in words if line[0] == 'j') if line[2] == 'b']
    tight = [row for row, line in zip(problem.rows, (line for line in words if line[0] == 'i')) if line[2] != 'b']
    values = dict(zip(basic, solved([[row.factors[i] for i in basic] + [row.bound] for row in tight])))
    return solution_of(problem, [values.get(i, Fraction(0)) for i in range(problem.count)])


def solution_of(problem, values):
    """The values, if there is one for each variable and none is below 0."""
    if len(values) != problem.count or any(value < 0 for value in values):
        raise NotDecided('glpsol\'s answer is no solution')
    return values


def solved(rows):
    """The solution of as many equations as unknowns, each a list of factors and the number that their sum is."""
    rows = [[Fraction(number) for number in row] for row in rows]
    for i in range(len(rows)):
        pivot = next((k for k in range(i, len(rows)) if rows[k][i]), None)
        if pivot is None:
            raise NotDecided('glpsol\'s corner is none')
        rows[i], rows[pivot] = rows[pivot], rows[i]
        rows[i] = [number / rows[i][i] for number in rows[i]]
        for k in range(len(rows)):
            if k != i and rows[k][i]:
                rows[k] = [a - rows[k][i] * b for a, b in zip(rows[k], rows[i])]
    return [row[-1] for row in rows]
