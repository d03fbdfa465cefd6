"""The command line: finds the groups of commands, and prints what a command comes to."""
import argparse
import importlib
import pkgutil
import sys
import traceback

from . import binding, commands, plant_files
from .outcomes import REFUSED, YES, BadInput, NotDone, Outcome
from .printing import NotPrinted, prepare, printed, tell

ABOUT = '''Plants on a message bus: how many steps can go by without a fresh reading?

A plant is a text with names, or a plant file. `hemtaluq write --help` shows the text.'''
AFTER = '''Every verdict, figure, fault and plant file comes from a proved call of the library libhemtaluq. This command reads
what you wrote, makes the calls and says their answers in your names; it decides nothing.

Exit status: 0 yes, 1 no (a cycle, a negative sum, no weights, a refused event), 2 refused, or the command cannot be used so.
`hemtaluq COMMAND --help` explains a command. With --json a command prints its answer for scripts.'''

# As a shell has it for a program that Ctrl-C ended.
INTERRUPTED = 130


def groups():
    """The modules in `commands`, each with its place in the help."""
    found = [importlib.import_module(commands.__name__ + '.' + one.name) for one in pkgutil.iter_modules(commands.__path__)]
    return sorted(found, key=lambda module: module.ORDER)


class BadUse(BadInput):
    """Arguments that the command does not have."""


class Parser(argparse.ArgumentParser):
    """A parser that leaves it to `main` how a bad use is told."""

    def error(self, message):
        hint = ' (PLANT stands before -w, -c, -g and -d)' if 'PLANT' in message else ''
        raise BadUse('%s%s: %s%s\n`%s --help` explains it' % (self.format_usage(), self.prog, message, hint, self.prog))


class Commands:
    """Where a group adds its commands."""

    def __init__(self, subparsers):
        self.subparsers = subparsers

    def add(self, name, run, summary, description, examples='', plant=True):
        """A command, on a plant or not; `run(library, arguments)` makes its outcome."""
        parser = self.subparsers.add_parser(name, help=summary, description=description, formatter_class=argparse.RawDescriptionHelpFormatter,
                                            epilog='examples:\n' + examples if examples else None, allow_abbrev=False)
        parser.set_defaults(run=run)
        if plant:
            parser.add_argument('plant', metavar='PLANT', help='a plant text or a plant file; - for standard input')
        parser.add_argument('--json', action='store_true', help='print the answer as JSON')
        return parser


def parser_of():
    parser = Parser(prog='hemtaluq', description=ABOUT, epilog=AFTER, formatter_class=argparse.RawDescriptionHelpFormatter, allow_abbrev=False)
    parser.add_argument('--version', action='store_true', help='print the version of the library and of its header')
    subparsers = parser.add_subparsers(metavar='COMMAND', title='commands')
    for group in groups():
        group.add(Commands(subparsers))
    return parser


def answered(words):
    """What the arguments come to, with the notes on the plant's text."""
    parser = parser_of()
    arguments, library = parser.parse_args(words), binding.load()
    if arguments.version:
        return Outcome(YES, {'version': library.limits['VERSION']}, 'hemtaluq: version %d of the library and of its header' % library.limits['VERSION'])
    if not hasattr(arguments, 'run'):
        raise BadUse(parser.format_help())
    if not hasattr(arguments, 'plant'):
        return arguments.run(library, arguments)
    plant = arguments.plant = plant_files.load(library, arguments.plant)
    outcome = arguments.run(library, arguments)
    if not plant.notes:
        return outcome
    notes = ['note: ' + note for note in plant.notes]
    return outcome._replace(answer=dict(outcome.answer, notes=list(plant.notes)), refusal='\n'.join([outcome.refusal] * bool(outcome.refusal) + notes))


def outcome_of(words):
    """What the arguments come to; what goes wrong comes to a refusal."""
    try:
        return answered(words)
    except NotDone as wrong:
        return Outcome(REFUSED, wrong.answer(), '', str(wrong))
    except OSError as wrong:
        return failed('%s: %s' % (wrong.filename or 'hemtaluq', wrong.strerror or wrong))
    except (MemoryError, OverflowError):
        return failed('there is not enough memory for this')


def failed(words):
    return Outcome(REFUSED, {'answer': 'bad input', 'words': words}, '', words)


def told(outcome, for_scripts):
    """The exit status of an outcome, after it is printed."""
    try:
        tell(outcome, for_scripts)
    except BrokenPipeError:
        pass  # Whoever reads has enough.
    return outcome.status


def main(words=None):
    """The exit status of the command, after all is printed."""
    words = sys.argv[1:] if words is None else words
    prepare(sys.stdout)
    prepare(sys.stderr)
    try:
        return told(outcome_of(words), '--json' in words)
    except KeyboardInterrupt:
        return INTERRUPTED
    except NotPrinted:
        printed(sys.stderr, 'hemtaluq: the answer could not be printed')
        return REFUSED
    except Exception:  # An error of this program. It must not end with 1, which says no.
        traceback.print_exc()
        return REFUSED
