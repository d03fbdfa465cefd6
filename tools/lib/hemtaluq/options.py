"""Options that several commands have, and the files that commands write."""
import argparse
import os

from .outcomes import BadInput
from .texts import is_number
from .words import DOUBLING

AMOUNTS = '''weights and contents are given as
  request=2 answer=1   by name; a type that is not named has 0
  2 1                  in the order of the types
  FILE                 a text with NAME NUMBER in each line, or with the numbers in order; weights also as in weights.bin: two bytes
                       each, low byte first
'''
MOST_DOUBLINGS = '''%s D is the most messages that are delivered twice in the
time that is quoted for (one that is delivered three times counts as two); it is 0 for a bus that delivers no message twice.''' % DOUBLING


def whole_number(word):
    """A number of an option. How large it may be, the calls judge."""
    if not is_number(word):
        raise argparse.ArgumentTypeError('expected a whole number, found %s' % word)
    return int(word)


class Once(argparse.Action):
    """An option that is given once: of two numbers none is meant more."""

    given = False

    def __call__(self, parser, namespace, values, option_string=None):
        if self.given:
            parser.error('%s is given twice' % option_string)
        self.given = True
        setattr(namespace, self.dest, values)


def add_weights(parser):
    parser.add_argument('-w', '--weights', nargs='+', action='extend', default=[], metavar='WEIGHT', help='the weights: NAME=NUMBER, numbers, or a file')


def add_contents(parser):
    parser.add_argument('-c', '--contents', nargs='+', action='extend', default=[], metavar='CONTENT',
                        help='what the buffers hold at the start, in the same way (default: nothing)')


def add_output(parser, words, **more):
    parser.add_argument('-o', '--output', action=Once, metavar='FILE', help=words, **more)


def keep(path, data, arguments):
    """Write a file that a command makes, which is never one that it reads."""
    read = [arguments.plant.path, *getattr(arguments, 'weights', []), *getattr(arguments, 'contents', [])]
    if path == '-' or any(os.path.exists(path) and os.path.exists(one) and os.path.samefile(path, one) for one in read):
        raise BadInput('expected the name of another file to write, found %s' % path)
    with open(path, 'wb') as out:
        out.write(data)
