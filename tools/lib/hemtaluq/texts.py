"""Texts that people write: their bytes, their lines, and numbers in words."""
import sys
import unicodedata

from .outcomes import BadInput, BadText

UTF_16 = (b'\xff\xfe', b'\xfe\xff')
LONGEST_NUMBER = 100


def grouped(number):
    return '{:,}'.format(number)


def counted(number, noun):
    """`1 row`, `1,024 rows`, `2 losses`."""
    return '%s %s%s' % (grouped(number), noun, '' if number == 1 else 'es' if noun.endswith('s') else 's')


def is_number(word):
    """Whether a word is a whole number; one of very many digits is none that somebody means."""
    return word.isascii() and word.isdigit() and len(word) <= LONGEST_NUMBER


def opened(path):
    """A file to read, or standard input for -. That can be read once."""
    if path != '-':
        return open(path, 'rb')
    if sys.stdin is None or sys.stdin.closed:
        raise BadInput('standard input is closed, or was read already')
    return sys.stdin.buffer


def bytes_of(path):
    with opened(path) as source:
        return source.read()


def is_text(data):
    """Whether bytes can be text: some, and no control characters but those between lines and words."""
    return data.startswith(UTF_16) or bool(data) and all(byte >= 32 or byte in b'\t\n\r\f' for byte in data)


def decoded(path, data):
    """The text of bytes. A letter with an accent is one letter, however it was typed."""
    if data.startswith(UTF_16):
        raise BadText(path, 1, 'expected text in UTF-8, found UTF-16')
    try:
        return unicodedata.normalize('NFC', data.decode('utf-8-sig'))
    except UnicodeDecodeError as wrong:
        raise BadText(path, data.count(b'\n', 0, wrong.start) + 1, 'expected text in UTF-8, found the byte %02X' % data[wrong.start]) from None


def lines_of(text):
    """The lines that say something, without their comments, and their numbers."""
    lines = ((number, line.split('#')[0].strip()) for number, line in enumerate(text.splitlines(), 1))
    return [(number, line) for number, line in lines if line]


def arriving(path, source):
    """The lines of a source that say something, without their comments, and their numbers, as they come: what is written to a pipe is read line by
    line. In the place of a line that is no text stands what is wrong with it."""
    with source:
        for number, line in enumerate((line for data in source for line in data.splitlines()), 1):
            try:
                said = decoded(path, line).split('#')[0].strip()
            except BadText as wrong:
                said = BadText(path, number, wrong.expected)
            if said:
                yield number, said


def in_line(path, line, function, *arguments):
    """What a function makes of a line; where the input is bad, the line is told."""
    try:
        return function(*arguments)
    except BadText:
        raise
    except BadInput as wrong:
        raise BadText(path, line, wrong) from None
