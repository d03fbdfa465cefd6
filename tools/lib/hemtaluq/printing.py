"""Printing: texts at once, and what happens where that fails."""
import json
import os
import sys


class NotPrinted(Exception):
    """An answer could not be printed."""


def as_json(answer):
    """An answer for scripts, in one line."""
    return json.dumps(answer, ensure_ascii=False)


def put(stream, text):
    """Print a text at once. The stream is None where it was closed before the command began."""
    if stream is None:
        raise NotPrinted
    try:
        print(text, file=stream, flush=True)
    except BrokenPipeError:
        raise
    except OSError:
        raise NotPrinted from None
    finally:
        leave(stream)


def printed(stream, text):
    """Whether a text could be printed."""
    try:
        put(stream, text)
        return True
    except BrokenPipeError:
        return True  # Whoever reads has enough.
    except NotPrinted:
        return False


def tell(outcome, for_scripts):
    """Print an outcome: the answer to standard output, what is refused to standard error, and JSON to standard output in any case."""
    text = as_json(outcome.answer) if for_scripts else outcome.text
    try:
        if text:
            put(sys.stdout, text)
    finally:
        if outcome.refusal and not for_scripts:
            printed(sys.stderr, outcome.refusal)


def leave(stream):
    """After a failure nothing may be left to print when Python ends, where that would fail again."""
    try:
        stream.flush()
    except OSError:
        os.dup2(os.open(os.devnull, os.O_WRONLY), stream.fileno())


def prepare(stream):
    """What is no terminal gets UTF-8, as Graphviz and scripts expect it, and names of files as they are."""
    if stream is not None and stream.isatty():
        stream.reconfigure(errors='replace')
    elif stream is not None:
        stream.reconfigure(encoding='utf-8', errors='surrogateescape')
