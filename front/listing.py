"""Lists and sentences in words."""

from itertools import groupby


def listed(parts, word="and"):
    """One part or more, with that word before the last."""
    *first, last = parts
    return f"{', '.join(first)} {word} {last}" if first else last


def sentence(text):
    """A text as a sentence."""
    return f"{text[0].upper()}{text[1:]}."


def runs(numbers):
    """Rising numbers; three or more that follow each other are told by the first and the last."""
    parts = []
    for _, run in groupby(enumerate(numbers), key=lambda pair: pair[1] - pair[0]):
        run = [number for _, number in run]
        parts += [f"{run[0]} to {run[-1]}"] if len(run) > 2 else map(str, run)
    return listed(parts)
