"""The text form: one call a line, words or numbers; its errors; and a call turned into words again."""

import re
from typing import NamedTuple, Tuple

from front import times
from front.calls import Call
from front.kinds import ELECTRICITY
from front.listing import listed

UNSIGNED = re.compile(r"[0-9]+")
SIGNED = re.compile(r"-?[0-9]+")
# No number of 64 bits has more digits; a longer one needs no look at its value.
MOST_DIGITS = 20
LONGEST_SHOWN = 60
# The byte order marks of texts with two bytes a character, as spreadsheets save them.
WIDE_MARKS = (b"\xff\xfe", b"\xfe\xff")


class Problem(NamedTuple):
    """An error of a text: its line, the word, what was expected, and whether another kind of book takes the word."""

    line: int
    word: str
    expected: str
    of_another_kind: bool = False

    def said(self, name):
        """The message, for the file of that name."""
        return f"{name}:{self.line}: {shown(self.word)}: expected {self.expected}"


class Row(NamedTuple):
    """A call of a text: its line, the call, and its values as they were written."""

    line: int
    call: Call
    words: Tuple[str, ...]


def shown(word):
    """A word of the file, made safe for a terminal, and cut if it is long."""
    return repr(word if len(word) <= LONGEST_SHOWN else word[:LONGEST_SHOWN] + "..")


def decoded(data):
    """The text of a file: a byte order mark is taken away, and every line ends as lines do here.

    Bytes that are no text may stand in a comment; in a word they become a character that no word has.
    """
    text = data.decode("utf-16" if data[:2] in WIDE_MARKS else "utf-8-sig", errors="replace")
    return text.replace("\r\n", "\n").replace("\r", "\n")


def read(text, book_kind=ELECTRICITY):
    """The calls of a text, for that kind of book, and its problems."""
    rows, problems = [], []
    for line, content in enumerate(text.split("\n"), start=1):
        words = content.split("#", 1)[0].split()
        if not words:
            continue
        row, found = row_of(line, words, book_kind)
        if found:
            problems += found
        else:
            rows.append(row)
    return rows, problems


def row_of(line, words, book_kind):
    """The call that the words of a line say, or the problems in them."""
    kind, problems = kind_of(line, words[0], book_kind)
    if problems:
        return None, problems
    if kind.has_times:
        words = times.with_blanks(words)
    if len(words) - 1 != len(kind.places):
        count = "1 word" if len(kind.places) == 1 else f"{len(kind.places)} words"
        expected = f"{count} after {kind.name} ({names(kind)}), found {len(words) - 1}"
        # A number may stand one place too far.
        named = [(place, word) for place, word in zip(kind.places, words[1:]) if not is_number(word) and _instead_of(place, word)]
        return None, [Problem(line, " ".join(words), expected), *(_problem(line, kind, place, word) for place, word in named)]
    return filled(line, kind, words[1:])


def kind_of(line, word, book_kind):
    """The kind of call that a word names, and the problem if it names none that this kind of book takes."""
    kind = book_kind.calls.get(word.lower())
    if kind:
        return kind, []
    expected, refused = f"a call: {', '.join(book_kind.calls)}", book_kind.refused.get(word.lower())
    return None, [Problem(line, word, f"{expected}; {refused}" if refused else expected, bool(refused))]


def names(kind):
    """The places of a call."""
    return " ".join(place.name for place in kind.places)


def filled(line, kind, words):
    """The call with the values that the words stand for, or a problem for each that stands for none."""
    values = [value_of(place, word) for place, word in zip(kind.places, words)]
    problems = [_problem(line, kind, place, word) for place, word, value in zip(kind.places, words, values) if value is None]
    return None if problems else Row(line, Call(kind, tuple(values)), tuple(words)), problems


def _problem(line, kind, place, word):
    return Problem(line, word, f"{_expected(place, word)} ({place.name} of {kind.name})", bool(_lack(place, word)))


def _expected(place, word):
    """What is expected at a place; a time that names a zone is told in winter time."""
    here = times.without_zone(word) if place.is_time else None
    if here is None:
        return _instead_of(place, word) or place.expected
    return f"a clock time without a zone: all times are winter time, all year, in which this one is {here}"


def _instead_of(place, word):
    """What is expected in the place of a word that is taken no more, or not by this kind of book; None for any other."""
    _, expected = place.former_of(word)
    lack = _lack(place, word)
    return f"{listed([place.words[number] for number in place.taken], 'or')}: {lack}" if lack else expected


def _lack(place, word):
    """Why what a word stands for, or stood for once, is not taken by this kind of book; None where it is, or it stands for nothing."""
    former, _ = place.former_of(word)
    return place.lack(_number_of(place, word) if former is None else former)


def value_of(place, word):
    """The number that a word stands for at a place, or None; also where it is not taken by this kind of book."""
    number = _number_of(place, word)
    return None if place.lack(number) else number


def _number_of(place, word):
    number = place.number_of(word)
    if number is not None:
        return number
    written = (SIGNED if place.signed else UNSIGNED).fullmatch(word)
    if written and len(word.lstrip("-0")) <= MOST_DIGITS and place.fits(int(word)):
        return int(word)
    return times.seconds_of(word) if place.is_time else None


def is_number(word):
    """Whether a word is a bare number."""
    return SIGNED.fullmatch(word) is not None


def word_of(place, value):
    """The word for a value at a place: the number itself where there is no other."""
    if place.is_time:
        return times.clock_of(value) or str(value)
    return place.words[value] if value < len(place.words) else str(value)


def line_of(call):
    """The call in words."""
    return " ".join([call.kind.name, *map(word_of, call.kind.places, call.values)])
