"""Running a proved program on a filing, and what kind of answer it gave."""

import re
import subprocess
import tempfile
from pathlib import Path
from typing import NamedTuple, Optional

from front.books import Book
from front.calls import BY_NAME, Call
from front.filing import encode
from front.kinds import ELECTRICITY
from front.sources import FILING
from front.trouble import Trouble

REFUSED = re.compile(rb"refused ([0-9]+)(?: at ([0-9]+))?\n")
TOO_LONG = b"too long\n"
SETTLEMENT = b"operator"
SHEET = re.compile(rb"counted [0-9]+\nshort [0-9]+\nplanned [0-9]+\ncoupled [0-9]+\nexceptional [0-9]+\n")
FIRST_YEAR = 2017
OUTCOME = re.compile(rb"([0-9]+) ([a-z]+)(?: ([0-9]+))?")


class Answer(NamedTuple):
    """What a program put on standard output and on standard error."""

    output: bytes
    complaint: bytes

    @property
    def line(self):
        """The line by which it tells a refusal, if it does: the writer tells it on standard error."""
        return self.complaint or self.output

    @property
    def settled(self):
        """Whether this is a settlement."""
        return self.output.startswith(SETTLEMENT) and not self.complaint

    @property
    def is_sheet(self):
        """Whether this is a yearly sheet."""
        return SHEET.fullmatch(self.output) is not None and not self.complaint

    @property
    def refusal(self):
        """The refusal that its line tells, or None."""
        found = REFUSED.fullmatch(self.line)
        if not found:
            return None
        number, offset = found.groups()
        return Refusal(int(number), None if offset is None else int(offset))


class Refusal(NamedTuple):
    """The number of a refusal, and the offset of the field (None where settling, or the sheet, was refused)."""

    number: int
    offset: int


class FieldAnswer(NamedTuple):
    """What becomes of a field: yes, counted (in a year, from 0), short, planned, coupled, exceptional, refused (by a number)."""

    word: str
    number: Optional[int]

    @property
    def left_out(self):
        """Whether an interruption is left out."""
        return self.word not in ("yes", "counted", "refused")

    @property
    def said(self):
        """The words for staff."""
        if self.word == "counted":
            return f"counted in {FIRST_YEAR + self.number}"
        if self.word == "refused":
            return f"refused {self.number}"
        return f"left out: {self.word}" if self.left_out else "taken"


class Programs:
    """The proved programs of a kind of book, built by the builder where need be, and asked about a filing."""

    def __init__(self, builder, book_kind=ELECTRICITY):
        self.builder = builder
        self.book_kind = book_kind

    def settled(self, data):
        """What the program prints that settles."""
        return self._run(self.book_kind.settling, data)

    def written(self, data):
        """What the program prints that writes the book out as a filing."""
        return self._run(self.book_kind.writing, data)

    def sheet(self, data, operator, year):
        """What the program prints that makes the sheet of an operator and a year, which is a number from 0."""
        return self._run(self.book_kind.sheet, data, operator, year)

    def book(self, data):
        """The book that a filing leads to, which nothing refuses, by what the writer writes."""
        answer = self.written(data)
        if answer.complaint:
            raise Trouble(f"the writer could not write the book: {_text(answer.complaint)}", "no book was written")
        return Book(answer.output)

    def outcomes(self, data):
        """What becomes of each field, by its offset: yes, counted in a year, left out and why; none from a refused one on."""
        found = {}
        for line in self._run(self.book_kind.telling, data).output.splitlines():
            told = OUTCOME.fullmatch(line)
            if told:
                found[int(told[1])] = FieldAnswer(told[2].decode(), None if told[3] is None else int(told[3]))
        return found

    def outcome_alone(self, call):
        """The word for what becomes of an interruption that is filed by itself; only one that counts can be refused even then."""
        join = encode(Call(BY_NAME["join"], (call.value("operator"),)))
        filed = encode(Call(call.kind, (call.value("operator"), 0, *call.values[2:])))
        told = self.outcomes(join + filed).get(len(join))
        if told is None:
            raise Trouble(f"the program {self.book_kind.telling} tells nothing of it", "nothing is told of a call")
        return "counted" if told.word == "refused" else told.word

    def _run(self, name, data, *numbers):
        program = self.builder.program(name)
        with tempfile.TemporaryDirectory() as folder:
            Path(folder, FILING).write_bytes(data)
            words = [str(program), *map(str, numbers)]
            done = subprocess.run(words, cwd=folder, stdin=subprocess.DEVNULL, capture_output=True, check=False)
        complaint = done.stderr
        if done.returncode != 0 and not complaint:
            complaint = f"{program} ended with status {done.returncode}\n".encode()
        return Answer(done.stdout, complaint)


def _text(line):
    return line.decode(errors="replace").rstrip()
