"""What a path stands for: a folder, a filing, a file of calls, or standard input; in the end the bytes of one filing."""

import os
import sys
from pathlib import Path
from typing import NamedTuple, Optional, Tuple

from front import csv_calls, filing, kinds, reading, words
from front.trouble import Trouble

FILING = "filing.q"
# Of the files that a folder may have, the first that is there counts.
IN_FOLDER = (FILING, "calls.txt", "calls.csv")
INPUT = "-"
INPUT_NAME = "standard input"
# So many errors of a text are told.
MOST_TOLD = 20
# How a file of a spreadsheet program begins: .xlsx and .ods, then .xls. No filing and no text begins so.
SPREADSHEETS = (b"PK\x03\x04", b"\xd0\xcf\x11\xe0")


class Source(NamedTuple):
    """A filing, the name of the file that it came from, the row of each field if that was a text, and which file it was."""

    name: str
    data: bytes
    rows: Optional[Tuple[words.Row, ...]] = None
    origin: Optional[os.stat_result] = None

    def fields(self):
        """The fields of the filing."""
        return filing.fields_of(self.data)

    def row_of(self, field):
        """The row of the text that a field was made of, or None."""
        return None if self.rows is None else self.rows[field.number - 1]

    def place_of(self, field):
        """Where a field stands, for staff: the line of a text, or number and offset."""
        if self.rows is None:
            return f"field {field.number} at byte {field.offset}"
        return f"line {self.rows[field.number - 1].line}"

    def start_of(self, field):
        """How a message about a field begins: the file, and the place in it."""
        if self.rows is None:
            return f"{self.name}: {self.place_of(field)}"
        return f"{self.name}:{self.rows[field.number - 1].line}"


def source_of(path, book_kind=kinds.ELECTRICITY):
    """The filing that a path stands for; trouble if there is none, or a text has an error, or calls that the kind of book does not take."""
    if path == INPUT:
        return _input(book_kind)
    path = Path(path)
    if not path.is_dir():
        return _file(path, book_kind)
    for name in IN_FOLDER:
        if (path / name).exists():
            return _file(path / name, book_kind)
    missing = f"this folder has no filing: no {', '.join(IN_FOLDER[:-1])} or {IN_FOLDER[-1]}"
    raise Trouble(f"{path}: {missing}{_instead(path)}", "no filing in this folder")


def _instead(path):
    """A file of the folder that could be meant, named as it has to be given."""
    others = sorted(str(other) for other in path.iterdir() if other.suffix.lower() in (".q", ".txt", ".csv"))
    return f"; give the file itself, as in: {others[0]}" if others else ""


def _input(book_kind):
    """What stands on standard input. Nothing at all is no empty exercise: whatever should have written it has failed."""
    read = reading.read_input(sys.stdin, INPUT_NAME)
    if not read.data:
        raise Trouble(f"{INPUT_NAME}: nothing came. Give a PATH; the examples are settled by: ./settle </dev/null", "nothing came")
    return _source(INPUT_NAME, "", read, book_kind)


def passed_over(path):
    """The files of a folder that say something else than the one that counts, and were not read for it."""
    path = Path(path)
    if str(path) == INPUT or not path.is_dir():
        return []
    files = [path / name for name in IN_FOLDER if (path / name).exists()]
    return [str(other) for other in files[1:] if _data_or_none(other) != _data_or_none(files[0])]


def _data_or_none(path):
    """The filing that a file says, in whatever kind of book: electricity takes the calls of all."""
    try:
        return _file(path, kinds.ELECTRICITY).data
    except Trouble:
        return None


def _file(path, book_kind):
    return _source(str(path), path.suffix.lower(), reading.read_file(path), book_kind)


def _source(name, suffix, read, book_kind):
    if read.data.startswith(SPREADSHEETS):
        what = "this is a file of a spreadsheet program. Save it there as CSV (UTF-8), and give that file"
        raise Trouble(f"{name}: {what}.", "a spreadsheet that is not saved as CSV")
    if _is_filing(suffix, read.data):
        return Source(name, read.data, origin=read.origin)
    text = words.decoded(read.data)
    rows, problems = _reader_of(name, suffix, text)(text, book_kind)
    if problems:
        raise _trouble(name, problems, book_kind)
    return Source(name, b"".join(filing.encode(row.call) for row in rows), tuple(rows), read.origin)


def _is_filing(suffix, data):
    """Whether a file holds a filing. If its name does not tell: every field has a byte 0 in its length, and no text has one."""
    if suffix in (".q", ".txt", ".csv"):
        return suffix == ".q"
    return b"\0" in data and data[:2] not in words.WIDE_MARKS


def _reader_of(name, suffix, text):
    """What reads a text; standard input has no name that could tell."""
    if suffix == ".csv":
        if csv_calls.is_list_of_calls(text):
            raise Trouble(f"{name}: these are calls in words, and not CSV. Give the file a name that ends in .txt.", "words, not CSV")
        return csv_calls.read
    if csv_calls.is_table(text):
        if name == INPUT_NAME:
            return csv_calls.read
        raise Trouble(f"{name}: this is CSV by its first line. Give the file a name that ends in .csv.", "CSV by another name")
    return words.read


def _trouble(name, problems, book_kind):
    """What is told of a text that has problems."""
    count = "1 error" if len(problems) == 1 else f"{len(problems):,} errors"
    told = [problem.said(name) for problem in problems[:MOST_TOLD]]
    if len(problems) > MOST_TOLD:
        told.append(f"{name}: .. and {len(problems) - MOST_TOLD:,} more")
    if any(problem.of_another_kind for problem in problems):
        told += [f"{name}: {hint}" for hint in kinds.hints(book_kind)]
    return Trouble("\n".join([*told, f"{name}: {count}; nothing is settled and nothing is written"]), f"{count} in the text")
