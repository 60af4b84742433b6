"""The command line: what may be asked for, and the help."""

import argparse

from front import outputs, table
from front.calls import OPERATOR, YEAR
from front.kinds import ELECTRICITY, GAS
from front.words import shown, value_of

USAGE = "settle [--gas] [PATH ..] | --show PATH .. | --sheet OPERATOR YEAR PATH .. | --compare A B | --encode FILE PATH | --write FILE PATH"
SHEET = (OPERATOR, YEAR)

HELP = """\
usage: settle [PATH ..]            settle; without a PATH, the examples
       settle --show PATH ..       the calls in words, and what becomes of them
       settle --sheet OPERATOR YEAR PATH ..  interruptions counted and left out
       settle --compare A B        how two books differ (status 0: not at all)
       settle --encode FILE PATH   write the calls of PATH as a filing
       settle --write FILE PATH    write the book of PATH as a filing

PATH is a folder (its filing.q, else its calls.txt, else its calls.csv), a
filing (NAME.q), a file of calls in words or, as NAME.csv, by CSV, or - for
standard input, as a pipe is without a PATH. docs/FILING.md has all the calls:
  amount 1 2018 fees file 50000     # one call a line; this is a comment

  --gas        gas books, which settle on D1 and D2 only; not with --sheet
  --offsets    with --show: the number and the offset of each field, too
  --table      the settlement as CSV; --table=excel has semicolons
  --force      write FILE even if it was read, or is there and is no filing
  --strict     a note makes the exit status 1
  --quiet      no notes
  -h, --help   this text

On standard output all is the proved program's own but the lines that begin
with #. Explanations and notes are on standard error. Exit status: 0 all
settled, 1 something refused, 2 trouble (no such file, errors in a text, a
program that could not be built); the higher one counts.
"""


class Parser(argparse.ArgumentParser):
    """A parser whose help is the text above, which fits a screen."""

    def print_help(self, file=None):
        outputs.put(HELP.encode())


def arguments_of(words):
    """What the words of the command line ask for."""
    parser = Parser(prog="settle", usage=USAGE, allow_abbrev=False)
    parser.add_argument("paths", metavar="PATH", nargs="*")
    other = parser.add_mutually_exclusive_group()
    other.add_argument("--show", action="store_true")
    other.add_argument("--sheet", metavar=("OPERATOR", "YEAR"), nargs=2)
    other.add_argument("--compare", action="store_true")
    other.add_argument("--encode", metavar="FILE")
    other.add_argument("--write", metavar="FILE")
    other.add_argument("--table", action="store_const", const=table.COMMA)
    other.add_argument("--table=excel", action="store_const", const=table.SEMICOLON, dest="table")
    parser.add_argument("--gas", action="store_const", const=GAS, default=ELECTRICITY, dest="book_kind")
    parser.add_argument("--offsets", action="store_true")
    parser.add_argument("--force", action="store_true")
    heard = parser.add_mutually_exclusive_group()
    heard.add_argument("--strict", action="store_true")
    heard.add_argument("--quiet", action="store_true")
    arguments = parser.parse_args(words)
    problem = _problem(arguments)
    if problem:
        parser.error(problem)
    if arguments.sheet is not None:
        arguments.sheet = [value_of(place, word) for place, word in zip(SHEET, arguments.sheet)]
    return arguments


def _problem(arguments):
    """What cannot be meant, or None."""
    count = len(arguments.paths)
    writes = arguments.encode is not None or arguments.write is not None
    if writes and count != 1:
        return "--encode FILE and --write FILE take one PATH"
    if arguments.compare and count != 2:
        return "--compare takes two PATHs"
    if arguments.show and count == 0:
        return "--show takes at least one PATH"
    if arguments.sheet is not None and arguments.book_kind.sheet is None:
        return f"a {arguments.book_kind.name} book has no yearly sheet"
    if arguments.sheet is not None and _wrong_words(arguments.sheet):
        return f"--sheet takes OPERATOR and YEAR: {'; '.join(_wrong_words(arguments.sheet))}"
    if arguments.sheet is not None and count == 0:
        return "--sheet takes at least one PATH after OPERATOR and YEAR (- is standard input)"
    if arguments.table and count == 0:
        return "--table takes at least one PATH (- is standard input)"
    if arguments.offsets and not arguments.show:
        return "--offsets goes with --show"
    if arguments.force and not writes:
        return "--force goes with --encode or --write"
    if arguments.paths.count("-") > 1:
        return "standard input can be read once"
    return None


def _wrong_words(words):
    """What is expected in the place of each word that stands for no operator or year; their ranges are the program's to judge."""
    return [f"{shown(word)}: expected {place.expected}" for place, word in zip(SHEET, words) if value_of(place, word) is None]
