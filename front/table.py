"""A settlement as CSV: the numbers that the program printed, one row an operator."""

import csv
import io
import os

COMMA, SEMICOLON = ",", ";"
SUMS = "all"


def header_of(columns, separator, named):
    """The first line; `named` says that the rows begin with the path that they are of."""
    return _line((["path"] if named else []) + columns, separator)


def rows_of(lines, separator, path):
    """A line for each operator, without that of the sums, which is no operator's; each begins with the path if there is one."""
    before = [] if path is None else [path]
    return b"".join(_line([*before, *cells], separator) for cells in lines if cells[0] != SUMS)


def cells_of(printed):
    """The words of a settlement: those of its first line, and those of each line after it."""
    columns, *lines = [line.split(" ") for line in printed.decode().splitlines()]
    return columns, lines


def _line(cells, separator):
    text = io.StringIO()
    csv.writer(text, delimiter=separator, lineterminator="\n").writerow(cells)
    return os.fsencode(text.getvalue())
