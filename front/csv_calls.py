"""The same calls by CSV: a header line that names the columns, then one call a row."""

import csv

from front.calls import BY_NAME, KINDS
from front.kinds import ELECTRICITY
from front.words import Problem, filled, kind_of

SEPARATORS = ",;\t"
# A column for people; one whose name begins with # is such a column too.
NOTE = "note"
# The line by which a spreadsheet is told the separator.
TOLD = "sep="


def columns_of(kinds):
    """The columns that these calls have."""
    return tuple(dict.fromkeys(["call", *(place.name for kind in kinds for place in kind.places)]))


# A table may have the columns of calls that its kind of book does not take, as long as they are empty.
COLUMNS = columns_of(KINDS)


def read(text, book_kind=ELECTRICITY):
    """The calls of a table, for that kind of book, each with the line that its row begins on, and the problems."""
    rows, broken = _rows(text)
    header = next((number for number, (_, cells) in enumerate(rows) if not _is_remark(cells)), None)
    if header is None:
        return [], broken or [Problem(1, "", f"a header line with names of columns: {_names(book_kind)}")]
    line, names = rows[header]
    columns = [name.lower() for name in _header(names)]
    problems = _header_problems(line, columns, book_kind)
    if problems:
        return [], problems + broken
    calls = []
    for line, cells in rows[header + 1 :]:
        cells = _without_comment(["" if _for_people(name) else cell for name, cell in zip(columns, cells)] + cells[len(columns) :])
        if any(cells):
            row, found = _row_of(line, columns, cells, book_kind)
            problems += found
            calls.append(row)
    return [] if problems else calls, problems + broken


def is_table(text):
    """Whether a text is a table by its first line that says something."""
    lines = text.split("\n")
    _, first = _first_line(lines)
    return first.lower().startswith(TOLD) or "call" in [cell.strip(' "').lower() for cell in first.split(_separator(lines))]


def is_list_of_calls(text):
    """Whether the first line that says something is a call in words, and no header."""
    _, first = _first_line(text.split("\n"))
    return not is_table(text) and any(word.lower() in BY_NAME for word in first.split()[:1])


def _first_line(lines):
    """The first line that holds more than a comment, and its number from 0."""
    for number, line in enumerate(lines):
        content = line.split("#", 1)[0].strip(' "')
        if content.strip(SEPARATORS):
            return number, content
    return 0, ""


def _rows(text):
    """The rows that hold something, each with its first line, up to one whose quotes are not right."""
    rows, lines = [], text.split("\n")
    separator = _separator(lines)
    number, first = _first_line(lines)
    if first.lower().startswith(TOLD):
        lines[number] = ""
    reader = csv.reader((line + "\n" for line in lines), delimiter=separator, strict=True)
    while True:
        line = reader.line_num + 1
        try:
            cells = [cell.strip() for cell in next(reader)]
        except StopIteration:
            return rows, []
        except csv.Error as error:
            return rows, [Problem(line, lines[line - 1], f"cells with quotes that match ({error})")]
        if any(cells):
            rows.append((line, cells))


def _separator(lines):
    """The separator that the first line tells, or that the header has most of; a comma if it has none."""
    _, header = _first_line(lines)
    told = header[len(TOLD) :][:1] if header.lower().startswith(TOLD) else ""
    return told if told and told in SEPARATORS else max(SEPARATORS, key=header.count)


def _is_remark(cells):
    """Whether all that a row holds is a comment."""
    return not any(_without_comment(cells))


def _without_comment(cells):
    """The cells without all that follows a #."""
    for place, cell in enumerate(cells):
        if "#" in cell:
            return [*cells[:place], cell.split("#", 1)[0].strip()]
    return cells


def _header(cells):
    """The names of the columns: here a # at the start of a cell is a part of the name."""
    for place, cell in enumerate(cells):
        if "#" in cell[1:] and not cell.startswith("#"):
            return _without_comment(cells[: place + 1])
    return cells


def _for_people(name):
    return name == NOTE or name.startswith("#")


def _names(book_kind):
    return ", ".join(columns_of(book_kind.calls.values()))


def _header_problems(line, columns, book_kind):
    expected = f"the name of a column: {_names(book_kind)}; or {NOTE}, or a name that begins with #, for what is not read"
    problems = [Problem(line, name, expected) for name in columns if name and name not in COLUMNS and not _for_people(name)]
    twice = {name for name in columns if name in COLUMNS and columns.count(name) > 1}
    problems += [Problem(line, name, "each column once") for name in COLUMNS if name in twice]
    if "call" not in columns:
        problems.append(Problem(line, ",".join(columns), "a column call"))
    return problems


def _row_of(line, columns, cells, book_kind):
    """The call of a row, or its problems: a cell that the call has no use for must be empty."""
    named = {name: cell for name, cell in zip(columns, cells) if name}
    kind, problems = kind_of(line, named.pop("call", ""), book_kind)
    nameless = [cell for place, cell in enumerate(cells) if cell and not (place < len(columns) and columns[place])]
    problems += [Problem(line, cell, "no cell under a column without a name") for cell in nameless]
    if kind is None:
        return None, problems
    row, found = filled(line, kind, [named.pop(place.name, "") for place in kind.places])
    unused = [Problem(line, cell, f"an empty cell ({kind.name} has no {name})") for name, cell in named.items() if cell]
    return row, problems + found + unused
