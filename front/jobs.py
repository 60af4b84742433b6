"""What can be done with a path: settle it, show it, print a yearly sheet, encode it, write its book; and compare the books of two."""

from typing import NamedTuple

from front import compare, notes, outputs, programs, refusals, table
from front.books import Book
from front.meanings import Asked, sheet_asked
from front.sources import passed_over, source_of
from front.trouble import Trouble
from front.words import line_of

SETTLED, REFUSED, TROUBLE = 0, 1, 2


class Outcome(NamedTuple):
    """How one path went: its status, and a few words for the line at the end."""

    status: int
    words: str


class Jobs:
    """The jobs, as the command line asks for them; the programs are asked for every number."""

    def __init__(self, asked, arguments):
        self.programs = asked
        self.arguments = arguments
        # How many notes the path at hand has, and whether the table has its first line.
        self.noted = 0
        self.headed = False

    def settle(self, path):
        """Prints what the program prints for the filing of a path, explains a refusal, and tells what to look at."""
        source = self._source(path)
        answer = self.programs.settled(source.data)
        if not self.arguments.table:
            outputs.put(answer.output)
        if not answer.settled:
            return self._refused(source, answer, self._asked(self.programs.settled))
        if self.arguments.table:
            self._put_table(path, answer.output)
        return self._noted(source)

    def _put_table(self, path, printed):
        """Prints the settlement as CSV; of several, one table whose rows begin with the path."""
        columns, lines = table.cells_of(printed)
        separator, several = self.arguments.table, len(self.arguments.paths) > 1
        if not self.headed:
            outputs.put(table.header_of(columns, separator, several))
            self.headed = True
        outputs.put(table.rows_of(lines, separator, path if several else None))

    def _noted(self, source):
        """Tells the notes on a settled filing; with --strict they are a failure."""
        if not self.arguments.quiet:
            try:
                found = notes.notes_of(source, self.programs)
                self._note(notes.lines_of(source, found), len(found))
            except Trouble as trouble:
                self._note([f"{source.name}: note: it is settled, and what to look at is not told: {trouble}"])
        return self._done("settled")

    def _done(self, word):
        """How a path went of which nothing is refused; with --strict notes are a failure."""
        if not self.noted:
            return Outcome(SETTLED, word)
        count = "1 note" if self.noted == 1 else f"{self.noted:,} notes"
        return Outcome(REFUSED if self.arguments.strict else SETTLED, f"{word}, {count}")

    def _note(self, lines, count=1):
        self.noted += count
        for line in lines:
            outputs.tell(line)

    def show(self, path):
        """Prints the calls of a path in words, and what becomes of each interruption."""
        source = self._source(path)
        outcomes = self._outcomes(source)
        for field in source.fields():
            if field.call is None:
                no_call = f"field {field.number} at byte {field.offset}: no call in the bytes from here on"
                outputs.put(f"# {no_call}\n".encode())
                outputs.tell(f"{source.name}: {no_call}")
                return Outcome(REFUSED, f"no call at byte {field.offset}")
            outputs.put(self._shown(source, field, outcomes).encode())
        return Outcome(SETTLED, "shown")

    def _shown(self, source, field, outcomes):
        """The line of a call: where it stands in the text, and what becomes of an interruption, as a comment."""
        remarks = [source.place_of(field)] if source.rows is not None else []
        if self.arguments.offsets:
            remarks.append(f"field {field.number} at byte {field.offset}")
        if outcomes and field.call.kind.name == "interruption":
            outcome = outcomes.get(field.offset)
            remarks.append(outcome.said if outcome else "not reached, since an earlier call is refused")
        words = line_of(field.call)
        return f"{words:<40} # {', '.join(remarks)}\n" if remarks else f"{words}\n"

    def _outcomes(self, source):
        """What becomes of the fields, where there is an interruption among them."""
        if not any(field.call and field.call.kind.name == "interruption" for field in source.fields()):
            return {}
        try:
            return self.programs.outcomes(source.data)
        except Trouble as trouble:
            outputs.tell(f"{source.name}: what becomes of its interruptions is not told: {trouble}")
            return {}

    def sheet(self, path):
        """Prints the yearly sheet that is asked for, of the book of a path, as the program prints it, and explains a refusal."""
        source = self._source(path)
        operator, year = self.arguments.sheet
        asked = sheet_asked(lambda data: self.programs.sheet(data, operator, year), self.programs.book_kind, operator, year)
        answer = asked.answer(source.data)
        outputs.put(answer.output)
        return self._done("printed") if answer.is_sheet else self._refused(source, answer, asked)

    def encode(self, path):
        """Writes the calls of a path to a file, as they are."""
        source = self._source(path)
        if len(source.data) > refusals.MOST_BYTES:
            for line in refusals.explained_length(source):
                outputs.tell(line)
        outputs.write(self.arguments.encode, source.data, source, self.arguments.force)
        return Outcome(SETTLED, "encoded")

    def write(self, path):
        """Writes the book of a path to a file, by the proved writer, which tells a refusal on standard error."""
        source = self._source(path)
        answer = self.programs.written(source.data)
        if answer.complaint:
            return self._refused(source, answer, self._asked(self.programs.written))
        outputs.write(self.arguments.write, answer.output, source, self.arguments.force)
        return Outcome(SETTLED, "written")

    def compare(self, here, there):
        """Prints how the books of two paths differ; answers 0 if they do not, 1 if they do, 2 if one has none."""
        sources = [self._source(path) for path in (here, there)]
        answers = [self.programs.written(source.data) for source in sources]
        refused = [(source, answer) for source, answer in zip(sources, answers) if answer.complaint]
        for source, answer in refused:
            self._refused(source, answer, self._asked(self.programs.written))
        if refused:
            return Outcome(TROUBLE, "not compared")
        found = compare.differences(*(Book(answer.output) for answer in answers))
        heading = f"# here: {sources[0].name}, there: {sources[1].name}\n"
        outputs.put(heading.encode(errors="surrogateescape"))
        outputs.put("".join(f"{line}\n" for line in found or ["the books are the same"]).encode())
        return Outcome(REFUSED if found else SETTLED, "compared")

    def _source(self, path):
        """The filing that a path stands for; files beside it that say something else are told."""
        self.noted = 0
        source = source_of(path, self.programs.book_kind)
        if not self.arguments.quiet:
            beside = [f"note: {source.name} was read; {other} beside it says something else and was not" for other in passed_over(path)]
            self._note(beside, len(beside))
        return source

    def _asked(self, answer):
        return Asked(answer, self.programs.book_kind)

    def _refused(self, source, answer, asked):
        """Explains the answer of a program that has not done what it was asked; it is trouble if it tells no refusal."""
        said = answer.line.decode(errors="replace").rstrip()
        # A table has no line for it.
        if answer.complaint or self.arguments.table:
            outputs.tell(said)
        refusal = answer.refusal
        if refusal is None and answer.line != programs.TOO_LONG:
            raise Trouble(f"{source.name}: the program gave no answer", "the program gave no answer")
        lines = refusals.explained(source, refusal, asked, self.programs) if refusal else refusals.explained_length(source)
        if refusal and refusal.offset is not None:
            lines += refusals.what_else(source, refusal, asked)
        for line in lines:
            outputs.tell(line)
        return Outcome(REFUSED, said)
