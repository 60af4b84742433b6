"""What may be asked of a program, and what the numbers of its refusals mean then."""

from typing import Callable, NamedTuple, Optional

from front.calls import BY_NAME, YEAR, Call
from front.kinds import BookKind
from front.listing import runs
from front.words import word_of

# Words in braces are those of the kind of book.
MEANINGS = {
    1: "The filing ends inside this field: fewer than 3 bytes are left, or fewer than its length says. Get the whole file, or make it "
    "again from the calls.",
    2: "The field's first byte, its tag, is none of {tags}. See whether this is a filing at all, and whether a byte is missing or too "
    "many before it.",
    3: "The field's length is not the one that its tag has. Make the field again from the call in words.",
    4: "There is no such operator: operators are 0 to 15. Correct the operator.",
    5: "A value is outside its range. Correct it.",
    6: "This operator has joined before. Take this join out, or correct the operator.",
    7: "This operator has not joined yet. Put its join before this call, or correct the operator.",
    8: "The figure would pass 100,000,000,000. Correct the value, or withdraw first what should not be there.",
    9: "The figure would fall below 0: more is withdrawn than stands in it by then. Correct the value, or file first what is withdrawn.",
    10: "No operator has joined, so there is nobody to settle. Add a join, and the settings, of each operator.",
    11: "An operator that has joined lacks {lacks}. File {needs} of each operator, above 0, also of one that is marked at {indicator}.",
    12: "Every operator that has joined is marked unreliable at {all_indicators}, so no points can be given. A join sets the "
    "{marks} marks: clear one when its attestation is in, as in: mark 0 {indicator} 0",
    13: "The room lent for the output is too short. The programs here lend enough, so tell whoever keeps them.",
    14: "The interruption starts after its end. Correct the start or the end.",
    15: "The interruption ends outside 2017 to 2019, or starts before 2 January 2016. Correct the end or the start.",
}
# Those of an interruption's times, which a kind without interruptions does not give.
OF_TIMES = (14, 15)
# For a sheet there is no call that a join could stand before.
UNJOINED_SHEET = "This operator has not joined, so it has no sheet. Add its join, or correct the operator."


def meanings_of(book_kind):
    """What each number means for that kind of book."""
    (_, indicator), *_ = book_kind.indicators
    own = {**book_kind._asdict(), "tags": runs(book_kind.tags), "indicator": indicator}
    untold = () if BY_NAME["interruption"].tag in book_kind.tags else OF_TIMES
    return {number: meaning.format(**own) for number, meaning in MEANINGS.items() if number not in untold}


class Asked(NamedTuple):
    """What was asked of a program: its answer for the bytes of a filing, and the words for a refusal, by which it did not come about."""

    answer: Callable
    book_kind: BookKind
    refused: str = "settling it is refused"
    would_be: str = "settling would be refused"
    undone: str = "nothing is settled"
    # A sheet is refused as this amount would be.
    like: Optional[Call] = None

    def meaning(self, refusal):
        """What a refusal means here."""
        if self.like and refusal.offset is None and refusal.number == 7:
            return UNJOINED_SHEET
        return meanings_of(self.book_kind)[refusal.number]


def sheet_asked(answer, book_kind, operator, year):
    """The same for the sheet of an operator and a year."""
    sheet = f"the sheet of operator {operator} for {word_of(YEAR, year)}"
    like = Call(BY_NAME["amount"], (operator, year, 0, 0, 0))
    return Asked(answer, book_kind, f"{sheet} is refused", f"{sheet} would be refused", "there is no sheet", like)
