"""Which figures a call moves, and by how much, so that a refusal by 8 or 9 can be explained. What becomes of it the programs tell."""

from typing import NamedTuple

from front import times
from front.calls import FIGURES

MOST = 100_000_000_000


class Move(NamedTuple):
    """A figure of an operator and a year, and how much a call adds to it, or takes from it if it withdraws."""

    operator: int
    year: int
    figure: int
    amount: int

    @property
    def key(self):
        """The key of the figure in a book."""
        return ("amount", *self[:3])

    @property
    def name(self):
        """The figure's word."""
        return FIGURES[self.figure]

    def refused(self, book, withdraws):
        """Whether the figure, as it stands in a book, has no room for it, or not enough."""
        standing = book.value(*self.key)
        return standing < self.amount if withdraws else standing + self.amount > MOST


def moves_of(call, word):
    """What an amount moves, or an interruption of which that word tells what becomes: counted, short ..; other calls move no figure."""
    if call.kind.name == "amount":
        return [Move(*call.values[:3], call.value("value"))]
    if call.kind.name == "interruption":
        return _moves_of_interruption(word, *call.values)
    return []


def _moves_of_interruption(word, operator, _sign, level, _cause, start, end, weight):
    """The count of what becomes of it, in the year of its end; of a counted one weight and weighted seconds of its level before that."""
    measured = [(2 * level, weight), (2 * level + 1, weight * (end - start))] if word == "counted" else []
    counts = [(FIGURES.index(f"count-{word}"), 1)]
    return [Move(operator, times.year_of(end), figure, amount) for figure, amount in [*measured, *counts]]
