"""What stands in a book, value by value, as its written filing says; what is not written there is fresh."""

from front import filing
from front.calls import BY_NAME
from front.words import word_of

# The value that is not written, by the call that would write it: a join sets its operator's marks.
FRESH = {"join": 0, "setting": 0, "amount": 0, "mark": 1, "index": 10_000, "rates": 0}


class Book:
    """The values of a book, each under the call that writes it and what that names."""

    def __init__(self, written):
        self.values = {}
        for field in filing.fields_of(written):
            self.values.update(_values_of(field.call))

    def value(self, *key):
        """The value under a key, as in value("amount", operator, year, figure)."""
        return self.values.get(key, FRESH[key[0]])

    def joined(self):
        """The operators that have joined."""
        return [key[1] for key in self.values if key[0] == "join"]


def _values_of(call):
    """What a field of a written filing says: each value, under its key."""
    name, values = call.kind.name, call.values
    if name == "join":
        return {(name, *values): 1}
    if name == "rates":
        return {(name, "pot"): values[0], (name, "cap"): values[1]}
    if name == "amount":
        return {(name, *values[:3]): values[4]}
    return {(name, *values[:-1]): values[-1]}


def named(key):
    """A key in words: operator, year and what stands there."""
    name, *rest = key
    if name == "rates":
        return f"{rest[0]} rate"
    if name == "index":
        return f"index {_worded(name, rest)[0]}"
    operator, *rest = _worded(name, rest)
    what = f"mark at {rest[0]}" if name == "mark" else ", ".join(rest)
    return f"operator {operator}, {what}" if what else f"operator {operator}"


def _worded(name, values):
    return [word_of(place, value) for place, value in zip(BY_NAME[name].places, values)]
