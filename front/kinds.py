"""The kinds of book, electricity and gas: what each takes, its programs, and the words of its own. All others ask here."""

from typing import Dict, NamedTuple, Optional, Tuple

from front.calls import ACCESS_POINTS, BY_NAME, BY_TAG, CABINS, COUNTS, KINDS, MEASURES, SETTINGS, Kind


class BookKind(NamedTuple):
    """A kind of book."""

    name: str
    # What to do where another kind was asked for, and this one may be meant.
    hint: str
    # The programs that settle, write a book out, tell what becomes of each field, and print a yearly sheet, if it has one.
    settling: str
    writing: str
    telling: str
    sheet: Optional[str]
    # The calls that it takes, by name, with their places as it takes them; and why it does not take another one.
    calls: Dict[str, Kind]
    refused: Dict[str, str]
    # The settings that must be above 0 to settle, and the words for one that lacks, and for all of them.
    network: Tuple[int, ...]
    lacks: str
    needs: str
    # The words for all its indicators, and for the number of marks that a join sets.
    all_indicators: str
    marks: str

    @property
    def indicators(self):
        """Its indicators, each with its word."""
        place = self.calls["mark"].places[1]
        return [(which, place.words[which]) for which in place.taken]

    @property
    def tags(self):
        """The tags of its calls."""
        return [kind.tag for kind in self.calls.values()]

    def places_of(self, call):
        """The places of a call as it takes them."""
        return self.calls.get(call.kind.name, call.kind).places

    def takes(self, call):
        """Whether it takes a call; the ranges of the values are the program's to judge."""
        lacking = [value for place, value in zip(self.places_of(call), call.values) if place.lack(value)]
        return call.kind.name in self.calls and not lacking

    def refusal_of(self, tag):
        """Why it does not take the calls of a tag, or None where it takes them, or no kind of book knows the tag."""
        return self.refused.get(BY_TAG[tag].name) if tag in BY_TAG else None


def hints(book_kind, calls=()):
    """What to do where something is not taken by this kind of book: for each other kind that takes these calls."""
    return [other.hint for other in KINDS_OF_BOOK if other is not book_kind and all(map(other.takes, calls))]


def hints_to_settle(book_kind, calls):
    """The same where the settings lack that this kind needs: for each kind that needs fewer, and takes these calls."""
    return [other.hint for other in KINDS_OF_BOOK if set(other.network) < set(book_kind.network) and all(map(other.takes, calls))]


def kind_of_example(name):
    """The kind of book that an example is, by the beginning of its folder's name."""
    return next((book_kind for book_kind in KINDS_OF_BOOK if name.startswith(book_kind.name)), ELECTRICITY)


def _narrowed(kind, lacking, described):
    """A call as a kind of book takes it: without words that are lacking at some places, and with some places described in its own words."""
    places = []
    for place in kind.places:
        lacks = [(place.number_of(word), reason) for name, words, reason in lacking if name == place.name for word in words]
        places.append(place._replace(what=described.get((kind.name, place.name), place.what), lacking=tuple(lacks)))
    return kind._replace(places=tuple(places))


ELECTRICITY = BookKind(
    name="electricity",
    hint="if this is an electricity filing, leave out --gas",
    settling="quality",
    writing="rewrite",
    telling="outcomes",
    sheet="sheet",
    calls=BY_NAME,
    refused={},
    network=(*CABINS, ACCESS_POINTS),
    lacks="the cabins of a year, or access points",
    needs="the cabins of all three years and the access points",
    all_indicators="all six indicators",
    marks="six",
)

# Gas settles on D1 and D2 alone: the calls, and the words at places, that its books do not take, and why.
NO_GAS_CALLS = {"interruption": "a gas book takes no interruptions"}
NO_GAS_WORDS = (
    ("setting", [SETTINGS[which] for which in CABINS], "a gas book takes no cabins"),
    ("figure", MEASURES, "a gas book takes no figures of interruptions"),
    ("figure", COUNTS, "a gas book takes no counts of interruptions"),
    ("indicator", ("A1", "A2", "A3", "A4"), "a gas book takes no marks at A1 to A4"),
)
GAS_PLACES = {("setting", "value"): "access points up to 4000000, or income in cents up to 100000000000"}
GAS = BookKind(
    name="gas",
    hint="if this is a gas filing, give --gas: a gas book takes no cabins",
    settling="quality_gas",
    writing="rewrite_gas",
    telling="outcomes_gas",
    sheet=None,
    calls={kind.name: _narrowed(kind, NO_GAS_WORDS, GAS_PLACES) for kind in KINDS if kind.name not in NO_GAS_CALLS},
    refused=NO_GAS_CALLS,
    network=(ACCESS_POINTS,),
    lacks="access points",
    needs="the access points",
    all_indicators="D1 and D2",
    marks="two",
)

KINDS_OF_BOOK = (ELECTRICITY, GAS)
