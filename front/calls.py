"""The seven filing calls: tag, name, and the places of their values, in the order of the text and of the bytes."""

from typing import NamedTuple, Tuple


class Place(NamedTuple):
    """The place of a value in a call; words[n] is the word for the number n."""

    name: str
    bits: int
    what: str
    words: Tuple[str, ...] = ()
    # Words that were taken once, each with the number that it stood for, and what is expected now.
    former: Tuple[Tuple[str, int, str], ...] = ()
    # Numbers that have a word and are not taken by a kind of book, each with the reason.
    lacking: Tuple[Tuple[int, str], ...] = ()
    signed: bool = False
    is_time: bool = False

    @property
    def taken(self):
        """The numbers that have a word and are taken."""
        return [number for number in range(len(self.words)) if not self.lack(number)]

    @property
    def choice(self):
        """The words that are taken, and their numbers."""
        return f"{', '.join(self.words[number] for number in self.taken)}, or a number {self.taken[0]} to {self.taken[-1]}"

    @property
    def expected(self):
        """What is expected here."""
        if self.words:
            return f"{self.what}: {self.choice}"
        return self.what if self.is_time else f"{self.what}, as a whole number in digits alone"

    def lack(self, number):
        """Why a number that has a word is not taken, or None."""
        return dict(self.lacking).get(number)

    def number_of(self, word):
        """The number that a word of this place stands for, or None."""
        word = word.lower()
        for number, known in enumerate(self.words):
            if word == known.lower():
                return number
        return None

    def former_of(self, word):
        """The number that a word stood for that was taken once, and what is expected now; nothing twice for any other."""
        for former, number, expected in self.former:
            if word.lower() == former:
                return number, expected
        return None, None

    def fits(self, number):
        """Whether the number can be put into the bytes of this place; its range is the program's to judge."""
        if self.signed:
            return -(1 << self.bits - 1) <= number < 1 << self.bits - 1
        return 0 <= number < 1 << self.bits


class Kind(NamedTuple):
    """One of the seven calls."""

    tag: int
    name: str
    places: Tuple[Place, ...]

    @property
    def has_times(self):
        """Whether some of its values are times."""
        return any(place.is_time for place in self.places)

    @property
    def length(self):
        """The bytes of the content."""
        return sum(place.bits // 8 for place in self.places)


class Call(NamedTuple):
    """A call and its values, as numbers."""

    kind: Kind
    values: Tuple[int, ...]

    def value(self, name):
        """The value at the place of that name, or None."""
        for place, value in zip(self.kind.places, self.values):
            if place.name == name:
                return value
        return None


def _worded(name, what, words, former=()):
    return Place(name, 8, what, words, former)


def _number(name, bits, what):
    return Place(name, bits, what)


def _time(name):
    return Place(
        name,
        64,
        "a time that exists, as 2017-03-14T10:00, 2017-03-14 10:00:30 or 14/03/2017 10:00, or seconds from the start of 2017",
        signed=True,
        is_time=True,
    )


YEARS = ("2017", "2018", "2019")
SETTINGS = ("cabins-2017", "access-points", "income", "cabins-2018", "cabins-2019")
# The settings with the cabins of each year, from 2017 on, whose numbers do not follow each other; then the others.
CABINS = tuple(SETTINGS.index(f"cabins-{year}") for year in YEARS)
ACCESS_POINTS, INCOME = map(SETTINGS.index, ("access-points", "income"))
PLAIN_CABINS = "cabins", CABINS[0], "{}, {} or {}: each year has its own cabins".format(*(SETTINGS[which] for which in CABINS))

# What interruptions come to, and how many there were, by what became of them.
MEASURES = ("mv-weight", "mv-seconds", "lv-weight", "lv-seconds")
COUNTS = ("count-counted", "count-short", "count-planned", "count-coupled", "count-exceptional")
FIGURES = (*MEASURES, "fees", "connections", "reconnection-fees", "reconnections", *COUNTS)
INDICATORS = ("A1", "A2", "A3", "A4", "D1", "D2")

OPERATOR = _number("operator", 8, "an operator, 0 to 15")
YEAR = _worded("year", "a year", YEARS)
SIGN = _worded("sign", "a sign", ("file", "withdraw"))

KINDS = (
    Kind(1, "join", (OPERATOR,)),
    Kind(
        2,
        "setting",
        (
            OPERATOR,
            _worded("setting", "a setting", SETTINGS, (PLAIN_CABINS,)),
            _number("value", 64, "cabins up to 100000, access points up to 4000000, or income in cents up to 100000000000"),
        ),
    ),
    Kind(
        3,
        "interruption",
        (
            OPERATOR,
            SIGN,
            _worded("level", "a level", ("MV", "LV")),
            _worded("cause", "a cause", ("own", "planned", "coupled", "exceptional", "unattested")),
            _time("start"),
            _time("end"),
            _number("weight", 32, "a weight, for MV 1 to 100000 cabins and for LV 1"),
        ),
    ),
    Kind(
        4,
        "amount",
        (
            OPERATOR,
            YEAR,
            _worded("figure", "a figure", FIGURES),
            SIGN,
            _number("value", 64, "an amount up to 100000000000, fees in cents"),
        ),
    ),
    Kind(
        5,
        "mark",
        (
            OPERATOR,
            _worded("indicator", "an indicator", INDICATORS),
            _number("mark", 8, "a mark, 1 (unreliable) or 0"),
        ),
    ),
    Kind(
        6,
        "rates",
        (
            _number("pot", 32, "the pot rate, up to 20000 millionths"),
            _number("cap", 32, "the cap rate, up to 20000 millionths"),
        ),
    ),
    Kind(
        7,
        "index",
        (
            _worded("index", "an index", ("june-2016", "june-2017", "june-2018", "june-2013")),
            _number("value", 32, "the index in hundredths, 1 to 100000"),
        ),
    ),
)

BY_NAME = {kind.name: kind for kind in KINDS}
BY_TAG = {kind.tag: kind for kind in KINDS}
