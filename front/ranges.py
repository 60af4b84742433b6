"""The ranges of the values of a call, and which of its values are outside: what a refusal by 5, 14 or 15 means."""

from front.calls import ACCESS_POINTS, CABINS, INCOME, YEARS
from front.words import word_of

PERIOD = "2017-01-01T00:00 to 2019-12-31T23:59:59"
MOST_END = 94_607_999
LEAST_START = -31_536_000
MOST_WEIGHT = 100_000
# The most of each setting, and its range in words.
LIMITS = {
    **{which: (100_000, f"cabins of {year} are 0 to 100,000") for which, year in zip(CABINS, YEARS)},
    ACCESS_POINTS: (4_000_000, "access points are 0 to 4,000,000"),
    INCOME: (100_000_000_000, "income is 0 to 100,000,000,000 cents"),
}
MOST_RATE = 20_000
MOST_INDEX = 100_000


def outside(number, call, book_kind):
    """A sentence for each value of a call for which that number refuses it in that kind of book: the value, and the range."""
    untaken = _untaken(call, book_kind) if number == 5 else ()
    wrong = [*untaken, *(CHECKS[number].get(call.kind.name, _none)(call) if book_kind.takes(call) else ())]
    words = {place.name: word_of(place, value) for place, value in zip(call.kind.places, call.values)}
    return [f"The {name} is {words[name]}: {text}." for name, text in wrong]


def _untaken(call, book_kind):
    """The values that should have a word, and are no number of one that is taken."""
    for place, value in zip(book_kind.places_of(call), call.values):
        if place.words and value not in place.taken:
            lack = place.lack(value)
            yield place.name, f"{lack}; it is one of {place.choice}" if lack else f"it is one of {place.choice}"


def _none(_call):
    return ()


def _setting(call):
    which = call.value("setting")
    if which in LIMITS and call.value("value") > LIMITS[which][0]:
        yield "value", LIMITS[which][1]


def _start_and_end(call):
    if call.value("start") > call.value("end"):
        yield "start", f"it is not after the end, {word_of(call.kind.places[5], call.value('end'))}"


def _period(call):
    if not 0 <= call.value("end") <= MOST_END:
        yield "end", f"it is {PERIOD}"
    if call.value("start") < LEAST_START:
        yield "start", "it is not before 2016-01-02T00:00"


def _interruption(call):
    weight = call.value("weight")
    if call.value("level") == 1 and weight != 1:
        yield "weight", "for LV it is 1"
    if call.value("level") == 0 and not 1 <= weight <= MOST_WEIGHT:
        yield "weight", f"for MV it is 1 to {MOST_WEIGHT:,} cabins"


def _mark(call):
    if call.value("mark") > 1:
        yield "mark", "it is 0 (cleared) or 1 (unreliable)"


def _rates(call):
    for name in ("pot", "cap"):
        if call.value(name) > MOST_RATE:
            yield name, f"a rate is 0 to {MOST_RATE:,} millionths"


def _index(call):
    if not 1 <= call.value("value") <= MOST_INDEX:
        yield "value", f"an index is 1 to {MOST_INDEX:,} hundredths"


# What is looked at for each number, by the name of the call.
CHECKS = {
    5: {"setting": _setting, "interruption": _interruption, "mark": _mark, "rates": _rates, "index": _index},
    14: {"interruption": _start_and_end},
    15: {"interruption": _period},
}
