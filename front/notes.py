"""What a person should look at in a filing that was settled: slips of the calls, and what stands odd in the book."""

from collections import Counter
from itertools import product
from typing import NamedTuple, Optional

from front import times
from front.calls import BY_NAME, CABINS, INCOME, YEARS
from front.filing import Field
from front.words import is_number, word_of

LONGEST = 30 * 86_400
# Cabins that grow or shrink by more than this from one year to the next may be mistyped.
MOST_GROWTH = 2
# What a year comes to whose figure is there, and the one that divides it is 0: at A2 and A4, and at D1 and D2.
AS_NOTHING = "so that year counts as 0 at {}; file its {}, or correct the year"
IN_FULL = "so they weigh in full at {}, as with a count of 1; file its {} if there were any, or correct the year"
# The figure, the one that divides it, the indicator, and which of the two.
DIVIDED = ((1, 0, "A2", AS_NOTHING), (3, 2, "A4", AS_NOTHING), (4, 5, "D1", IN_FULL), (6, 7, "D2", IN_FULL))
SIGN_PLACE = {"interruption": 1, "amount": 3}
# So many notes are told.
MOST_TOLD = 40


class Note(NamedTuple):
    """What to look at, and the field that it is about, if it is about one."""

    field: Optional[Field]
    text: str

    def said(self, source):
        """The line for staff."""
        start = source.name if self.field is None else source.start_of(self.field)
        return f"{start}: note: {self.text}"


def lines_of(source, notes):
    """The notes in lines for staff."""
    lines = [note.said(source) for note in notes[:MOST_TOLD]]
    more = len(notes) - MOST_TOLD
    return [*lines, f"{source.name}: .. and {more:,} more notes"] if more > 0 else lines


def notes_of(source, programs):
    """The notes on a filing that was settled: on its book, and on its calls as they follow."""
    fields = source.fields()
    book = programs.book(source.data)
    on_book = [
        *_marks(fields, book, programs.book_kind.indicators),
        *_incomes(fields, book),
        *_cabins(fields, book),
        *_rates(fields, book),
        *_undivided(fields, book),
    ]
    on_calls = [
        *_repeated(source, fields),
        *_interruptions(source, fields, book),
        *_withdrawals(fields),
    ]
    return on_book + sorted(on_calls, key=lambda note: note.field.number)


def _last(fields, name, *values):
    """The last call of that name whose values begin so, or None."""
    for field in reversed(fields):
        if field.call.kind.name == name and field.call.values[: len(values)] == values:
            return field
    return None


def _marks(fields, book, indicators):
    """The marks that still stand, those of one call together."""
    for operator in book.joined():
        by_call = {}
        for indicator, name in indicators:
            if book.value("mark", operator, indicator):
                field = _last(fields, "mark", operator, indicator) or _last(fields, "join", operator)
                by_call.setdefault(field.number, (field, []))[1].append(name)
        for field, marked in by_call.values():
            since = "since its join" if field.call.kind.name == "join" else "by this call"
            what = f"operator {operator} is marked at {', '.join(marked)} {since}, and gets no points there"
            yield Note(field, f"{what}; if its attestation is in, file: mark {operator} {marked[0]} 0")


def _incomes(fields, book):
    for operator in book.joined():
        if not book.value("setting", operator, INCOME):
            field = _last(fields, "setting", operator, INCOME) or _last(fields, "join", operator)
            what = f"operator {operator} has an income of 0, so its limit is 0 and it has no adjustment"
            yield Note(field, f"{what}; file it in cents: setting {operator} income ..")


def _cabins(fields, book):
    """Cabins of a year that are more than twice, or less than half, those of the year before."""
    for operator, year in product(book.joined(), range(1, len(YEARS))):
        before, now = (book.value("setting", operator, which) for which in CABINS[year - 1 : year + 1])
        if now > MOST_GROWTH * before or before > MOST_GROWTH * now:
            share = "more than twice" if now > before else "less than half"
            what = f"operator {operator} has {now:,} cabins in {YEARS[year]}, {share} the {before:,} of {YEARS[year - 1]}"
            yield Note(_last(fields, "setting", operator, CABINS[year]), f"{what}; see whether a digit or a year is wrong")


def _rates(fields, book):
    if not book.value("rates", "pot") and not book.value("rates", "cap"):
        field = _last(fields, "rates")
        what = "both rates are 0" if field else "rates were never filed"
        yield Note(field, f"{what}, so nobody pays or gets anything; file them, as in: rates 5000 10000")


def _undivided(fields, book):
    """Years with fees and no connections, which weigh in full, or seconds and no weight, which count as 0."""
    _, years, figures, *_ = BY_NAME["amount"].places
    for operator, year, (figure, divisor, indicator, outcome) in product(book.joined(), range(len(years.words)), DIVIDED):
        if book.value("amount", operator, year, figure) and not book.value("amount", operator, year, divisor):
            field = _last(fields, "amount", operator, year, figure) or _last(fields, "amount", operator, year, divisor)
            missing = figures.words[divisor]
            what = f"operator {operator} has {figures.words[figure]} in {years.words[year]} and no {missing}"
            yield Note(field, f"{what}, {outcome.format(indicator, missing)}")


def _unsigned(call):
    """A call without its sign, and whether it withdraws."""
    place = SIGN_PLACE.get(call.kind.name)
    if place is None:
        return (call.kind.name, *call.values), False
    return (call.kind.name, *call.values[:place], *call.values[place + 1 :]), call.values[place] == 1


def _repeated(source, fields):
    """The same call twice. A filing that is withdrawn again was seen already, and so was a withdrawal of each filing."""
    keys = [_unsigned(field.call) for field in fields]
    first, seen, total = {}, Counter(), Counter(keys)
    for field, key in zip(fields, keys):
        call, withdraws = key
        seen[key] += 1
        first.setdefault(key, field)
        if seen[key] > (max(1, total[call, False]) if withdraws else 1 + total[call, True]):
            yield Note(field, f"the same call stands in {source.place_of(first[key])}; take one out if it is meant once")


def _interruptions(source, fields, book):
    for field in fields:
        if field.call.kind.name == "interruption":
            yield from (Note(field, text) for text in _oddities(field.call, source.row_of(field), book))


def _oddities(call, row, book):
    """What is odd about an interruption by itself."""
    start, end, weight = (call.value(name) for name in ("start", "end", "weight"))
    year = times.year_of(end)
    cabins = book.value("setting", call.value("operator"), CABINS[year])
    if weight > cabins:
        yield f"its weight, {weight:,}, is more than the operator's cabins in {YEARS[year]}, {cabins:,}; correct one of them"
    if end - start > LONGEST:
        yield f"it lasts longer than 30 days, from {times.clock_of(start)} to {times.clock_of(end)}; see whether a date is wrong"
    if row is None:
        return
    written = [word for place, word in zip(call.kind.places, row.words) if place.is_time]
    yield from filter(None, map(_taken_as_seconds, written))
    changed = times.change_of_clocks(start, end)
    if changed and not all(map(is_number, written)):
        yield (
            f"the clocks changed in the night of {changed}; times are winter time, all year, and here {end - start:,} seconds "
            "are counted from start to end; take an hour off a time that was read in summer time"
        )


def _taken_as_seconds(word):
    date = times.date_in_digits(word)
    if date is None:
        return None
    return f"{word} is taken as seconds, that is {times.clock_of(int(word))}; for that date write {date}T00:00, with its clock time"


def _is_withdrawal(field):
    return field.call.kind.name == "interruption" and field.call.value("sign") == 1


def _withdrawals(fields):
    """Withdrawals of interruptions of which there is no filing with the same values; another one is taken out then."""
    filed = Counter(_unsigned(field.call)[0] for field in fields if not _is_withdrawal(field))
    for field in filter(_is_withdrawal, fields):
        key, _ = _unsigned(field.call)
        if filed[key] <= 0:
            level = word_of(field.call.kind.places[2], field.call.value("level"))
            yield Note(field, f"no {level} interruption of these very values is left here to withdraw; correct it to what was filed")
        filed[key] -= 1
