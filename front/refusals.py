"""The programs' refusals in words: the field, what the number means, what to do, and what to look at."""

from front.calls import CABINS, SETTINGS, YEAR
from front.figures import moves_of
from front.kinds import hints, hints_to_settle
from front.listing import listed, runs, sentence
from front.ranges import CHECKS, outside
from front.trouble import Trouble
from front.words import line_of, word_of

OF_INTERRUPTIONS = (
    "An interruption counts in the year of its end; one of 180 seconds or less, or left out for its cause, moves its count and "
    "nothing else."
)

ONLY_2017 = "Only the cabins of 2017 are filed here, as was done before each year had its own. Add those of 2018 and 2019."

MOST_SHOWN = 16
MOST_PLACES = 12
# So many further refusals are looked for.
MOST_ELSE = 10
MOST_BYTES = 65_536


def explained(source, refusal, asked, programs):
    """The refusal in lines for staff."""
    meaning = f"  {refusal.number}: {asked.meaning(refusal)}"
    if refusal.offset is None:
        besides = _of_sheet(source, refusal, asked) if asked.like else _without_network(source, source.fields(), refusal, asked.book_kind)
        return [f"{source.name}: the filing is read, and {asked.refused}", meaning, *(f"  {line}" for line in besides)]
    *before, field = [field for field in source.fields() if field.offset <= refusal.offset]
    return [
        f"{source.start_of(field)}: refused: {_shown(field)}",
        meaning,
        *(f"  {line}" for line in _to_look_at(source, refusal.number, before, field, programs)),
    ]


def explained_length(source):
    """The same for a filing that is too long."""
    length = f"{len(source.data):,}"
    passing = [field for field in source.fields() if field.offset + len(field.data) > MOST_BYTES]
    return [
        f"{source.name}: a filing has at most {MOST_BYTES:,} bytes, and this one has {length}",
        *(f"{source.start_of(field)}: here it passes them: file totals in the place of many entries" for field in passing[:1]),
    ]


def what_else(source, refusal, asked):
    """What else would be refused, on copies without the lines that are."""
    lines, left = [], source.fields()
    while refusal and refusal.offset is not None and len(lines) < MOST_ELSE:
        refused = _at(left, refusal.offset)
        if refused.call is None:
            return [*lines, f"{source.name}: {asked.undone}; what follows these bytes cannot be read"]
        left.remove(refused)
        refusal = asked.answer(b"".join(field.data for field in left)).refusal if left else None
        if refusal:
            lines.append(_also_refused(source, left, refusal, asked))
    if not lines:
        return [f"{source.name}: {asked.undone}; without this line nothing else would be refused"]
    more = ", and there may be more" if len(lines) == MOST_ELSE else ""
    return [*lines, f"{source.name}: {asked.undone}{more}"]


def _also_refused(source, left, refusal, asked):
    meaning = asked.meaning(refusal).split(". ")[0] + "."
    if refusal.offset is None:
        meaning = " ".join(_without_network(source, left, refusal, asked.book_kind)) or meaning
        return f"{source.name}: then {asked.would_be}: {refusal.number}: {meaning}"
    field = _at(left, refusal.offset)
    untaken = _untaken(refusal.number, field, asked.book_kind)
    return f"{source.start_of(field)}: would be refused too: {_shown(field)}: {refusal.number}: {' '.join(untaken) or meaning}"


def _at(fields, offset):
    """The field at an offset of the filing that these fields are."""
    for field in fields:
        if offset < len(field.data):
            return field
        offset -= len(field.data)
    return fields[-1]


def _shown(field):
    """The call in words, or the bytes that are none."""
    if field.call:
        return line_of(field.call)
    more = " .." if len(field.data) > MOST_SHOWN else ""
    return f"the bytes {field.data[:MOST_SHOWN].hex(' ')}{more}"


def _to_look_at(source, number, before, field, programs):
    untaken = _untaken(number, field, programs.book_kind)
    if untaken:
        return [*untaken, *_hints(field, programs.book_kind)]
    if number == 6:
        return [f"It joined in {_places(source, [one for one in before if one.call == field.call])}."]
    if number in (8, 9):
        return _same_figure(source, before, field, programs)
    if field.call is None and field.offset == 0 and _is_text(field.data):
        return ["These bytes are a text: if it holds calls in words, give the file a name that ends in .txt."]
    return []


def _untaken(number, field, book_kind):
    """For 5, 14 and 15 the values and their ranges; for 2 why this kind of book takes no such call, if another one does."""
    if number in CHECKS:
        return outside(number, field.call, book_kind)
    lack = book_kind.refusal_of(field.data[0]) if number == 2 else None
    return [sentence(lack)] if lack else []


def _hints(field, book_kind):
    """What to do if another kind of book takes the call, and this one does not."""
    if field.call is None or book_kind.takes(field.call):
        return []
    return [sentence(hint) for hint in hints(book_kind, [field.call])]


def _is_text(data):
    return all(32 <= byte < 127 or byte in b"\t\r\n" for byte in data)


def _same_figure(source, before, field, programs):
    """For 8 and 9: what stands in the figure that refuses, as the writer says, and the calls before this one that moved it."""
    data = source.data[: field.offset]
    try:
        moves = _moves(field.call, programs)
        book, outcomes = programs.book(data), programs.outcomes(data)
    except Trouble as trouble:
        return [f"What stands in its figure cannot be told: {trouble}"]
    refusing = [move for move in moves if move.refused(book, _withdraws(field.call))] or moves
    keys = {move.key for move in refusing}
    same = [one for one in before if any(move.key in keys for move in moves_of(one.call, outcomes[one.offset].word))]
    standing = listed([f"{book.value(*move.key):,} in {move.name}" for move in refusing])
    lines = [
        f"Of operator {moves[0].operator} in {word_of(YEAR, moves[0].year)} there stands {standing} at this point.",
        f"Earlier calls there: {_places(source, same) or 'none'}.",
    ]
    if field.call.kind.name == "interruption":
        lines.append(f"This interruption {_moved(field.call, moves)}.")
    if any(one.call.kind.name == "interruption" for one in [*same, field]):
        lines.append(OF_INTERRUPTIONS)
    return lines


def _moves(call, programs):
    """What a refused call would move."""
    return moves_of(call, programs.outcome_alone(call) if call.kind.name == "interruption" else None)


def _moved(call, moves):
    """What an interruption adds to figures, or takes from them."""
    verb, side = ("takes", "from") if _withdraws(call) else ("adds", "to")
    return f"{verb} {listed([f'{move.amount:,} {side} {move.name}' for move in moves])}"


def _withdraws(call):
    return call.value("sign") == 1


def _of_sheet(source, refusal, asked):
    """For 5 the year and its range; for 7 who has joined."""
    if refusal.number == 5:
        return outside(5, asked.like, asked.book_kind)
    if refusal.number == 7:
        joined = sorted(field.call.value("operator") for field in source.fields() if field.call.kind.name == "join")
        return [f"Joined here: {listed([f'operator {operator}' for operator in joined] or ['nobody'])}."]
    return []


def _without_network(source, accepted, refusal, book_kind):
    """For 11: what no accepted call files, or the latest as 0; whether the source names cabins of the first year alone, or another kind
    of book takes it that needs fewer settings."""
    if refusal.number != 11:
        return []
    lacking = _lacking(accepted, book_kind.network)
    lines = [f"Missing, or 0, of {_operators(those)}: {listed(lacks)}." for lacks, those in lacking.items() if lacks]
    calls = [field.call for field in source.fields()]
    named = {call.value("setting") for call in calls if call.kind.name == "setting"}
    only_2017 = [ONLY_2017] if named.intersection(CABINS, book_kind.network) == {CABINS[0]} else []
    return [*lines, *only_2017, *map(sentence, hints_to_settle(book_kind, calls))]


def _lacking(fields, network):
    """The operators that have joined, by the settings of the network that they lack, if any."""
    calls = [field.call for field in fields]
    latest = {call.values[:2]: call.value("value") for call in calls if call.kind.name == "setting"}
    lacking = {}
    for operator in sorted(call.value("operator") for call in calls if call.kind.name == "join"):
        lacks = tuple(SETTINGS[which] for which in network if not latest.get((operator, which)))
        lacking.setdefault(lacks, []).append(operator)
    return lacking


def _operators(numbers):
    return f"operator{'s' if len(numbers) > 1 else ''} {runs(numbers)}"


def _places(source, fields):
    listed = ", ".join(source.place_of(field) for field in fields[:MOST_PLACES])
    more = len(fields) - MOST_PLACES
    return f"{listed} and {more} more" if more > 0 else listed
