"""How two books differ, value by value in words."""

from front.books import FRESH, named

# The order of a written filing.
ORDER = {name: number for number, name in enumerate(FRESH)}


def differences(here, there):
    """A line for each value that is not the same in two books."""
    keys = sorted({*here.values, *there.values}, key=lambda key: (ORDER[key[0]], _rank(key)))
    return [_difference(key, here, there) for key in keys if _differs(key, here, there)]


def _rank(key):
    """Operators, years and figures as they rise; the pot rate before the cap rate."""
    return (key[1] == "cap",) if key[0] == "rates" else key[1:]


def _differs(key, here, there):
    # Who has not joined has no marks that could be compared.
    if key[0] == "mark" and not (here.value("join", key[1]) and there.value("join", key[1])):
        return False
    return here.value(*key) != there.value(*key)


def _difference(key, here, there):
    first, second = (_said(key[0], book.value(*key)) for book in (here, there))
    return f"{named(key)}: {first} here, {second} there"


def _said(name, value):
    if name == "join":
        return "joined" if value else "not joined"
    if name == "mark":
        return "set" if value else "cleared"
    return str(value)
