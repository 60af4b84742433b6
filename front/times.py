"""Clock times without daylight saving, and seconds from the start of 2017."""

import re
from datetime import datetime, timedelta

START = datetime(2017, 1, 1)
SECOND = timedelta(seconds=1)
HOUR = timedelta(hours=1)
# None of the three is a leap year.
YEAR_SECONDS = 31_536_000
CLOCK = r"([0-9]{1,2}):([0-9]{2})(?::([0-9]{2}))?"
YEAR_FIRST = re.compile(rf"([0-9]{{4}})-([0-9]{{2}})-([0-9]{{2}})(?:T| +){CLOCK}", re.IGNORECASE)
DAY_FIRST = re.compile(rf"([0-9]{{1,2}})/([0-9]{{1,2}})/([0-9]{{4}})(?:T| +){CLOCK}", re.IGNORECASE)
DATE_ALONE = re.compile(r"[0-9]{4}-[0-9]{2}-[0-9]{2}|[0-9]{1,2}/[0-9]{1,2}/[0-9]{4}")
CLOCK_BEGINS = re.compile(r"[0-9]{1,2}:[0-9]{2}")
# What follows a time that names a zone; names stand for what they are ahead of Z.
ZONED = re.compile(r"(.*?[0-9]) *(Z|UTC|GMT|CET|CEST|[+-][0-9]{2}:?[0-9]{2})", re.IGNORECASE)
ZONE_ALONE = re.compile(r"Z|UTC|GMT|CET|CEST|[+-][0-9]{2}:?[0-9]{2}", re.IGNORECASE)
ZONE_HOURS = {"Z": 0, "UTC": 0, "GMT": 0, "CET": 1, "CEST": 2}
# Winter time is an hour ahead of Z.
WINTER = HOUR
DIGITS_OF_DATE = re.compile(r"([0-9]{4})([0-9]{2})([0-9]{2})|([0-9]{2})([0-9]{2})([0-9]{4})")


def seconds_of(word):
    """The seconds of a clock time, or None where the word is none, or names one that does not exist."""
    time = _time_of(word)
    return None if time is None else (time - START) // SECOND


def _time_of(word):
    found = YEAR_FIRST.fullmatch(word)
    if found:
        return _existing(*found.groups())
    found = DAY_FIRST.fullmatch(word)
    if found:
        day, month, year, *clock = found.groups()
        return _existing(year, month, day, *clock)
    return None


def _existing(*parts):
    try:
        return datetime(*(int(part or 0) for part in parts))
    except ValueError:
        return None


def year_of(seconds):
    """The year of the seconds, 0 for 2017."""
    return seconds // YEAR_SECONDS


def clock_of(seconds):
    """The clock time of the seconds, or None where no calendar reaches."""
    try:
        time = START + timedelta(seconds=seconds)
    except OverflowError:
        return None
    return time.isoformat(timespec="seconds" if time.second else "minutes")


def without_zone(word):
    """The time in winter time that a time with a zone stands for, or None where the word is no such time."""
    found = ZONED.fullmatch(word)
    time = _time_of(found[1]) if found else None
    if time is None:
        return None
    try:
        return clock_of((time - _ahead(found[2].upper()) + WINTER - START) // SECOND)
    except OverflowError:
        return None


def _ahead(zone):
    """How far a zone is ahead of Z."""
    if zone in ZONE_HOURS:
        return ZONE_HOURS[zone] * HOUR
    digits = zone[1:].replace(":", "")
    ahead = timedelta(hours=int(digits[:2]), minutes=int(digits[2:]))
    return ahead if zone[0] == "+" else -ahead


def with_blanks(words):
    """The words, with a date and the clock time (and the zone) after it as one: 14/01/2017 08:10."""
    together = []
    for word in words:
        last = together[-1] if together else ""
        if (DATE_ALONE.fullmatch(last) and CLOCK_BEGINS.match(word)) or (ZONE_ALONE.fullmatch(word) and _time_of(last)):
            together[-1] = f"{last} {word}"
        else:
            together.append(word)
    return together


def date_in_digits(word):
    """The date that a bare number looks like, 20170314 or 14032017, as 2017-03-14; None for any other word."""
    found = DIGITS_OF_DATE.fullmatch(word)
    if not found:
        return None
    for year, month, day in (word[:4], word[4:6], word[6:]), (word[4:], word[2:4], word[:2]):
        date = _existing(year, month, day)
        if date is not None and START.year - 1 <= date.year <= START.year + 3:
            return date.date().isoformat()
    return None


def change_of_clocks(start, end):
    """The day on which the clocks changed within an hour of some second from start to end, or None.

    They change at two in the night, winter time, on the last Sundays of March and October.
    """
    for year in range(START.year - 1, START.year + 4):
        for month in (3, 10):
            last = datetime(year, month, 31)
            change = last - timedelta(days=(last.weekday() + 1) % 7) + 2 * HOUR
            seconds = (change - START) // SECOND
            if start <= seconds + 3600 and end >= seconds - 3600:
                return change.date().isoformat()
    return None
