#!/usr/bin/env python3
"""Prints text commands as the bytes that the test program replay reads: each is a field, of a filing or with a tag of its own.

tests/replay.py <crates/replay/commands.txt >crates/replay/stdin
"""

import struct
import sys

# The tag of each command, and its content as struct writes it.
COMMANDS = {
    "join": (1, "B"),
    "setting": (2, "BBQ"),
    "interruption": (3, "BBBBqqI"),
    "amount": (4, "BBBBQ"),
    "mark": (5, "BBB"),
    "rates": (6, "II"),
    "index": (7, "BI"),
    "fresh": (208, ""),
    "show": (209, ""),
    "settle": (210, ""),
    "gas": (213, ""),
    "electricity": (214, ""),
}
STORE = 211
SHEET = 212
# What can be stored, in the order of its kinds, with the count of numbers that give the place.
STORED = {"joined": 0, "marks": 1, "figure": 3, "pot": 0, "cap": 0, "index": 1, "setting": 2}


def field(tag, content):
    """A field with this content."""
    return struct.pack(">BH", tag, len(content)) + content


def command(name, *words):
    """The bytes of a command. Those of a store are a field inside a field: kind, place and value as an amount has its numbers."""
    if name == "store":
        kind, *numbers = words
        place, value = numbers[:-1], numbers[-1]
        if len(place) != STORED[kind]:
            raise ValueError(f"{kind} is stored at {STORED[kind]} numbers")
        filled = [list(STORED).index(kind), *place, *[0] * (3 - len(place)), value]
        return field(STORE, command("amount", *filled))
    if name == "sheet":
        # Operator and year stand where an amount has them.
        operator, year = words
        return field(SHEET, command("amount", operator, year, 0, 0, 0))
    tag, form = COMMANDS[name]
    return field(tag, struct.pack(">" + form, *map(int, words)))


def main():
    for number, line in enumerate(sys.stdin.read().splitlines(), start=1):
        if line and not line.startswith("#"):
            try:
                sys.stdout.buffer.write(command(*line.split(" ")))
            except (KeyError, IndexError, ValueError, struct.error) as problem:
                sys.exit(f"tests/replay.py: line {number}, {line!r}: {problem!r}")


main()
