"""The bytes of a file or of standard input: no more than an exercise can have, and no longer than somebody waits."""

import os
import select
import stat
import time
from typing import NamedTuple

from front.trouble import Trouble

# The calls of the longest filing, in words and with remarks, are far shorter.
MOST_BYTES = 2_000_000
# A pipe that is silent, or does not end, for so many seconds is given up.
MOST_SILENCE = 1.5
MOST_TIME = 10
PIECE = 65_536


class Read(NamedTuple):
    """The bytes, and the status of the file that they came from, which tells it from others."""

    data: bytes
    origin: os.stat_result


def read_file(path):
    """The bytes of the file of that path."""
    try:
        # A pipe that nobody writes to is opened without waiting for a writer.
        handle = os.open(path, os.O_RDONLY | os.O_NONBLOCK)
    except OSError as error:
        raise Trouble(f"{path}: {error.strerror}", error.strerror) from error
    try:
        return _read(handle, str(path))
    finally:
        os.close(handle)


def read_input(stream, name):
    """The bytes of standard input."""
    if stream is None:
        raise Trouble(f"{name}: it is closed", "closed")
    return _read(stream.fileno(), name)


def _read(handle, name):
    origin = os.fstat(handle)
    if stat.S_ISREG(origin.st_mode) and origin.st_size > MOST_BYTES:
        raise _too_much(name, f"{origin.st_size:,} bytes")
    pieces, length, began = [], 0, time.monotonic()
    while length <= MOST_BYTES:
        try:
            _await(handle, name, began)
            piece = os.read(handle, PIECE)
        except OSError as error:
            raise Trouble(f"{name}: {error.strerror}", error.strerror) from error
        if not piece:
            return Read(b"".join(pieces), origin)
        pieces.append(piece)
        length += len(piece)
    raise _too_much(name, f"more than {MOST_BYTES:,} bytes")


def _await(handle, name, began):
    """Waits until there is something to read; at a terminal as long as somebody types."""
    if os.isatty(handle):
        select.select([handle], [], [])
        return
    left = min(MOST_SILENCE, began + MOST_TIME - time.monotonic())
    if left <= 0 or not select.select([handle], [], [], left)[0]:
        raise Trouble(f"{name}: its end did not come; put the calls into a file, and give its name", "its end did not come")


def _too_much(name, count):
    most = f"neither a filing (65,536 bytes at most) nor the calls of one have more than {MOST_BYTES:,}"
    return Trouble(f"{name}: {count}: {most}. See whether this is the right file.", f"{count} are no exercise")
