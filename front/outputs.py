"""Where answers go: standard output, standard error, and files, which are replaced as a whole or stay as they were."""

import os
import stat
import sys
import tempfile

from front import filing
from front.trouble import Trouble

# No filing is longer by far; what is longer is not looked at to the end.
MOST_LOOKED_AT = 1_000_000


class Closed(Exception):
    """Standard output takes nothing more; the reason is empty where its reader has left."""


def put(data):
    """Puts bytes on standard output."""
    if sys.stdout is None:
        raise Closed("it is closed")
    try:
        sys.stdout.buffer.write(data)
        sys.stdout.flush()
    except BrokenPipeError as error:
        raise Closed("") from error
    except OSError as error:
        raise Closed(error.strerror) from error


def tell(line):
    """Tells staff a line on standard error. Whether anybody hears it makes no difference."""
    if sys.stderr is None:
        return
    try:
        print(line, file=sys.stderr, flush=True)
    except OSError:
        _turn_away(sys.stderr)


def give_up():
    """Nothing more is written to standard output, not even what Python would write at its end."""
    if sys.stdout is not None:
        _turn_away(sys.stdout)


def _turn_away(stream):
    try:
        nowhere = os.open(os.devnull, os.O_WRONLY)
        os.dup2(nowhere, stream.fileno())
        os.close(nowhere)
    except OSError:
        # It has no file behind it, so there is nothing to fail at the end.
        pass


def write(file, data, source, force):
    """Writes a filing to a file (-: standard output), unless that would destroy what is no earlier filing."""
    if file == "-":
        put(data)
        return
    try:
        there = _status(file)
        if there is not None and not force:
            _spare(file, there, source)
        if there is None or stat.S_ISREG(there.st_mode):
            _replace(os.path.realpath(file), data, there)
        else:
            # A device or a pipe is written to; a file must not take its place.
            with open(file, "wb") as opened:
                opened.write(data)
    except OSError as error:
        raise Trouble(f"{file}: {error.strerror}", error.strerror) from error


def _status(file):
    try:
        return os.stat(file)
    except FileNotFoundError:
        return None


def _spare(file, there, source):
    """Refuses to write over what was read, or over a file that is no filing."""
    if source.origin is not None and os.path.samestat(there, source.origin):
        raise Trouble(f"{file}: this is the file that was read, so nothing is written; with --force it is", "would write over its input")
    if stat.S_ISREG(there.st_mode) and not _holds_filing(file):
        what = "this file is there and is no filing, so nothing is written"
        raise Trouble(f"{file}: {what}; give another FILE, or --force to write over it", "would write over a file that is no filing")


def _holds_filing(file):
    with open(file, "rb") as opened:
        data = opened.read(MOST_LOOKED_AT + 1)
    return len(data) <= MOST_LOOKED_AT and all(field.call for field in filing.fields_of(data))


def _replace(path, data, there):
    """Puts the data into a new file beside the path, which then takes its name: on any failure the old file stays."""
    handle, beside = tempfile.mkstemp(prefix=".settle-", dir=os.path.dirname(path))
    try:
        with open(handle, "wb") as opened:
            opened.write(data)
            opened.flush()
            os.fsync(handle)
        os.chmod(beside, _mode(there))
        os.replace(beside, path)
    except BaseException:
        os.unlink(beside)
        raise


def _mode(there):
    """The permissions of the file that was there, or those that a new one gets."""
    if there is not None:
        return stat.S_IMODE(there.st_mode)
    mask = os.umask(0)
    os.umask(mask)
    return 0o666 & ~mask
