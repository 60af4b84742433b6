"""Whether a proved program is there and newer than its sources, and building it where it is not."""

import contextlib
import fcntl
import os
import re
import shutil
import subprocess
import tempfile
from pathlib import Path

from front.trouble import Trouble

ROOT = Path(__file__).resolve().parent.parent
SOURCES = ("src", "specs", "proofs")
# What rt prints of a crate: its name, then whether it is proved; and of a program that is proved and linked, right before it is run.
CRATE = re.compile(rb"crate (\w+): modules ")
PROVED = b"logic=proved "
LINKED = b"rt: running "
KIT = "the Rattle kit (rattle-kit-13f), whose command rt must be on the path; README.md says which versions are needed"
UNBUILT = "the program could not be built"
# The seconds that a program has on its own data.
LIMIT = 120


class Builder:
    """The programs of a tree; each is looked at once, and built if need be. `say` takes a line for staff."""

    def __init__(self, root, say):
        self.root = root
        self.say = say
        self.found = {}

    def program(self, name):
        """The path of the program, newer than its sources; what kept it from being built is told each time it is asked for."""
        if name not in self.found:
            try:
                self.found[name] = self._ready(name)
            except Trouble as trouble:
                self.found[name] = trouble
        if isinstance(self.found[name], Trouble):
            raise self.found[name]
        return self.found[name]

    def _ready(self, name):
        program = built(self.root, name)
        crates = needed(self.root, name)
        why = reason_to_build(self.root, program, crates)
        if why:
            if shutil.which("rt") is None:
                raise Trouble(f"{why}, and rt is not installed. To build it install {KIT}.", UNBUILT)
            try:
                with self._alone(name):
                    self._build(name, program, crates)
            except OSError as error:
                raise Trouble(f"{name} could not be built: {error.filename or ''}: {error.strerror}", UNBUILT) from error
        return program

    @contextlib.contextmanager
    def _alone(self, name):
        """Holds the lock of the tree: two runs at once must not build at once."""
        folder = self.root / "target" / "front"
        folder.mkdir(parents=True, exist_ok=True)
        with (folder / "lock").open("w", encoding="utf-8") as lock:
            try:
                fcntl.flock(lock, fcntl.LOCK_EX | fcntl.LOCK_NB)
            except BlockingIOError:
                self.say(f"another run is building here: waiting for it before {name} is looked at again")
                fcntl.flock(lock, fcntl.LOCK_EX)
            yield

    def _build(self, name, program, crates):
        """Builds the program, unless another run has done so since."""
        why = reason_to_build(self.root, program, crates)
        if not why:
            return
        self.say(f"{why}: proving and building it, which takes some minutes")
        try:
            self._make(name, program, crates)
        except BaseException:
            # A program that is there all the same must not be run the next time: it is to count as older than any source.
            if program.exists():
                os.utime(program, (0, 0))
            raise
        # rt leaves a program as it is whose sources are the same bytes as before.
        os.utime(program)

    def _make(self, name, program, crates):
        """Has the program proved and linked, and sees that it does on its own data what its crate says."""
        log = self.root / "target" / "front" / f"{name}.log"
        linked, status = self._proved(name, log, crates)
        if not linked:
            ended = f"rt run in crates/{name} ended with status {status}"
            raise Trouble(f"{name} could not be built: {ended}; what the prover said is in {log}", UNBUILT)
        if not program.exists():
            raise Trouble(f"{name} is not built, although rt counts it as proved: remove the folder {program.parent} and try again", UNBUILT)
        wrong = wrong_on_own_data(self.root / "crates" / name, program, log)
        if wrong:
            raise Trouble(f"{name} could not be built: {wrong}; what it printed is at the end of {log}", UNBUILT)

    def _proved(self, name, log, crates):
        """Has rt prove, build and run the program, and tells how far it is; answers whether it is proved and linked, and the exit status.

        Nothing builds a program without a run of it. It is run in the folder of its crate, where no filing lies, so it says that of an empty
        one; what it prints there, and the status that it ends with, count for nothing: its run on its own data comes after.
        """
        crate, linked = "", False
        folder = self.root / "crates" / name
        with log.open("wb") as notes, subprocess.Popen(
            ["rt", "run"], cwd=folder, stdin=subprocess.DEVNULL, stdout=subprocess.PIPE, stderr=subprocess.STDOUT
        ) as prover:
            for line in prover.stdout:
                notes.write(line)
                found = CRATE.match(line)
                if found:
                    crate = found[1].decode()
                elif line.startswith(PROVED) and crate in crates:
                    self.say(f"crate {crates.index(crate) + 1} of {len(crates)}: {crate} proved")
                linked = linked or line.startswith(LINKED)
        return linked, prover.returncode


def built(root, name):
    """Where rt leaves a program."""
    return root / "crates" / name / "out" / name


def wrong_on_own_data(crate, program, log):
    """What is wrong with a run of the program as its crate's folder has it, or nothing; the log gets what it prints.

    It runs in a folder with copies of what `data` has; `args` has a word a line. Without `stdout` it must print nothing, without `status`
    end with 0.
    """
    args, given, wanted, status = (_content(crate / part) for part in ("args", "stdin", "stdout", "status"))
    words, ending = [str(program), *args.splitlines()], int(status or 0)
    with tempfile.TemporaryDirectory() as folder, log.open("ab") as notes:
        if (crate / "data").exists():
            shutil.copytree(crate / "data", folder, dirs_exist_ok=True)
        notes.write(b"\non its own data:\n")
        notes.flush()
        try:
            done = subprocess.run(words, cwd=folder, input=given, stdout=subprocess.PIPE, stderr=notes, timeout=LIMIT, check=False)
        except subprocess.TimeoutExpired as late:
            notes.write(late.stdout or b"")
            return f"on its own data it had not ended after {LIMIT} seconds"
        notes.write(done.stdout)
    wrong = []
    if done.stdout != wanted:
        wrong.append(f"what it prints on its own data is not what crates/{crate.name}/stdout has")
    if done.returncode != ending:
        wrong.append(f"on its own data it ended with status {done.returncode}, and not with {ending}")
    return "; ".join(wrong)


def _content(file):
    """The bytes of a file, none where there is no such file."""
    return file.read_bytes() if file.exists() else b""


def needed(root, name):
    """The crates of the tree that a program is made of, each after those that it uses, as rt proves them: itself the last."""
    uses = {}
    for line in (root / "crates.txt").read_text(encoding="utf-8").splitlines():
        crate, colon, used = line.split("#")[0].partition(":")
        if colon:
            uses[crate.strip()] = used.split()
    if name not in uses:
        raise Trouble(f"this tree has no program {name}: crates.txt does not list it", f"no program {name}")
    crates = []

    def add(crate):
        if crate in uses and crate not in crates:
            for used in uses[crate]:
                add(used)
            crates.append(crate)

    add(name)
    return crates


def reason_to_build(root, program, crates):
    """Why the program has to be built, or None if it is there and no source is newer."""
    if not os.access(program, os.X_OK):
        return f"the program {program.name} is not built"
    made = program.stat().st_mtime_ns
    for source in _sources(root, crates):
        if source.stat().st_mtime_ns > made:
            return f"{source.relative_to(root)} is newer than the program {program.name}"
    return None


def _sources(root, crates):
    """The files that a program is made of, and their folders, which tell that a file was removed."""
    yield root / "crates.txt"
    for crate in crates:
        for part in SOURCES:
            yield from (root / "crates" / crate).glob(f"{part}/**/*")
            yield from (root / "crates" / crate).glob(part)
