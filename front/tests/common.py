"""What the tests share: runs of the command, and a folder for their files."""

import contextlib
import io
import subprocess
import sys
import tempfile
import unittest
from pathlib import Path
from typing import NamedTuple

from front import building, command
from front.building import ROOT

# Every warning of the command is an error.
PYTHON = (sys.executable, "-W", "error")
PROGRAM = building.built(ROOT, "quality")
GAS_PROGRAM = building.built(ROOT, "quality_gas")
EXERCISE = Path(__file__).parent / "exercise"
GAS_EXERCISE = Path(__file__).parent / "gas"


class Run(NamedTuple):
    """What a run gave: its exit status, its standard output, and its standard error as text."""

    status: int
    output: bytes
    said: str


def settle(*words, root=ROOT, **options):
    """A run of the command, by the Python that runs the tests, with nothing on standard input unless there is an `input`."""
    if "input" not in options:
        options.setdefault("stdin", subprocess.DEVNULL)
    done = subprocess.run([*PYTHON, str(root / "settle"), *map(str, words)], capture_output=True, check=False, **options)
    return Run(done.returncode, done.stdout, done.stderr.decode())


def settle_here(*words):
    """The same without a process of its own, for many runs."""
    output = io.TextIOWrapper(io.BytesIO())
    said = io.StringIO()
    with contextlib.redirect_stdout(output), contextlib.redirect_stderr(said):
        status = command.main([str(word) for word in words])
    return Run(status, output.buffer.getvalue(), said.getvalue())


def program_on(data, program=PROGRAM):
    """What the program itself prints for a filing."""
    with tempfile.TemporaryDirectory() as folder:
        Path(folder, "filing.q").write_bytes(data)
        return subprocess.run([str(program)], cwd=folder, capture_output=True, check=True).stdout


class InFolder(unittest.TestCase):
    """A test with a folder of its own."""

    def setUp(self):
        made = tempfile.TemporaryDirectory()
        self.addCleanup(made.cleanup)
        self.folder = Path(made.name)

    def file(self, name, content):
        """A file in the folder."""
        path = self.folder / name
        path.parent.mkdir(parents=True, exist_ok=True)
        path.write_bytes(content if isinstance(content, bytes) else content.encode())
        return path
