"""Files are safe: nothing that is no earlier filing is written over, and a failure leaves the old file as it was."""

import os
import resource
import select
import signal
import stat
import subprocess
import time
from unittest import mock

from front.tests.common import PYTHON, ROOT, InFolder, settle, settle_here

CALLS = b"join 0\nrates 1 2\n"
FILING = bytes([1, 0, 1, 0, 6, 0, 8, 0, 0, 0, 1, 0, 0, 0, 2])


class Spared(InFolder):
    def refused(self, option, file, *words, **options):
        """What is said of an output that is not written; the files of the folder stay as they are."""
        before = self.contents()
        run = (settle if options else self.settle_in_folder)(option, file, *words, **options)
        self.assertEqual((run.status, run.output), (2, b""))
        self.assertEqual(self.contents(), before)
        self.assertTrue(run.said.startswith(f"{file}: "), run.said)
        self.assertEqual(run.said.count("\n"), 1)
        return run.said

    def settle_in_folder(self, *words):
        here = os.getcwd()
        os.chdir(self.folder)
        try:
            return settle_here(*words)
        finally:
            os.chdir(here)

    def contents(self):
        return {path: path.read_bytes() for path in self.folder.rglob("*") if path.is_file()}

    def test_an_output_that_is_the_input(self):
        self.file("x.txt", CALLS)
        self.file("x.q", FILING)
        self.file("anna/filing.q", FILING)
        (self.folder / "link.q").symlink_to("x.q")
        os.link(self.folder / "x.q", self.folder / "hard.q")
        for option in ("--encode", "--write"):
            for file, path in [
                ("x.txt", "x.txt"),
                ("x.q", "x.q"),
                ("./x.q", "x.q"),
                ("link.q", "x.q"),
                ("x.q", "link.q"),
                ("hard.q", "x.q"),
                ("anna/filing.q", "anna"),
            ]:
                self.assertIn("this is the file that was read", self.refused(option, file, path))
            with (self.folder / "x.txt").open("rb") as opened:
                self.assertIn("this is the file that was read", self.refused(option, "x.txt", "-", stdin=opened, cwd=self.folder))

    def test_an_output_that_is_there_and_no_filing(self):
        self.file("x.q", FILING)
        for name, content in [("x.txt", CALLS), ("notes.doc", b"by hand"), ("broken.q", FILING[:-1]), ("big.q", FILING * 80_000)]:
            self.file(name, content)
            for option in ("--encode", "--write"):
                self.assertIn("this file is there and is no filing", self.refused(option, name, "x.q"))

    def test_swapped_arguments(self):
        self.file("x.txt", CALLS)
        self.assertEqual(self.refused("--write", "x.txt", "x.txt")[:6], "x.txt:")
        run = settle("--write", "x.txt", "new.q", cwd=self.folder)
        self.assertEqual(run, (2, b"", "new.q: No such file or directory\n"))
        self.assertEqual((self.folder / "x.txt").read_bytes(), CALLS)

    def test_an_earlier_filing_is_replaced(self):
        path = self.file("x.txt", CALLS)
        for earlier in (bytes([1, 0, 1, 3]), b""):
            for option in ("--encode", "--write"):
                file = self.file("made.q", earlier)
                file.chmod(0o640)
                self.assertEqual(settle(option, file, path), (0, b"", ""))
                self.assertEqual((file.read_bytes(), stat.S_IMODE(file.stat().st_mode)), (FILING, 0o640))

    def test_force(self):
        path = self.file("x.txt", CALLS)
        self.assertEqual(settle("--encode", path, "--force", path).status, 0)
        self.assertEqual(path.read_bytes(), FILING)
        self.assertEqual(settle("--force", path).status, 2)

    def test_a_link_stays_a_link(self):
        path, made = self.file("x.txt", CALLS), self.file("made.q", b"")
        (self.folder / "link.q").symlink_to("made.q")
        settle("--encode", self.folder / "link.q", path)
        self.assertEqual((made.read_bytes(), (self.folder / "link.q").is_symlink()), (FILING, True))

    def test_a_pipe_is_written_to_and_not_replaced(self):
        # In the place of a device: the test must do no harm where the command does.
        path, pipe = self.file("x.txt", CALLS), self.folder / "pipe"
        os.mkfifo(pipe)
        with subprocess.Popen(["cat", str(pipe)], stdout=subprocess.PIPE) as reader:
            run = settle("--encode", pipe, path)
            if not stat.S_ISFIFO(pipe.stat().st_mode):
                reader.kill()
            self.assertEqual((run, reader.communicate()[0]), ((0, b"", ""), FILING))
        self.assertTrue(stat.S_ISFIFO(pipe.stat().st_mode))


class Kept(InFolder):
    """The old file stays, and nothing lies beside it, when writing fails."""

    def setUp(self):
        super().setUp()
        self.path = self.file("x.txt", CALLS)
        self.made = self.file("made.q", bytes([1, 0, 1, 3]))

    def check_kept(self):
        self.assertEqual(sorted(path.name for path in self.folder.iterdir()), ["made.q", "x.txt"])
        self.assertEqual(self.made.read_bytes(), bytes([1, 0, 1, 3]))

    def test_no_space(self):
        def limited():
            signal.signal(signal.SIGXFSZ, signal.SIG_IGN)
            resource.setrlimit(resource.RLIMIT_FSIZE, (8, 8))

        run = settle("--encode", self.made, self.path, preexec_fn=limited)
        self.assertEqual(run, (2, b"", f"{self.made}: File too large\n"))
        self.check_kept()

    def test_no_permission(self):
        with mock.patch("front.outputs.tempfile.mkstemp", side_effect=PermissionError(13, "Permission denied")):
            run = settle_here("--encode", self.made, self.path)
        self.assertEqual(run, (2, b"", f"{self.made}: Permission denied\n"))
        self.check_kept()

    def test_an_interrupt_on_the_way(self):
        for name in ("fsync", "chmod", "replace"):
            with mock.patch(f"front.outputs.os.{name}", side_effect=KeyboardInterrupt):
                self.assertEqual(settle_here("--encode", self.made, self.path), (2, b"", ""))
            self.check_kept()

    def test_a_folder_and_a_name_too_long(self):
        (self.folder / "folder").mkdir()
        for file, why in [(self.folder / "folder", "Is a directory"), (self.folder / ("x" * 300), "File name too long")]:
            run = settle("--encode", file, self.path)
            self.assertEqual(run, (2, b"", f"{file}: {why}\n"))
        (self.folder / "folder").rmdir()
        self.check_kept()


class Interrupted(InFolder):
    def setUp(self):
        super().setUp()
        # Where the tests run in the background interrupts are ignored, and a command would inherit that.
        self.addCleanup(signal.signal, signal.SIGINT, signal.signal(signal.SIGINT, signal.default_int_handler))

    def test_an_interrupt_is_silent(self):
        end, other = os.pipe()
        os.write(other, b"join 0\n")
        command = [*PYTHON, str(ROOT / "settle"), "--encode", str(self.folder / "made.q"), "-"]
        with subprocess.Popen(command, stdin=end, stdout=subprocess.PIPE, stderr=subprocess.PIPE) as process:
            # Once the line is read, the command waits for more.
            while select.select([end], [], [], 0)[0]:
                time.sleep(0.05)
            process.send_signal(signal.SIGINT)
            output, said = process.communicate()
        os.close(end)
        os.close(other)
        self.assertEqual((process.returncode, output, said), (2, b"", b""))
        self.assertEqual(list(self.folder.iterdir()), [])
