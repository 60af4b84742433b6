"""What shells and systems bring: standard input, files without end, bytes that are no text, outputs that are closed or full."""

import os
import subprocess
import time
from unittest import mock

from front.tests.common import EXERCISE, ROOT, InFolder, program_on, settle, settle_here

CASE_M = (ROOT / "examples" / "case-m" / "filing.q").read_bytes()
CALLS = (ROOT / "examples" / "case-m" / "calls.txt").read_bytes()
SETTLED = program_on(CASE_M)
# In seconds: a user waits for two at most, and the tests run on machines that do other things too.
PATIENCE = 10


class StandardInput(InFolder):
    def test_a_dash_and_a_pipe_alone(self):
        for data in (CALLS, CASE_M, CALLS.replace(b"\n", b"\r\n")):
            self.assertEqual(settle("-", input=data), (0, SETTLED, ""))
            self.assertEqual(settle(input=data), (0, SETTLED, ""))
        with self.file("calls.txt", CALLS).open("rb") as opened:
            self.assertEqual(settle(stdin=opened), (0, SETTLED, ""))
        table = (EXERCISE / "csv" / "calls.csv").read_bytes()
        self.assertEqual(settle("--encode", "-", "-", input=table).output, (EXERCISE / "bytes" / "filing.q").read_bytes())

    def test_messages_name_it(self):
        self.assertIn("standard input:2: 'x': expected an operator", settle(input=b"join 0\njoin x\n").said)
        self.assertIn("standard input:2: refused: join 0\n", settle("-", input=b"join 0\njoin 0\n").said)

    def test_with_other_paths(self):
        path = self.file("good.q", CASE_M)
        run = settle(path, "-", path, input=CALLS)
        self.assertEqual(run.output.count(SETTLED), 3)
        self.assertIn(b"# -: settled\n", run.output)

    def test_nothing_is_no_exercise(self):
        for words in [(), ("-",)]:
            run = settle(*words, input=b"")
            self.assertEqual((run.status, run.output), (2, b""))
            self.assertEqual(run.said, "standard input: nothing came. Give a PATH; the examples are settled by: ./settle </dev/null\n")

    def test_closed(self):
        for words, output in [("-", b""), ("", b"operator points")]:
            done = subprocess.run(["bash", "-c", f"'{ROOT}/settle' {words} <&-"], capture_output=True, check=False)
            self.assertNotIn(b"Traceback", done.stderr)
            self.assertIn(output, done.stdout)
        self.assertEqual(settle("-", stdin=subprocess.DEVNULL).status, 2)


class WithoutEnd(InFolder):
    def told(self, *words, **options):
        """The one line that is told, and in time."""
        began = time.monotonic()
        run = settle(*words, **options)
        self.assertLess(time.monotonic() - began, PATIENCE)
        self.assertEqual((run.status, run.output), (2, b""))
        self.assertEqual(run.said.count("\n"), 1, run.said)
        return run.said

    def test_devices(self):
        self.assertTrue(self.told("/dev/zero").startswith("/dev/zero: more than 2,000,000 bytes: "))
        self.assertTrue(self.told("/dev/urandom").startswith("/dev/urandom: more than 2,000,000 bytes: "))
        with open("/dev/zero", "rb") as zero:
            self.assertTrue(self.told("-", stdin=zero).startswith("standard input: more than 2,000,000 bytes: "))

    def test_pipes_that_nobody_writes_to_or_ends(self):
        fifo = self.folder / "fifo"
        os.mkfifo(fifo)
        said = "its end did not come; put the calls into a file, and give its name\n"
        self.assertEqual(self.told(fifo), f"{fifo}: {said}")
        end, other = os.pipe()
        os.write(other, b"join 0\n")
        self.assertEqual(self.told(stdin=end), f"standard input: {said}")
        os.close(end)
        os.close(other)

    def test_a_pipe_that_is_written_to(self):
        fifo = self.folder / "fifo"
        os.mkfifo(fifo)
        with subprocess.Popen(["sh", "-c", f"cat '{ROOT}/examples/case-m/calls.txt' >'{fifo}'"]):
            self.assertEqual(settle(fifo), (0, SETTLED, ""))

    def test_files_that_are_far_too_long(self):
        said = self.told(self.file("calls.txt", b"amount 1 2018 fees file 1\n" * 1_000_000))
        self.assertIn("calls.txt: 26,000,000 bytes: neither a filing", said)

    def test_a_million_lines_that_are_no_calls(self):
        path = self.file("calls.txt", b"a\n" * 1_000_000)
        began = time.monotonic()
        run = settle(path)
        self.assertLess(time.monotonic() - began, PATIENCE)
        self.assertEqual((run.status, run.said.count("\n")), (2, 22))
        self.assertIn(f"{path}: .. and 999,980 more\n", run.said)


class OtherFiles(InFolder):
    def test_spreadsheets_and_wrong_names(self):
        for name, content, said in [
            ("x.xlsx", b"PK\x03\x04\x14\x00", "this is a file of a spreadsheet program. Save it there as CSV (UTF-8)"),
            ("x.csv", b"PK\x03\x04\x14\x00", "this is a file of a spreadsheet program"),
            ("x.xls", b"\xd0\xcf\x11\xe0\xa1\xb1", "this is a file of a spreadsheet program"),
            ("x.txt", b"call;operator\njoin;0\n", "this is CSV by its first line. Give the file a name that ends in .csv."),
            ("y.txt", b"\xef\xbb\xbfsep=;\r\ncall;operator\r\n", "this is CSV by its first line"),
            ("z.txt", b'# remarks\n\n"Operator","Call"\n', "this is CSV by its first line"),
            ("x.csv", b"# remarks\njoin 0\n", "these are calls in words, and not CSV. Give the file a name that ends in .txt."),
        ]:
            path = self.file(name, content)
            run = settle_here(path)
            self.assertEqual((run.status, run.output), (2, b""), name)
            self.assertTrue(run.said.startswith(f"{path}: {said}"), run.said)
            self.assertEqual(run.said.count("\n"), 1)

    def test_random_bytes(self):
        data = bytes((number * 7919 + number // 251) % 256 for number in range(200_000))
        run = settle(self.file("calls.txt", data))
        self.assertEqual((run.status, run.output), (2, b""))
        self.assertLessEqual(run.said.count("\n"), 22)
        self.assertEqual(settle(self.file("random", data)).status, 1)


class Failures(InFolder):
    def test_of_one_path_stop_no_other(self):
        good = self.file("good.q", CASE_M)
        (self.folder / "loop").symlink_to("loop")
        paths = [self.folder / ("x" * 300), "loop", good / "below", good]
        run = settle(*paths, cwd=self.folder)
        self.assertEqual(run.status, 2)
        self.assertIn(SETTLED, run.output)
        reasons = ["File name too long", "Too many levels of symbolic links", "Not a directory"]
        self.assertEqual(run.said.splitlines(), [f"{path}: {reason}" for path, reason in zip(paths, reasons)])

    def test_no_permission_and_no_room_for_the_program(self):
        good = self.file("good.q", CASE_M)
        with mock.patch("front.reading.os.open", side_effect=PermissionError(13, "Permission denied")):
            self.assertEqual(settle_here(good), (2, b"", f"{good}: Permission denied\n"))
        full = OSError(28, "No space left on device", "/tmp/made")
        with mock.patch("front.programs.tempfile.TemporaryDirectory", side_effect=full):
            self.assertEqual(settle_here(good), (2, b"", f"{good}: /tmp/made: No space left on device\n"))

    def test_what_should_not_happen_is_a_line(self):
        good = self.file("good.q", CASE_M)
        with mock.patch("front.programs.Programs.settled", side_effect=TypeError("odd")):
            self.assertEqual(settle_here(good), (2, b"", "settle: this should not happen, so tell whoever keeps it: TypeError: odd\n"))

    def shell(self, words):
        words = words.replace("settle", f"'{ROOT}/settle'")
        done = subprocess.run(["bash", "-c", words], cwd=ROOT, capture_output=True, check=False)
        return done.returncode, done.stdout, done.stderr.decode()

    def test_a_full_or_closed_output(self):
        for to, why in [(">/dev/full", "No space left on device"), (">&-", "it is closed")]:
            expected = (2, b"", f"standard output: {why}; nothing more is printed\n")
            self.assertEqual(self.shell(f"settle examples/case-m {to} </dev/null"), expected)
            self.assertEqual(self.shell(f"settle --show examples/case-m examples/course {to} </dev/null"), expected)
            self.assertEqual(self.shell(f"settle --help {to}"), expected)

    def test_errors_that_nobody_hears(self):
        for to in ("2>/dev/full", "2>&-"):
            self.assertEqual(self.shell(f"settle examples/course {to} </dev/null")[0::2], (0, ""))
            self.assertEqual(self.shell(f"settle examples/refused {to} </dev/null"), (1, b"refused 7 at 56\n", ""))

    def test_a_reader_that_leaves(self):
        for words in ("settle --show examples/course", "settle examples/course examples/course 2>&1", "settle --help"):
            status, output, said = self.shell(f"set -o pipefail; {words} </dev/null | head -n 1")
            self.assertEqual((output.count(b"\n"), said), (1, ""), words)
            self.assertIn(status, (0, 2))
