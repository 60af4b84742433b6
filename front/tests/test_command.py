"""The command as staff start it: what a path may be, many at once, standard output, help and exit status."""

import os
import subprocess
import sys

from front import building
from front.kinds import kind_of_example
from front.tests.common import ROOT, InFolder, program_on, settle

CASE_M = (ROOT / "examples" / "case-m" / "filing.q").read_bytes()
SETTLED = program_on(CASE_M)


class Paths(InFolder):
    def test_a_folder_a_filing_or_a_file_of_calls(self):
        calls = (ROOT / "examples" / "case-m" / "calls.txt").read_bytes()
        for path in [
            self.file("a/filing.q", CASE_M).parent,
            self.file("b/calls.txt", calls).parent,
            self.file("c/other.q", CASE_M),
            self.file("d/no-name-that-tells", CASE_M),
            self.file("e/exercise.txt", calls),
            self.file("f/exercise", calls.replace(b"\n", b"\r\n")),
        ]:
            self.assertEqual(settle(path), (0, SETTLED, ""), path)

    def test_a_filing_counts_before_calls_and_what_is_passed_over_is_told(self):
        self.file("calls.csv", "call,operator\njoin,0\n")
        self.file("calls.txt", "join 1\n")
        run = settle(self.folder)
        self.assertEqual(run.output, b"refused 11\n")
        self.assertIn("of operator 1: cabins-2017, ", run.said)
        self.assertIn(f"note: {self.folder}/calls.txt was read; {self.folder}/calls.csv beside it says something else", run.said)
        self.file("filing.q", CASE_M)
        run = settle(self.folder)
        self.assertEqual((run.status, run.output), (0, SETTLED))
        self.assertEqual(run.said.count("note: "), 2)
        self.assertEqual(settle("--show", self.folder).said, run.said)

    def test_trouble(self):
        (self.folder / "empty").mkdir()
        (self.folder / "odd" / "filing.q").mkdir(parents=True)
        self.file("other/b.csv", "")
        self.file("other/a.txt", "")
        for path, said in [
            ("missing", "missing: No such file or directory"),
            ("missing.q", "missing.q: No such file or directory"),
            ("empty", "empty: this folder has no filing: no filing.q, calls.txt or calls.csv"),
            ("odd", "odd/filing.q: Is a directory"),
            ("other", "other: this folder has no filing: no filing.q, calls.txt or calls.csv; give the file itself, as in: other/a.txt"),
        ]:
            self.assertEqual(settle(path, cwd=self.folder), (2, b"", f"{said}\n"))

    def test_a_text_with_a_byte_that_no_text_has(self):
        run = settle(self.file("calls.txt", b"join 0\njoin \x00\n"))
        self.assertEqual((run.status, run.output), (2, b""))
        self.assertIn(r"calls.txt:2: '\x00': expected an operator", run.said)

    def test_an_empty_filing_is_the_programs_to_refuse(self):
        self.assertEqual(settle(self.file("filing.q", b"")).output, b"refused 10\n")


class Output(InFolder):
    def test_it_is_the_programs_byte_for_byte(self):
        for data in [CASE_M, b"", b"\x01\x00", CASE_M[:-1], CASE_M + b"\x63\x00\x00", CASE_M * 600, bytes(range(256))]:
            run = settle(self.file("filing.q", data))
            self.assertEqual(run.output, program_on(data))
            self.assertEqual(run.status, 0 if run.output == SETTLED else 1)

    def test_without_a_path_the_examples_are_run(self):
        expected = b""
        for example in sorted((ROOT / "examples").iterdir()):
            lines = (example / "calls.txt").read_bytes().splitlines(True)
            program = building.built(ROOT, kind_of_example(example.name).settling)
            expected += b"".join(line for line in lines if line.startswith(b"#")) + program_on((example / "filing.q").read_bytes(), program)
        run = settle(cwd=self.folder)
        self.assertEqual((run.status, run.output), (0, expected))
        self.assertIn("examples/refused/filing.q: field 6 at byte 56: refused: amount 2 2017 fees file 50000", run.said)
        mistyped = "interruption 0 file MV own 2018-06-03T08:10 2018-05-03T09:40 12"
        self.assertIn(f"examples/mistyped/filing.q: field 6 at byte 56: refused: {mistyped}", run.said)

    def test_a_reader_that_leaves_is_no_error(self):
        end, other = os.pipe()
        os.close(end)
        done = subprocess.run([str(ROOT / "settle"), "examples/case-m"], cwd=ROOT, stdout=other, stderr=subprocess.PIPE, check=False)
        os.close(other)
        self.assertEqual((done.returncode, done.stderr), (2, b""))


class Many(InFolder):
    def test_one_that_fails_stops_none(self):
        self.file("anna/filing.q", CASE_M)
        self.file("bart/calls.txt", "join 0\njoin 0\n")
        self.file("carl/calls.txt", "join 0\njoin x\njoin y\n")
        (self.folder / "dora").mkdir()
        self.file("emma.txt", "join 0\n")
        run = settle("anna", "bart", "carl", "dora", "nobody", "emma.txt", "anna", cwd=self.folder)
        self.assertEqual(run.status, 2)
        printed = SETTLED.decode()
        self.assertEqual(
            run.output.decode(),
            f"# anna\n{printed}# bart\nrefused 6 at 4\n# carl\n# dora\n# nobody\n# emma.txt\nrefused 11\n# anna\n{printed}"
            "# anna: settled\n# bart: refused 6 at 4\n# carl: trouble: 2 errors in the text\n# dora: trouble: no filing in this folder\n"
            "# nobody: trouble: No such file or directory\n# emma.txt: refused 11\n# anna: settled\n",
        )
        for said in ["bart/calls.txt:2: refused", "carl/calls.txt:2: 'x'", "carl/calls.txt:3: 'y'", "dora: this folder", "nobody: No"]:
            self.assertIn(said, run.said)

    def test_the_higher_status_counts(self):
        good, refused, missing = self.file("good.q", CASE_M), self.file("refused.txt", "join 16"), self.folder / "missing"
        for paths, status in [
            ([good, good], 0),
            ([good, refused], 1),
            ([refused, good], 1),
            ([missing, good], 2),
            ([missing, refused], 2),
            ([refused, missing], 2),
        ]:
            self.assertEqual(settle(*paths).status, status, paths)

    def test_many_are_shown(self):
        run = settle("--show", self.file("a.txt", "join 0"), self.file("b.txt", "join 1"))
        lines = [line.split("#")[0].strip() for line in run.output.decode().splitlines()]
        self.assertEqual([line for line in lines if line], ["join 0", "join 1"])


class Asked(InFolder):
    def test_help_says_all_this_in_a_screen(self):
        run = settle("--help")
        lines = run.output.decode().splitlines()
        self.assertEqual((run.status, run.said), (0, ""))
        self.assertLessEqual(len(lines), 24)
        self.assertLess(max(map(len, lines)), 80)
        for word in ["filing.q", "calls.txt", "calls.csv", "standard input", "examples", "Exit status", "docs/FILING.md"]:
            self.assertIn(word, run.output.decode())
        options = "--gas --show --sheet --offsets --compare --table --table=excel --encode --write --force --strict --quiet --help"
        for option in options.split():
            self.assertIn(f"{option} ", run.output.decode())

    def test_words_that_cannot_be_meant(self):
        good = self.file("good.q", CASE_M)
        two = ["--show", "--write", "x.q", good]
        for asked in [["--nothing"], ["--sho", good], ["--show"], ["--encode", "x.q"], ["--write", "x.q", good, good], two]:
            run = settle(*asked, cwd=self.folder)
            self.assertEqual((run.status, run.output), (2, b""), asked)
            self.assertIn("usage: settle", run.said)
        self.assertEqual(list(self.folder.iterdir()), [good])

    def test_a_file_that_cannot_be_written(self):
        run = settle("--encode", "no/such/folder.q", self.file("good.q", CASE_M), cwd=self.folder)
        self.assertEqual(run, (2, b"", "no/such/folder.q: No such file or directory\n"))

    def test_it_starts_from_anywhere_and_leaves_nothing(self):
        link = self.folder / "linked"
        link.symlink_to(ROOT / "settle")
        done = subprocess.run([sys.executable, str(link), "--help"], cwd="/", capture_output=True, check=False)
        self.assertEqual(done.returncode, 0)
