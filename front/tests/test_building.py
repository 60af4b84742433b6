"""When a program is built, how far it is told, and what is said if it cannot be. A stand-in for rt builds stand-ins for the programs."""

import os
import shutil
import subprocess
import sys
from unittest import mock

from front import building
from front.tests.common import PYTHON, ROOT, InFolder, settle
from front.trouble import Trouble

COUNTS = "counted short planned coupled exceptional"
CRATES = (
    "# the crates\n\nleaf:\nother: leaf\noutput: leaf io\nquality: output libc\n"
    "rewrite: leaf\noutcomes: leaf\nsheet: leaf\n"
    "quality_gas: output libc\nrewrite_gas: leaf\noutcomes_gas: leaf\n\nlone_test: other\n"
)
PROGRAMS = ("quality", "rewrite", "outcomes", "sheet", "quality_gas", "rewrite_gas", "outcomes_gas")
OWN = b"\x01\x00\x02\x00"

# It counts its runs, proves what crates.txt of this tree has, builds the program anew where a source has changed, and runs it.
RT = """#!/bin/sh
name=$(basename "$PWD")
echo "$1 $name" >>../../runs
cd ../..
echo "a note of the prover"
while [ -e held ]; do sleep 0.05; done
proved() { echo "crate $1: modules loaded=2 checked=3"; echo "logic=proved functions=1 sum=0"; }
for crate in leaf output; do proved $crate; done
[ -e failing ] && { echo "crate $name: modules loaded=1 checked=4"; echo "logic=not-proved"; exit 1; }
proved $name
program=crates/$name/out/$name
mkdir -p "$(dirname "$program")"
[ -e unchanged ] || printf '#!/bin/sh\\n%s\\n' "$(cat "standing-in-for-$name")" >"$program"
chmod +x "$program"
[ -e failing-late ] && { echo "the program is not linked"; exit 1; }
echo "rt: running out/$name; to give it other input, run that file yourself"
cd "crates/$name"
"out/$name"
status=$?
[ -e ../../forgetting ] && rm "out/$name"
exit $status
"""


class Tree(InFolder):
    """A small tree with the front in it and a stand-in for rt on the path."""

    def setUp(self):
        super().setUp()
        self.root = self.folder / "tree"
        shutil.copytree(ROOT / "front", self.root / "front", ignore=shutil.ignore_patterns("tests", "__pycache__"))
        shutil.copy2(ROOT / "settle", self.root / "settle")
        self.file("tree/crates.txt", CRATES)
        self.stand_in("quality", "echo operator; cat filing.q")
        self.stand_in("rewrite", "cat filing.q")
        self.stand_in("outcomes", "echo 0 yes")
        self.stand_in("quality_gas", "echo operator of gas; cat filing.q")
        self.stand_in("rewrite_gas", "cat filing.q; printf gas")
        self.stand_in("outcomes_gas", "echo 0 yes; echo 4 refused 2")
        self.stand_in("sheet", f"for word in {COUNTS}; do echo $word $1$2; done")
        for crate in ("leaf", "other", "output", *PROGRAMS):
            self.file(f"tree/crates/{crate}/src/lib.rt", "")
            self.file(f"tree/crates/{crate}/proofs/part/One.antt", "")
        self.path = self.file("bin/rt", RT)
        self.path.chmod(0o755)
        self.filing = self.file("some.q", b"\x01\x00\x01\x00")
        self.pass_time()

    def stand_in(self, name, script):
        """A script in the place of a program; its crate says of the run on its own data what the script does there."""
        self.file(f"tree/standing-in-for-{name}", script)
        data = self.file(f"tree/crates/{name}/data/filing.q", OWN).parent
        done = subprocess.run(["sh", "-c", script, name, "3", "1"], cwd=data, capture_output=True, check=False)
        self.file(f"tree/crates/{name}/args", "3\n1\n")
        self.file(f"tree/crates/{name}/stdout", done.stdout)
        self.file(f"tree/crates/{name}/status", f"{done.returncode}\n")

    def pass_time(self):
        """Makes all that is there older, so that what is written next is newer."""
        for path in self.root.rglob("*"):
            time = path.stat().st_mtime - 10
            os.utime(path, (time, time))

    def searched(self):
        """The path of commands, with the stand-in for rt."""
        return f"{self.path.parent}:{os.environ['PATH']}"

    def settle(self, *words, path=None):
        """A run in this tree; without words the filing is settled, without notes, so that only its own program is asked."""
        found = self.searched() if path is None else path
        return settle(*words or ["--quiet", self.filing], root=self.root, env={**os.environ, "PATH": found})

    def build(self, name):
        """The same as far as its program is built, without a process of its own."""
        with mock.patch.dict(os.environ, PATH=self.searched()):
            building.Builder(self.root, [].append).program(name)

    def reason_to_build(self, name):
        return building.reason_to_build(self.root, building.built(self.root, name), building.needed(self.root, name))

    def runs(self):
        file = self.root / "runs"
        return file.read_text().splitlines() if file.exists() else []


class Built(Tree):
    def test_a_program_that_is_not_there_is_built_and_how_far_is_told(self):
        run = self.settle()
        self.assertEqual((run.status, run.output), (0, b"operator\n\x01\x00\x01\x00"))
        self.assertEqual(self.runs(), ["run quality"])
        self.assertEqual(
            run.said.splitlines(),
            [
                "the program quality is not built: proving and building it, which takes some minutes",
                "crate 1 of 3: leaf proved",
                "crate 2 of 3: output proved",
                "crate 3 of 3: quality proved",
            ],
        )
        self.assertIn("a note of the prover", (self.root / "target/front/quality.log").read_text())

    def test_one_that_is_newer_than_its_sources_is_run(self):
        self.settle()
        self.assertEqual(self.settle().said, "")
        self.assertEqual(len(self.runs()), 1)

    def test_a_touched_source_has_it_built_again(self):
        for source in ["crates.txt", "crates/leaf/src/lib.rt", "crates/quality/proofs/part/One.antt", "crates/output/specs/New.antt"]:
            self.settle()
            self.pass_time()
            before = len(self.runs())
            self.file(f"tree/{source}", CRATES if source == "crates.txt" else "changed")
            self.stand_in("quality", f"echo operator by {source}")
            run = self.settle()
            self.assertEqual(run.output, f"operator by {source}\n".encode())
            self.assertEqual(len(self.runs()), before + 1)
            self.assertIn("is newer than the program quality", run.said)

    def test_a_removed_source_has_it_built_again(self):
        for removed in ["leaf/proofs/part/One.antt", "output/src/lib.rt"]:
            self.settle()
            self.pass_time()
            file = self.root / "crates" / removed
            file.unlink()
            self.assertIn(f"{file.parent.relative_to(self.root)} is newer", self.settle().said)

    def test_sources_of_other_crates_and_wrong_programs_do_not_count(self):
        self.settle()
        self.pass_time()
        for file in ["other/src/lib.rt", "rewrite/src/lib.rt", "quality/must-fail/one.edit", "quality/stdout"]:
            self.file(f"tree/crates/{file}", "changed")
        self.assertEqual(self.settle().said, "")

    def test_what_a_program_does_as_rt_runs_it_does_not_count(self):
        self.stand_in("quality", "[ -e filing.q ] || { echo 'logic=not-proved' >&2; exit 1; }; echo operator")
        run = self.settle()
        self.assertEqual((run.status, run.output), (0, b"operator\n"))
        self.assertTrue(run.said.endswith("crate 3 of 3: quality proved\n"), run.said)
        self.assertIn("logic=not-proved", (self.root / "target/front/quality.log").read_text())
        self.assertEqual(self.settle().said, "")

    def test_a_program_is_run_on_its_own_data_once_as_its_crate_says(self):
        own = f'echo run >>"{self.folder}/ran"; cat; printf "<%s>" "$@"; ls; rm filing.q; echo new >more.q; exit 7'
        self.file("tree/standing-in-for-quality", f"[ -e more.q ] && {{ {own}; }}\necho operator")
        for part, content in [("data/more.q", "more"), ("args", "two words\n\nB"), ("stdin", "given\n"), ("status", "7\n")]:
            self.file(f"tree/crates/quality/{part}", content)
        printed = "given\n<two words><><B>filing.q\nmore.q\n"
        self.file("tree/crates/quality/stdout", printed)
        run = self.settle()
        self.assertEqual((run.status, run.output), (0, b"operator\n"), run.said)
        self.assertEqual((self.folder / "ran").read_text(), "run\n")
        data = {file.name: file.read_bytes() for file in (self.root / "crates/quality/data").iterdir()}
        self.assertEqual(data, {"filing.q": OWN, "more.q": b"more"})
        log = (self.root / "target/front/quality.log").read_text()
        self.assertTrue(log.endswith(f"\non its own data:\n{printed}"), log)

    def test_a_crate_that_says_nothing_of_a_run_wants_nothing_printed(self):
        self.file("tree/standing-in-for-quality", 'cat; printf "%s" "$@"; ls')
        shutil.rmtree(self.root / "crates/quality/data")
        for part in ("args", "stdout", "status"):
            (self.root / "crates/quality" / part).unlink()
        self.build("quality")
        self.assertIsNone(self.reason_to_build("quality"))

    def test_a_source_that_is_touched_and_the_same_is_looked_at_once(self):
        self.settle()
        self.pass_time()
        self.file("tree/unchanged", "")
        (self.root / "crates/leaf/src/lib.rt").touch()
        self.assertIn("is newer", self.settle().said)
        self.assertEqual(self.settle().said, "")
        self.assertEqual(len(self.runs()), 2)


    def test_two_runs_at_once_build_once(self):
        held = self.file("tree/held", "")
        environment = {**os.environ, "PATH": self.searched()}
        command = [*PYTHON, str(self.root / "settle"), "--quiet", str(self.filing)]
        started = {"env": environment, "stdout": subprocess.PIPE, "stderr": subprocess.PIPE, "text": True}
        with subprocess.Popen(command, **started) as first:
            self.assertIn("proving and building it", first.stderr.readline())
            with subprocess.Popen(command, **started) as second:
                said = second.stderr.readline()
                held.unlink()
                answers = [first.communicate()[0], *second.communicate()]
        self.assertEqual(said, "another run is building here: waiting for it before quality is looked at again\n")
        self.assertEqual(answers, ["operator\n\x01\x00\x01\x00"] * 2 + [""])
        self.assertEqual((first.returncode, second.returncode, self.runs()), (0, 0, ["run quality"]))

    def test_what_the_notes_need_is_built_after_the_settlement(self):
        run = self.settle(self.filing)
        self.assertEqual((run.status, run.output), (0, b"operator\n\x01\x00\x01\x00"))
        self.assertEqual(self.runs(), ["run quality", "run rewrite"])
        self.assertIn("note: rates were never filed", run.said)


    def test_only_the_program_of_a_sheet_is_built_and_told_which(self):
        run = self.settle("--sheet", "12", "2019", self.filing)
        self.assertEqual((run.status, run.output.decode()), (0, "".join(f"{word} 122\n" for word in COUNTS.split())))
        self.assertEqual(self.runs(), ["run sheet"])
        self.assertIn("the program sheet is not built: proving and building it, which takes some minutes\n", run.said)
        self.assertEqual(self.settle("--sheet", "3", "0", self.filing).output[:11], b"counted 30\n")

    def test_a_gas_book_has_its_own_programs(self):
        run = self.settle("--gas", "--quiet", self.filing)
        self.assertEqual((run.status, run.output), (0, b"operator of gas\n\x01\x00\x01\x00"))
        self.assertIn("the program quality_gas is not built: proving and building it, which takes some minutes\n", run.said)
        self.assertIn("crate 3 of 3: quality_gas proved\n", run.said)
        self.assertEqual(self.settle("--gas", "--write", "-", self.filing).output, b"\x01\x00\x01\x00gas")
        interruption = bytes([3, 0, 24, *[0] * 23, 1])
        shown = self.settle("--gas", "--show", self.file("other.q", b"\x01\x00\x01\x00" + interruption)).output
        self.assertTrue(shown.endswith(b" 1 # refused 2\n"), shown)
        self.assertEqual(self.runs(), ["run quality_gas", "run rewrite_gas", "run outcomes_gas"])

    def test_the_examples_are_of_the_kind_that_their_folder_names(self):
        printed = {"course": "operator", "gas": "operator of gas", "gas-two": "operator of gas", "last": "operator"}
        for name, heading in printed.items():
            self.file(f"tree/examples/{name}/calls.txt", f"# {name}\njoin 0\n")
            printed[name] = f"# {name}\n{heading}\n\x01\0\x01\0"
        run = self.settle("--quiet")
        self.assertEqual((run.status, run.output.decode()), (0, "".join(printed.values())))
        self.assertEqual(self.runs(), ["run quality", "run quality_gas"])
        self.assertEqual(self.settle("--quiet", "--gas").output.decode(), printed["gas"] + printed["gas-two"])


class NotBuilt(Tree):
    def test_a_failure_names_the_log_and_is_tried_once(self):
        self.file("tree/failing", "")
        run = self.settle("--quiet", self.filing, self.filing)
        log = self.root / "target/front/quality.log"
        self.assertEqual(run.status, 2)
        self.assertEqual(run.said.count(f"rt run in crates/quality ended with status 1; what the prover said is in {log}"), 2)
        self.assertIn("logic=not-proved", log.read_text())
        self.assertEqual(self.runs(), ["run quality"])
        self.assertIn(f"# {self.filing}: trouble: the program could not be built", run.output.decode())

    def test_an_old_program_is_not_run_where_a_source_is_newer(self):
        self.settle()
        self.pass_time()
        self.file("tree/failing", "")
        self.file("tree/crates/leaf/src/lib.rt", "changed")
        run = self.settle()
        self.assertEqual((run.status, run.output), (2, b""))

    def test_a_program_that_a_failed_build_left_is_not_taken_the_next_time(self):
        self.file("tree/failing-late", "")
        for _ in range(2):
            run = self.settle()
            self.assertEqual((run.status, run.output), (2, b""))
        (self.root / "failing-late").unlink()
        self.assertEqual(self.settle().status, 0)
        self.assertEqual(len(self.runs()), 3)

    def test_a_program_that_failed_its_run_is_not_taken_the_next_time(self):
        self.settle()
        self.pass_time()
        self.file("tree/crates/leaf/src/lib.rt", "changed")
        self.file("tree/standing-in-for-quality", "echo operator of old; cat filing.q")
        log = self.root / "target/front/quality.log"
        wrong = "quality could not be built: what it prints on its own data is not what crates/quality/stdout has"
        for _ in range(2):
            run = self.settle("--quiet", self.filing, self.filing)
            self.assertEqual((run.status, run.said.count(f"{wrong}; what it printed is at the end of {log}\n")), (2, 2), run.said)
            self.assertNotIn(b"operator", run.output)
            self.assertIn(f"# {self.filing}: trouble: the program could not be built", run.output.decode())
            self.assertTrue(log.read_bytes().endswith(b"\non its own data:\noperator of old\n" + OWN))
        self.file("tree/crates/quality/stdout", b"operator of old\n" + OWN)
        run = self.settle()
        self.assertEqual((run.status, run.output), (0, b"operator of old\n\x01\x00\x01\x00"))
        self.assertEqual(len(self.runs()), 4)
        self.assertEqual(self.settle().said, "")

    def test_what_is_wrong_with_a_run_is_told(self):
        printed = "what it prints on its own data is not what crates/quality/stdout has"
        line, log = {"stdout": "operator\n"}, self.root / "target/front/quality.log"
        for script, wanted, told in [
            ("printf operator", line, printed),
            ("echo operator; echo more", line, printed),
            ("echo operator >&2", line, printed),
            ("echo operator", {}, printed),
            ("echo operator; exit 3", line, "on its own data it ended with status 3, and not with 0"),
            ("echo operator", {**line, "status": "3"}, "on its own data it ended with status 0, and not with 3"),
            ("echo operator; kill -9 $$", {}, f"{printed}; on its own data it ended with status -9, and not with 0"),
        ]:
            self.file("tree/standing-in-for-quality", script)
            for part in ("stdout", "status"):
                (self.root / "crates/quality" / part).unlink(missing_ok=True)
            for part, content in wanted.items():
                self.file(f"tree/crates/quality/{part}", content)
            with self.assertRaises(Trouble) as raised:
                self.build("quality")
            self.assertEqual(str(raised.exception), f"quality could not be built: {told}; what it printed is at the end of {log}")
            self.assertIn("is newer than the program quality", self.reason_to_build("quality"))

    def test_a_program_that_does_not_end_is_not_taken(self):
        self.file("tree/standing-in-for-quality", "[ -e filing.q ] || exit 0; echo operator; exec sleep 60")
        self.assertEqual(building.LIMIT, 120)
        told = "quality could not be built: on its own data it had not ended after 2 seconds; what it printed is at the end of "
        with mock.patch("front.building.LIMIT", 2), self.assertRaisesRegex(Trouble, told):
            self.build("quality")
        self.assertTrue((self.root / "target/front/quality.log").read_text().endswith("\non its own data:\noperator\n"))
        self.assertIn("is newer than the program quality", self.reason_to_build("quality"))

    def test_a_program_whose_run_is_stopped_is_not_taken(self):
        with mock.patch("front.building.subprocess.run", side_effect=KeyboardInterrupt), self.assertRaises(KeyboardInterrupt):
            self.build("quality")
        self.assertIn("is newer than the program quality", self.reason_to_build("quality"))

    def test_a_program_whose_run_cannot_be_made_is_not_taken(self):
        stdout = self.root / "crates/quality/stdout"
        stdout.unlink()
        stdout.mkdir()
        for _ in range(2):
            run = self.settle()
            self.assertEqual((run.status, run.output), (2, b""))
            self.assertTrue(run.said.endswith(f"\nquality could not be built: {stdout}: Is a directory\n"), run.said)
        self.assertEqual(len(self.runs()), 2)

    def test_a_program_that_rt_does_not_build_again(self):
        self.file("tree/forgetting", "")
        self.assertIn(f"remove the folder {self.root}/crates/quality/out and try again", self.settle().said)

    def test_without_the_toolchain_it_is_said_what_to_install(self):
        tools = self.folder / "tools"
        tools.mkdir()
        (tools / "python3").symlink_to(sys.executable)
        run = self.settle(path=str(tools))
        self.assertEqual((run.status, run.output), (2, b""))
        self.assertIn("the program quality is not built, and rt is not installed. To build it install the Rattle kit", run.said)

    def test_a_settlement_stands_without_the_program_of_its_notes(self):
        self.settle()
        self.file("tree/failing", "")
        run = self.settle(self.filing)
        self.assertEqual((run.status, run.output), (0, b"operator\n\x01\x00\x01\x00"))
        self.assertIn(f"{self.filing}: note: it is settled, and what to look at is not told: rewrite could not be built", run.said)
        self.assertEqual(self.settle("--strict", self.filing).status, 1)

    def test_a_refusal_stands_without_the_program_that_tells_the_figure(self):
        self.stand_in("quality", "echo refused 9 at 4")
        self.settle()
        (self.root / "crates/rewrite/out/rewrite").unlink()
        self.file("tree/failing", "")
        run = self.settle(self.file("calls.txt", "join 0\namount 0 2017 fees withdraw 1\n"))
        self.assertEqual((run.status, run.output), (1, b"refused 9 at 4\n"))
        self.assertIn("calls.txt:2: refused: amount 0 2017 fees withdraw 1\n  9: ", run.said)
        self.assertIn("What stands in its figure cannot be told: rewrite could not be built", run.said)

    def test_a_refusal_that_the_figures_do_not_show_names_them_all(self):
        self.stand_in("quality", "echo refused 9 at 4")
        self.stand_in("outcomes", "echo 0 yes; echo 4 refused 8")
        run = self.settle(self.file("calls.txt", "join 0\ninterruption 0 file MV own 0 300 2\n"))
        self.assertIn("there stands 0 in mv-weight, 0 in mv-seconds and 0 in count-counted at this point.\n", run.said)

    def test_a_refusal_of_which_the_program_tells_nothing(self):
        self.stand_in("quality", "echo refused 9 at 4")
        run = self.settle(self.file("calls.txt", "join 0\ninterruption 0 file MV own 0 300 2\n"))
        self.assertEqual(run.status, 1)
        self.assertIn("What stands in its figure cannot be told: the program outcomes tells nothing of it", run.said)

    def test_a_sheet_without_its_program(self):
        self.settle()
        self.file("tree/failing", "")
        run = self.settle("--sheet", "0", "2017", self.filing, self.filing)
        log = self.root / "target/front/sheet.log"
        self.assertEqual((run.status, self.runs()), (2, ["run quality", "run sheet"]))
        self.assertEqual(run.said.count(f"rt run in crates/sheet ended with status 1; what the prover said is in {log}"), 2)
        self.assertTrue(run.output.endswith(f"# {self.filing}: trouble: the program could not be built\n".encode()))
        self.file("tree/crates.txt", CRATES.replace("sheet", "sheets"))
        run = self.settle("--sheet", "0", "2017", self.filing)
        self.assertEqual(run, (2, b"", "this tree has no program sheet: crates.txt does not list it\n"))

    def test_a_program_that_prints_no_sheet_is_trouble(self):
        whole = f"for word in {COUNTS}; do echo $word 0; done"
        for printing, told in [
            ("true", ""),
            ("exit 3", "/crates/sheet/out/sheet ended with status 3\n"),
            ("echo 'filing.q: Is a directory' >&2", "filing.q: Is a directory\n"),
            (f"{whole}; exit 1", "/crates/sheet/out/sheet ended with status 1\n"),
            (f"{whole}; echo more", ""),
            (f"{whole} | head -n 4", ""),
            (f"{whole} | sed s/short/long/", ""),
            (f"{whole} | sed 's/0$/many/'", ""),
            ("echo refused 7 twice", ""),
        ]:
            self.pass_time()
            self.file("tree/crates/leaf/src/lib.rt", "changed")
            self.stand_in("sheet", printing)
            run = self.settle("--sheet", "0", "2017", self.filing)
            self.assertEqual(run.status, 2, printing)
            self.assertTrue(run.said.endswith(f"{told}{self.filing}: the program gave no answer\n"), run.said)

    def test_a_folder_that_cannot_be_made(self):
        self.file("tree/target", "a file in the place of the folder")
        run = self.settle()
        self.assertEqual((run.status, run.output), (2, b""))
        self.assertEqual(run.said, f"quality could not be built: {self.root}/target/front: Not a directory\n")

    def test_texts_are_judged_and_shown_without_a_program(self):
        text = self.file("calls.txt", "join x")
        self.assertIn("calls.txt:1: 'x'", self.settle(text).said)
        self.assertEqual(self.settle("--show", self.filing).status, 0)
        self.assertEqual(self.runs(), [])

    def test_a_program_that_complains_is_trouble(self):
        self.stand_in("quality", "echo 'standard output: No space left on device' >&2")
        run = self.settle()
        self.assertEqual((run.status, run.output), (2, b""))
        self.assertTrue(run.said.endswith(f"No space left on device\n{self.filing}: the program gave no answer\n"))
        self.pass_time()
        self.file("tree/crates/leaf/src/lib.rt", "changed")
        self.stand_in("quality", "exit 3")
        self.assertIn("/crates/quality/out/quality ended with status 3\n", self.settle().said)


class Written(Tree):
    """--write against a stand-in: a refusal is told by standard error, and an empty book is no refusal."""

    def written(self, by, file="out.q"):
        self.stand_in("rewrite", by)
        return self.settle("--write", self.folder / file if file != "-" else file, self.filing)

    def test_the_book_goes_to_the_file(self):
        run = self.written("cat filing.q; printf book")
        self.assertEqual((run.status, run.output), (0, b""))
        self.assertEqual((self.folder / "out.q").read_bytes(), b"\x01\x00\x01\x00book")
        self.assertEqual(self.runs(), ["run rewrite"])

    def test_standard_output(self):
        self.assertEqual(self.written("printf book", "-").output, b"book")

    def test_interruptions_are_shown_without_the_program_too(self):
        self.file("tree/failing", "")
        text = self.file("calls.txt", "join 0\ninterruption 0 file MV own 0 181 1\n")
        run = self.settle("--show", text)
        self.assertEqual((run.status, run.output.count(b"\n")), (0, 2))
        self.assertIn("what becomes of its interruptions is not told: outcomes could not be built", run.said)

    def test_an_empty_book_is_written(self):
        self.assertEqual(self.written("true").status, 0)
        self.assertEqual((self.folder / "out.q").read_bytes(), b"")

    def test_a_refusal_writes_nothing_and_is_explained(self):
        run = self.written("echo refused 6 at 0 >&2")
        self.assertEqual((run.status, run.output, (self.folder / "out.q").exists()), (1, b"", False))
        self.assertIn(f"\nrefused 6 at 0\n{self.filing}: field 1 at byte 0: refused: join 0\n  6: ", run.said)

    def test_too_long_and_trouble(self):
        self.assertEqual(self.written("echo too long >&2").status, 1)
        self.pass_time()
        self.file("tree/crates/rewrite/src/lib.rt", "changed")
        self.assertEqual(self.written("echo filing.q: Is a directory >&2").status, 2)
        self.assertFalse((self.folder / "out.q").exists())

    def test_a_tree_without_the_writer_says_so(self):
        self.file("tree/crates.txt", CRATES.replace("rewrite", "reading"))
        run = self.written("true")
        self.assertEqual((run.status, run.output), (2, b""))
        self.assertIn("this tree has no program rewrite", run.said)


class RealTree(InFolder):
    def test_the_programs_of_this_tree_are_newer_than_their_sources(self):
        crates = building.needed(ROOT, "quality")
        self.assertEqual(crates[-1], "quality")
        self.assertTrue({"exact", "calls", "output", "load"} <= set(crates))
        self.assertFalse({"io", "writing", "replay"} & set(crates))
        for name in PROGRAMS:
            why = building.reason_to_build(ROOT, building.built(ROOT, name), building.needed(ROOT, name))
            self.assertIsNone(why, "tests/front.sh brings it up to date")
