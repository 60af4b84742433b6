"""--sheet: the yearly sheet as the program prints it, each refusal of it in words, and what may not be asked."""

import re
from collections import Counter

from front.building import ROOT, Builder
from front.kinds import ELECTRICITY
from front.meanings import UNJOINED_SHEET, meanings_of
from front.programs import Programs
from front.tests.common import EXERCISE, InFolder, settle, settle_here

MEANINGS = meanings_of(ELECTRICITY)
NAMES = ("counted", "short", "planned", "coupled", "exceptional")
COURSE = ROOT / "examples" / "course"
NETWORK = "join 0\njoin 3\n"


def sheet(*counts):
    """The five lines, with 0 for what is not given."""
    return "".join(f"{name} {count}\n" for name, count in zip(NAMES, [*counts, 0, 0, 0, 0, 0])).encode()


# Calls; operator and year; the counts of the sheet, the last ones left out where they are 0.
SHEETS = [
    ("", "0 2017", []),
    ("interruption 0 file MV own 0 181 40", "0 2017", [1]),
    ("interruption 0 file MV own 0 180 40", "0 2017", [0, 1]),
    ("interruption 0 file LV planned 0 181 1", "0 2017", [0, 0, 1]),
    ("interruption 0 file LV coupled 0 181 1", "0 2017", [0, 0, 0, 1]),
    ("interruption 0 file LV exceptional 0 181 1", "0 2017", [0, 0, 0, 0, 1]),
    ("interruption 0 file LV unattested 0 181 1", "0 2017", [1]),
    # Short comes before the cause.
    ("interruption 0 file MV planned 0 180 9\ninterruption 0 file MV unattested 0 0 9", "0 2017", [0, 2]),
    # The year is that of the end.
    ("interruption 0 file MV planned 2017-12-31T23:00 2018-01-01T01:00 9", "0 2017", []),
    ("interruption 0 file MV planned 2017-12-31T23:00 2018-01-01T01:00 9", "0 2018", [0, 0, 1]),
    ("interruption 0 file MV own 2017-12-31T23:00 2018-01-01T01:00 9", "0 1", [1]),
    ("interruption 0 file MV own 2019-12-31T23:00 2019-12-31T23:59:59 9", "0 2", [1]),
    # Of another operator nothing.
    ("interruption 3 file MV planned 0 300 9\n" * 3, "0 2017", []),
    ("interruption 3 file MV planned 0 300 9\n" * 3, "3 2017", [0, 0, 3]),
    # A withdrawal takes 1, of whatever became of the same.
    ("interruption 0 file MV planned 0 300 9\ninterruption 0 withdraw LV planned 5 200 1", "0 2017", []),
    ("interruption 0 file MV own 0 300 9\n" * 3 + "interruption 0 withdraw MV own 0 300 9", "0 2017", [2]),
    ("interruption 0 file MV coupled 0 100 9\ninterruption 0 withdraw LV planned 0 180 1", "0 2017", []),
    # By amounts, and by both.
    ("".join(f"amount 0 2018 count-{name} file {7 + number}\n" for number, name in enumerate(NAMES)), "0 2018", [7, 8, 9, 10, 11]),
    ("amount 0 2018 count-short file 100000000000", "0 2018", [0, 100_000_000_000]),
    ("amount 0 2019 count-planned file 5\ninterruption 0 withdraw MV planned 94607000 94607999 9", "0 2019", [0, 0, 4]),
    ("interruption 0 file MV planned 0 300 9\n" * 4 + "amount 0 2017 count-planned withdraw 3", "0 2017", [0, 0, 1]),
    # The other figures are not on it.
    ("amount 0 2017 mv-weight file 5\namount 0 2017 fees file 6\namount 0 2017 reconnections file 7", "0 2017", []),
]


class Printed(InFolder):
    def test_what_is_counted(self):
        for calls, asked, counts in SHEETS:
            path = self.file("calls.txt", NETWORK + calls)
            self.assertEqual(settle_here("--sheet", *asked.split(), path), (0, sheet(*counts), ""), (calls, asked))

    def test_a_real_run_by_words_by_csv_and_by_bytes(self):
        for operator, year, counts in [(0, 2018, [1, 0, 1]), (0, 2019, [1, 1]), (1, 2017, [1]), (1, 2018, [1, 0, 0, 0, 1])]:
            for way in ("words", "csv", "bytes"):
                self.assertEqual(settle("--sheet", operator, year, EXERCISE / way), (0, sheet(*counts), ""), (operator, year, way))

    def test_it_needs_no_settlement(self):
        path = self.file("calls.txt", NETWORK)
        self.assertEqual((settle(path).output, settle("--sheet", 3, 2019, path)), (b"refused 11\n", (0, sheet(), "")))

    def test_settling_does_not_read_it(self):
        calls = (EXERCISE / "words" / "calls.txt").read_text(encoding="utf-8")
        settled = settle_here("--quiet", EXERCISE / "words").output
        counts = "".join(f"amount 1 2018 count-{name} file 1000\n" for name in NAMES)
        left_out = "interruption 1 file MV planned 0 300 9\ninterruption 1 file LV own 0 180 1\n"
        self.assertEqual(settle_here("--quiet", self.file("calls.txt", calls + counts + left_out)).output, settled)
        self.assertNotEqual(settle_here("--quiet", self.file("calls.txt", f"{calls}amount 1 2018 mv-weight file 1000\n")).output, settled)

    def test_the_course_example_as_it_is_shown_and_as_it_is_written(self):
        """Each sheet is what the interruptions come to by what becomes of each, and what the proved writer writes."""
        counts = Counter()
        for line in settle_here("--show", COURSE).output.decode().splitlines():
            found = re.fullmatch(r"interruption (\d+) (file|withdraw) .* (\d{4})-\S+ \d+ +# (?:left out: )?([a-z]+).*", line)
            if found:
                operator, sign, year, word = found.groups()
                counts[int(operator), int(year) - 2017, NAMES.index(word)] += 1 if sign == "file" else -1
        self.assertEqual((sum(counts.values()), len({place for *_, place in +counts})), (48, 5))
        asked = Programs(Builder(ROOT, print))
        data = (COURSE / "filing.q").read_bytes()
        book = asked.book(data)
        for operator in range(16):
            for year in range(3):
                shown = [counts[operator, year, place] for place in range(5)]
                self.assertEqual(asked.sheet(data, operator, year), (sheet(*shown), b""), (operator, year))
                self.assertEqual([book.value("amount", operator, year, 8 + place) for place in range(5)], shown)

    def test_many_paths(self):
        good = self.file("good.txt", f"{NETWORK}interruption 3 file MV own 0 300 1\n")
        refused = self.file("refused.txt", "join 3\njoin 3\n")
        lacking, missing = self.file("lacking.txt", "join 0\n"), self.folder / "missing"
        run = settle("--sheet", 3, 2017, good, refused, lacking, missing, good)
        one = sheet(1).decode()
        self.assertEqual(
            run.output.decode(),
            f"# {good}\n{one}# {refused}\nrefused 6 at 4\n# {lacking}\nrefused 7\n# {missing}\n# {good}\n{one}"
            f"# {good}: printed\n# {refused}: refused 6 at 4\n# {lacking}: refused 7\n"
            f"# {missing}: trouble: No such file or directory\n# {good}: printed\n",
        )
        self.assertEqual(run.status, 2)
        self.assertEqual([settle("--sheet", 3, 2017, good, other).status for other in (good, refused, lacking)], [0, 1, 1])

    def test_standard_input(self):
        calls = f"{NETWORK}interruption 3 file MV own 0 9 1\n".encode()
        path = self.file("calls.txt", calls)
        self.assertEqual(settle("--sheet", 3, 2017, "-", input=calls), (0, sheet(0, 1), ""))
        run = settle("--sheet", 3, 2017, path, "-", input=calls)
        self.assertEqual((run.status, run.output.count(sheet(0, 1))), (0, 2))
        self.assertIn("standard input:2: refused: join 0\n", settle("--sheet", 3, 2017, "-", input=b"join 0\njoin 0\n").said)


class Refused(InFolder):
    def said_of(self, text, *asked, printed):
        """What is said of a sheet that is refused, without the file's name."""
        path = self.file("calls.txt", text)
        run = settle_here("--sheet", *asked, path)
        self.assertEqual((run.status, run.output), (1, f"{printed}\n".encode()), run)
        return run.said.replace(str(path), "").splitlines()

    def test_the_sheet_itself(self):
        for operator in (16, 255):
            self.assertEqual(
                self.said_of(NETWORK, operator, 2017, printed="refused 4"),
                [f": the filing is read, and the sheet of operator {operator} for 2017 is refused", f"  4: {MEANINGS[4]}"],
            )
        for year in (3, 255):
            self.assertEqual(
                self.said_of(NETWORK, 0, year, printed="refused 5"),
                [
                    f": the filing is read, and the sheet of operator 0 for {year} is refused",
                    f"  5: {MEANINGS[5]}",
                    f"  The year is {year}: it is one of 2017, 2018, 2019, or a number 0 to 2.",
                ],
            )
        self.assertEqual(
            self.said_of(f"join 9\n{NETWORK}", 1, 2, printed="refused 7"),
            [
                ": the filing is read, and the sheet of operator 1 for 2019 is refused",
                f"  7: {UNJOINED_SHEET}",
                "  Joined here: operator 0, operator 3 and operator 9.",
            ],
        )
        self.assertEqual(self.said_of("# nothing\n", 0, 2017, printed="refused 7")[-1], "  Joined here: nobody.")

    def test_the_first_number(self):
        for operator, year, number in [(16, 3, 4), (16, 2017, 4), (1, 3, 5), (1, 2017, 7)]:
            self.said_of(NETWORK, operator, year, printed=f"refused {number}")

    def test_as_an_amount_would_be(self):
        for operator, year in [(16, 3), (16, 0), (1, 3), (0, 3), (1, 2)]:
            amount = settle_here(self.file("calls.txt", f"{NETWORK}amount {operator} {year} 0 0 0\n")).output.decode()
            self.said_of(NETWORK, operator, year, printed=amount.split(" at ")[0])

    def test_a_field(self):
        said = self.said_of(f"{NETWORK}interruption 3 withdraw MV planned 0 300 5\nmark 4 A1 0\n", 5, 2017, printed="refused 9 at 8")
        self.assertEqual(
            [said[0], said[1], said[2], said[-3], said[-2], said[-1]],
            [
                ":3: refused: interruption 3 withdraw MV planned 2017-01-01T00:00 2017-01-01T00:05 5",
                f"  9: {MEANINGS[9]}",
                "  Of operator 3 in 2017 there stands 0 in count-planned at this point.",
                ":4: would be refused too: mark 4 A1 0: 7: This operator has not joined yet.",
                ": then the sheet of operator 5 for 2017 would be refused: 7: This operator has not joined, so it has no sheet.",
                ": there is no sheet",
            ],
        )
        said = self.said_of(f"{NETWORK}mark 4 A1 0\n", 3, 2017, printed="refused 7 at 8")
        self.assertEqual(said[1:], [f"  7: {MEANINGS[7]}", ": there is no sheet; without this line nothing else would be refused"])

    def test_bytes_that_are_no_call(self):
        run = settle_here("--sheet", 0, 2017, self.file("filing.q", b"\x01\x00\x01\x00\x63\x00\x00"))
        self.assertEqual((run.status, run.output), (1, b"refused 2 at 4\n"))
        self.assertTrue(run.said.endswith("filing.q: there is no sheet; what follows these bytes cannot be read\n"), run.said)

    def test_too_long(self):
        said = self.said_of(NETWORK + "rates 1 1\n" * 6000, 0, 2017, printed="too long")
        self.assertEqual(said[0], ": a filing has at most 65,536 bytes, and this one has 66,008")
        self.assertEqual(len(said), 2)

    def test_a_text_with_an_error(self):
        run = settle_here("--sheet", 0, 2017, self.file("calls.txt", "join x\n"))
        self.assertEqual((run.status, run.output), (2, b""))
        self.assertIn("calls.txt:1: 'x': expected an operator", run.said)


OPERATOR = "expected an operator, 0 to 15, as a whole number in digits alone"
YEAR = "expected a year: 2017, 2018, 2019, or a number 0 to 2"


class Asked(InFolder):
    def told(self, *words, **options):
        """What is told of words that cannot be meant; nothing is printed."""
        run = settle(*words, **options)
        self.assertEqual((run.status, run.output), (2, b""), words)
        usage, *said = run.said.splitlines()
        self.assertTrue(usage.startswith("usage: settle ") and "--sheet OPERATOR YEAR PATH .." in usage)
        self.assertEqual(len(said), 1)
        return said[0].replace("settle: error: ", "")

    def test_words_that_stand_for_no_operator_or_year(self):
        path = self.file("calls.txt", NETWORK)
        for operator, year, wrong in [
            ("300", "2017", [f"'300': {OPERATOR}"]),
            ("256", "2017", [f"'256': {OPERATOR}"]),
            ("x", "2017", [f"'x': {OPERATOR}"]),
            ("-1", "2017", [f"'-1': {OPERATOR}"]),
            ("", "2017", [f"'': {OPERATOR}"]),
            ("0", "2016", [f"'2016': {YEAR}"]),
            ("0", "256", [f"'256': {YEAR}"]),
            ("0", "all", [f"'all': {YEAR}"]),
            ("2017", "0.5", [f"'2017': {OPERATOR}", f"'0.5': {YEAR}"]),
            ("\x1b[2J", "0", [f"'\\x1b[2J': {OPERATOR}"]),
        ]:
            self.assertEqual(self.told("--sheet", operator, year, path), f"--sheet takes OPERATOR and YEAR: {'; '.join(wrong)}")

    def test_a_number_is_taken_as_everywhere(self):
        path = self.file("calls.txt", f"{NETWORK}interruption 3 file MV own 31536000 31536181 1\n")
        for operator, year in [("3", "2018"), ("3", "1"), ("003", "01")]:
            self.assertEqual(settle_here("--sheet", operator, year, path), (0, sheet(1), ""))
        self.assertEqual(settle(path, "--sheet", "3", "2018").output, sheet(1))

    def test_words_that_are_missing(self):
        path = self.file("calls.txt", NETWORK)
        self.assertEqual(self.told("--sheet", "0", path), f"--sheet takes OPERATOR and YEAR: {str(path)!r}: {YEAR}")
        self.assertEqual(self.told("--sheet", "0"), "argument --sheet: expected 2 arguments")
        none = "--sheet takes at least one PATH after OPERATOR and YEAR (- is standard input)"
        self.assertEqual(self.told("--sheet", "0", "2017"), none)
        self.assertEqual(self.told("--sheet", "0", "2017", input=NETWORK.encode()), none)
        self.assertEqual(self.told("--sheet", "0", "2017", "-", "-", input=NETWORK.encode()), "standard input can be read once")

    def test_with_other_options(self):
        path = self.file("calls.txt", NETWORK)
        for option in [["--show"], ["--compare"], ["--table"], ["--table=excel"], ["--encode", "x.q"], ["--write", "x.q"]]:
            self.assertIn("not allowed with argument", self.told("--sheet", "0", "2017", *option, path, cwd=self.folder))
        self.assertEqual(self.told("--sheet", "0", "2017", "--offsets", path), "--offsets goes with --show")
        self.assertEqual(self.told("--sheet", "0", "2017", "--force", path), "--force goes with --encode or --write")
        self.assertEqual(list(self.folder.iterdir()), [path])

    def test_notes(self):
        """What is noted after settling is not noted here, but for a file that was not read."""
        self.file("calls.txt", f"{NETWORK}interruption 3 file MV own 0 300 1\ninterruption 3 file MV own 0 300 1\n")
        for options in [[], ["--strict"], ["--quiet"]]:
            self.assertEqual(settle("--sheet", 3, 2017, *options, self.folder), (0, sheet(2), ""))
        self.file("calls.csv", "call,operator\njoin,0\n")
        said = f"note: {self.folder}/calls.txt was read; {self.folder}/calls.csv beside it says something else and was not\n"
        self.assertEqual(settle("--sheet", 3, 2017, self.folder), (0, sheet(2), said))
        self.assertEqual(settle("--sheet", 3, 2017, "--strict", self.folder), (1, sheet(2), said))
        self.assertEqual(settle("--sheet", 3, 2017, "--quiet", self.folder), (0, sheet(2), ""))
        many = settle("--sheet", 3, 2017, self.folder, self.folder).output.decode()
        self.assertTrue(many.endswith(f"# {self.folder}: printed, 1 note\n"), many)
