"""--gas: the same command on gas books, what a gas book does not take, and a book that is given as the other kind."""

import csv
from itertools import product

from front import building, words
from front.calls import BY_NAME, FIGURES, INDICATORS, YEARS, Call
from front.filing import encode
from front.kinds import ELECTRICITY, GAS, KINDS_OF_BOOK, kind_of_example
from front.meanings import meanings_of
from front.ranges import CHECKS, outside
from front.tests.common import EXERCISE, GAS_EXERCISE, GAS_PROGRAM, ROOT, InFolder, program_on, settle, settle_here

CASE_M = ROOT / "examples" / "case-m"
MEANINGS = meanings_of(GAS)
# Two operators that settle without a note.
GOOD = """\
join 0
join 1
setting 0 access-points 1000
setting 0 income 100000000
setting 1 access-points 3000
setting 1 income 200000000
amount 1 2017 fees file 50000
amount 1 2017 connections file 100
mark 0 D1 0
mark 0 D2 0
mark 1 D1 0
mark 1 D2 0
rates 5000 10000
"""
SETTLED = b"operator points out in adjustment\n0 5036 375000 607821 232821\n1 2464 1125000 892179 -232821\nall 7500 1500000 1500000 0\n"
LEAVE_OUT = "if this is an electricity filing, leave out --gas"
LEFT_OUT = f"  {LEAVE_OUT.replace('if', 'If')}."
GIVE = "If this is a gas filing, give --gas: a gas book takes no cabins."

NO_INTERRUPTIONS = "a gas book takes no interruptions"
NO_CABINS = "a gas book takes no cabins"
NO_FIGURES = "a gas book takes no figures of interruptions"
NO_COUNTS = "a gas book takes no counts of interruptions"
NO_MARKS = "a gas book takes no marks at A1 to A4"
# What a gas book does not take: a call of it, the word in the call, its number, and why.
UNTAKEN = [
    *(("setting 0 {} 0", f"cabins-{year}", number, NO_CABINS) for year, number in zip(YEARS, (0, 3, 4))),
    *(("amount 0 2018 {} file 0", figure, number, NO_FIGURES) for number, figure in enumerate(FIGURES[:4])),
    *(("amount 0 2018 {} file 0", figure, number, NO_COUNTS) for number, figure in enumerate(FIGURES[8:], start=8)),
    *(("mark 0 {} 0", indicator, number, NO_MARKS) for number, indicator in enumerate(INDICATORS[:4])),
]
INSTEAD = {
    "setting": "access-points or income",
    "figure": "fees, connections, reconnection-fees or reconnections",
    "indicator": "D1 or D2",
}
PLACES = {"setting": "setting", "amount": "figure", "mark": "indicator"}
CHOICES = {
    "setting": "access-points, income, or a number 1 to 2",
    "figure": "fees, connections, reconnection-fees, reconnections, or a number 4 to 7",
    "indicator": "D1, D2, or a number 4 to 5",
}
INTERRUPTION = "interruption 0 file MV own 2018-03-04T10:00 2018-03-04T12:30 4"
CALLS = "a call: join, setting, amount, mark, rates, index"


class Settled(InFolder):
    def test_by_words_by_csv_and_by_bytes(self):
        data = (GAS_EXERCISE / "bytes" / "filing.q").read_bytes()
        printed = program_on(data, GAS_PROGRAM)
        self.assertTrue(printed.startswith(b"operator points out in adjustment\n0 "))
        for way in ("words", "csv", "bytes"):
            self.assertEqual(settle("--gas", "--quiet", GAS_EXERCISE / way), (0, printed, ""), way)
            self.assertEqual(settle_here("--gas", "--encode", "-", GAS_EXERCISE / way).output, data, way)

    def test_what_a_path_may_be(self):
        data = settle_here("--encode", "-", self.file("calls.txt", GOOD)).output
        for path in [
            self.file("a/filing.q", data).parent,
            self.file("b/calls.txt", GOOD).parent,
            self.file("c/other.q", data),
            self.file("d/no-name-that-tells", data),
            self.file("e/exercise", GOOD.replace("\n", "\r\n")),
        ]:
            self.assertEqual(settle_here("--gas", path), (0, SETTLED, ""), path)
            self.assertEqual(settle_here(path, "--gas"), (0, SETTLED, ""), path)
        for given in (GOOD.encode(), data):
            self.assertEqual(settle("--gas", "-", input=given), (0, SETTLED, ""))
            self.assertEqual(settle("--gas", input=given), (0, SETTLED, ""))
        self.assertEqual(settle("--gas", "-", input=(GAS_EXERCISE / "csv" / "calls.csv").read_bytes()).status, 0)

    def test_it_is_the_programs_byte_for_byte(self):
        data = settle_here("--encode", "-", self.file("calls.txt", GOOD)).output
        for data in [data, b"", b"\x01\x00", data[:-1], data + b"\x63\x00\x00", data * 600, (CASE_M / "filing.q").read_bytes()]:
            run = settle_here("--gas", self.file("filing.q", data))
            self.assertEqual(run.output, program_on(data, GAS_PROGRAM))
            self.assertEqual(run.status, 0 if run.output == SETTLED else 1)

    def test_many_and_a_table(self):
        good, refused = self.file("good.txt", GOOD), self.file("refused.txt", "join 0\n")
        run = settle("--gas", good, refused, good)
        self.assertEqual((run.status, run.output.count(SETTLED)), (1, 2))
        self.assertTrue(run.output.endswith(f"# {good}: settled\n# {refused}: refused 11\n# {good}: settled\n".encode()))
        rows = [line.split(" ") for line in SETTLED.decode().splitlines()[:-1]]
        for option, separator in [("--table", ","), ("--table=excel", ";")]:
            printed = settle("--gas", option, good).output.decode()
            self.assertEqual(list(csv.reader(printed.splitlines(), delimiter=separator)), rows)
        printed = settle("--table", "--gas", good, refused, good).output.decode()
        self.assertEqual([row[0] for row in csv.reader(printed.splitlines())], ["path", *[str(good)] * 4])

    def test_shown(self):
        path = self.file("calls.txt", GOOD)
        run = settle_here("--gas", "--show", path)
        self.assertEqual((run.status, run.said), (0, ""))
        self.assertEqual([line.split("#")[0].strip() for line in run.output.decode().splitlines()], GOOD.splitlines())
        # The bytes of another kind are shown too.
        calls = ["join 0", INTERRUPTION, INTERRUPTION]
        filing = self.folder / "other.q"
        settle_here("--encode", filing, self.file("other.txt", "\n".join(calls)))
        shown = settle_here("--gas", "--show", filing).output.decode().splitlines()
        self.assertEqual(shown, [calls[0], f"{calls[1]} # refused 2", f"{calls[2]} # not reached, since an earlier call is refused"])

    def test_a_folder_whose_files_say_the_same(self):
        run = settle_here("--gas", "--show", CASE_M)
        self.assertEqual((run.status, run.said), (0, ""))
        self.file("filing.q", settle_here("--encode", "-", self.file("calls.txt", GOOD)).output)
        self.assertEqual(settle_here("--gas", "--strict", self.folder), (0, SETTLED, ""))
        self.file("calls.txt", f"{GOOD}rates 1 2\n")
        self.assertEqual(settle_here("--gas", "--strict", self.folder).status, 1)


class Written(InFolder):
    def test_a_written_book_settles_alike_and_is_written_alike(self):
        once, twice = self.folder / "once.q", self.folder / "twice.q"
        for path in [self.file("calls.txt", GOOD), GAS_EXERCISE / "words"]:
            self.assertEqual(settle("--gas", "--write", once, path), (0, b"", ""))
            self.assertEqual(settle_here("--gas", "--write", twice, once), (0, b"", ""))
            self.assertEqual(once.read_bytes(), twice.read_bytes())
            self.assertEqual(settle_here("--gas", "--quiet", once), settle_here("--gas", "--quiet", path))

    def test_a_full_book(self):
        """A value of its own at every place that there is, and no mark but the two."""
        operators = range(16)
        joins = [f"join {operator}" for operator in operators]
        places = [
            *(f"setting {operator} {word}" for operator, word in product(operators, ("access-points", "income"))),
            *(f"amount {operator} {year} {figure} file" for operator, year, figure in product(operators, YEARS, FIGURES[4:8])),
        ]
        rest = [
            *(f"{place} {value}" for value, place in enumerate(places, start=1)),
            *(f"mark {operator} {indicator} 0" for operator, indicator in product(operators, ("D1", "D2"))),
            *(f"index june-{year} 7" for year in (2016, 2017, 2018, 2013)),
            "rates 1 2",
        ]
        written = settle_here("--gas", "--write", "-", self.file("calls.txt", "\n".join([*joins, *reversed(rest)])))
        self.assertEqual((written.status, written.said), (0, ""))
        shown = settle_here("--gas", "--show", self.file("written.q", written.output)).output.decode().splitlines()
        self.assertEqual(shown, joins + rest)

    def test_marks_that_stand_are_not_written(self):
        path = self.file("calls.txt", "join 3\nmark 3 D1 0\nmark 3 D1 1\nmark 3 D2 0\n")
        written = settle_here("--gas", "--write", "-", path).output
        self.assertEqual(settle_here("--show", self.file("written.q", written)).output, b"join 3\nmark 3 D2 0\n")

    def test_a_refused_filing_is_not_written(self):
        out = self.file("out.q", b"")
        run = settle("--gas", "--write", out, CASE_M / "filing.q")
        self.assertEqual((run.status, run.output, out.read_bytes()), (1, b"", b""))
        self.assertIn(f"The setting is cabins-2017: {NO_CABINS}; ", run.said)


class Compared(InFolder):
    def test_value_by_value(self):
        here = self.file("here.txt", GOOD)
        for more, lines in [
            ("amount 1 2017 fees file 7", ["operator 1, 2017, fees: 50000 here, 50007 there"]),
            ("setting 1 access-points 2000", ["operator 1, access-points: 3000 here, 2000 there"]),
            ("mark 1 D2 1", ["operator 1, mark at D2: cleared here, set there"]),
            ("join 7\nmark 7 D1 0", ["operator 7: not joined here, joined there"]),
            ("rates 5000 7", ["cap rate: 10000 here, 7 there"]),
            ("amount 0 2019 reconnections file 7\namount 0 2019 reconnections withdraw 7", ["the books are the same"]),
        ]:
            there = self.file("there.txt", f"{GOOD}{more}\n")
            run = settle_here("--gas", "--compare", here, there)
            same = lines == ["the books are the same"]
            self.assertEqual((run.status, run.said), (0 if same else 1, ""), more)
            self.assertEqual(run.output.decode().splitlines(), [f"# here: {here}, there: {there}", *lines])
        run = settle("--gas", "--compare", GAS_EXERCISE / "words", GAS_EXERCISE / "bytes")
        self.assertEqual((run.status, run.said), (0, ""))

    def test_within_one_kind(self):
        good = self.file("good.txt", GOOD)
        for paths in [(good, CASE_M), (CASE_M, good)]:
            run = settle_here("--gas", "--compare", *paths)
            self.assertEqual((run.status, run.output), (2, b""))
            self.assertIn(NO_CABINS, run.said)
            self.assertIn(f"{LEFT_OUT}\n", run.said)


class Errors(InFolder):
    def said_of(self, name, text):
        """What is said of a text with errors, of which no program is asked and nothing is written."""
        path = self.file(name, text)
        written = self.folder / "filing.q"
        settled, encoded, shown = (settle_here("--gas", *asked, path) for asked in ([], ["--encode", written], ["--show"]))
        self.assertEqual((settled.status, settled.output), (2, b""), text)
        self.assertEqual((encoded, shown), (settled, settled))
        self.assertFalse(written.exists())
        return [line.replace(str(path), "") for line in settled.said.splitlines()]

    def test_each_word_that_a_gas_book_does_not_take(self):
        for call, word, number, why in UNTAKEN:
            name = call.split()[0]
            place = PLACES[name]
            for written in (word, word.upper(), str(number), f"0{number}"):
                self.assertEqual(
                    self.said_of("calls.txt", f"join 0\n\n{call.format(written)}\n"),
                    [
                        f":3: {written!r}: expected {INSTEAD[place]}: {why} ({place} of {name})",
                        f": {LEAVE_OUT}",
                        ": 1 error; nothing is settled and nothing is written",
                    ],
                )

    def test_interruptions(self):
        for line in (INTERRUPTION, INTERRUPTION.upper(), "interruption", "Interruption 99 x"):
            said = self.said_of("calls.txt", f"join 0\n{line}\n")
            self.assertEqual(said[:2], [f":2: {line.split()[0]!r}: expected {CALLS}; {NO_INTERRUPTIONS}", f": {LEAVE_OUT}"])

    def test_words_of_before_and_too_many(self):
        why = f"expected {INSTEAD['setting']}: {NO_CABINS} (setting of setting)"
        self.assertEqual(self.said_of("calls.txt", "setting 0 Cabins 5")[0], f":1: 'Cabins': {why}")
        said = self.said_of("calls.txt", "setting 0 cabins-2018 2018 5")
        self.assertEqual(said[1:3], [f":1: 'cabins-2018': {why}", f": {LEAVE_OUT}"])
        # A number that stands one place too far is none of what it stands for there.
        self.assertEqual(len(self.said_of("calls.txt", "mark D1 0")), 2)

    def test_other_errors_speak_of_gas(self):
        for line, word, expected in [
            ("jion 0", "jion", CALLS),
            ("setting 0 cabin 5", "cabin", f"a setting: {CHOICES['setting']} (setting of setting)"),
            ("amount 0 2018 fee file 5", "fee", f"a figure: {CHOICES['figure']} (figure of amount)"),
            ("mark 0 A5 0", "A5", f"an indicator: {CHOICES['indicator']} (indicator of mark)"),
            (
                "setting 0 income x",
                "x",
                "access points up to 4000000, or income in cents up to 100000000000, as a whole number in digits alone (value of setting)",
            ),
        ]:
            self.assertEqual(
                self.said_of("calls.txt", line),
                [f":1: {word!r}: expected {expected}", ": 1 error; nothing is settled and nothing is written"],
            )

    def test_an_electricity_exercise(self):
        said = self.said_of("calls.txt", (EXERCISE / "words" / "calls.txt").read_bytes())
        self.assertEqual(len(said), 23)
        self.assertIn(f": {LEAVE_OUT}", said)
        self.assertEqual(settle("--gas", EXERCISE / "csv").status, 2)

    def test_by_csv(self):
        header = "call;operator;setting;value;indicator;mark;year;figure;sign;level"
        rows = ["join;0", "setting;0;cabins-2019;5", "mark;0;;;A4;0", "amount;0;;5;;;2017;count-short;file", "interruption;0"]
        self.assertEqual(
            self.said_of("calls.csv", "\n".join([header, *rows, "join;1;;;;;;;;MV"])),
            [
                f":3: 'cabins-2019': expected {INSTEAD['setting']}: {NO_CABINS} (setting of setting)",
                f":4: 'A4': expected {INSTEAD['indicator']}: {NO_MARKS} (indicator of mark)",
                f":5: 'count-short': expected {INSTEAD['figure']}: {NO_COUNTS} (figure of amount)",
                f":6: 'interruption': expected {CALLS}; {NO_INTERRUPTIONS}",
                ":7: 'MV': expected an empty cell (join has no level)",
                f": {LEAVE_OUT}",
                ": 5 errors; nothing is settled and nothing is written",
            ],
        )
        columns = "call, operator, setting, value, year, figure, sign, indicator, mark, pot, cap, index"
        self.assertIn(f":1: 'x': expected the name of a column: {columns}; or note", self.said_of("calls.csv", "call,x\n")[0])

    def test_the_columns_of_interruptions_may_be_empty(self):
        path = self.file("calls.csv", "call,operator,level,cause,start,end,weight\njoin,0,,,,,\n")
        self.assertEqual(settle_here("--gas", "--encode", "-", path), (0, b"\x01\x00\x01\x00", ""))

    def test_what_has_no_word_is_the_programs_to_refuse(self):
        for line in ("setting 0 5 1", "amount 0 2017 13 file 1", "mark 0 6 1", "amount 0 3 fees file 1"):
            self.assertEqual(settle_here("--gas", self.file("calls.txt", f"join 0\n{line}\n")).output, b"refused 5 at 4\n")


class Refused(InFolder):
    def said_of(self, *calls, printed):
        """What is said of a filing that is refused, given by bytes, without its name."""
        path = self.folder / "filing.q"
        self.assertEqual(settle_here("--encode", path, self.file("calls.txt", "\n".join(calls))).status, 0)
        run = settle_here("--gas", path)
        self.assertEqual((run.status, run.output), (1, f"{printed}\n".encode()), calls)
        self.assertEqual(program_on(path.read_bytes(), GAS_PROGRAM), run.output)
        return [line.replace(str(path), "") for line in run.said.splitlines()]

    def test_each_value_that_a_gas_book_does_not_take(self):
        for call, word, _, why in UNTAKEN:
            line = call.format(word)
            place = PLACES[line.split()[0]]
            explained = [
                f"  5: {MEANINGS[5]}",
                f"  The {place} is {word}: {why}; it is one of {CHOICES[place]}.",
                LEFT_OUT,
            ]
            said = self.said_of("join 0", line, printed="refused 5 at 4")
            self.assertEqual(said[:4], [f": field 2 at byte 4: refused: {line}", *explained])
            # Also without a join, and with a value that is too large besides.
            self.assertEqual(self.said_of(line, printed="refused 5 at 0")[1:4], explained)
            self.assertEqual(self.said_of(f"{line}99", printed="refused 5 at 0")[1:4], explained)

    def test_other_values(self):
        for line, sentence in [
            ("setting 0 5 1", f"The setting is 5: it is one of {CHOICES['setting']}."),
            ("amount 0 2017 13 file 1", f"The figure is 13: it is one of {CHOICES['figure']}."),
            ("mark 0 6 1", f"The indicator is 6: it is one of {CHOICES['indicator']}."),
            ("mark 0 D1 2", "The mark is 2: it is 0 (cleared) or 1 (unreliable)."),
            ("setting 0 access-points 4000001", "The value is 4000001: access points are 0 to 4,000,000."),
        ]:
            said = self.said_of("join 0", line, printed="refused 5 at 4")
            self.assertEqual([told[2:] for told in said[2:] if told.startswith("  ")], [sentence])

    def test_interruptions(self):
        for line in (INTERRUPTION, "interruption 99 9 9 9 5 3 0"):
            said = self.said_of("join 0", line, printed="refused 2 at 4")
            self.assertTrue(said[0].startswith(": field 2 at byte 4: refused: interruption "))
            self.assertEqual(said[1:4], [f"  2: {MEANINGS[2]}", "  A gas book takes no interruptions.", LEFT_OUT])

    def test_bytes_that_are_no_call(self):
        for data, number, more in [("63 00 00", 2, 0), ("03 00 01 00", 2, 1), ("03 00 18 00", 1, 0), ("04 00 01 00", 3, 0)]:
            run = settle_here("--gas", self.file("filing.q", bytes.fromhex(f"01 00 01 00 {data}")))
            self.assertEqual((run.status, run.output), (1, f"refused {number} at 4\n".encode()))
            lines = [line for line in run.said.splitlines() if line.startswith("  ")]
            self.assertEqual(lines, [f"  {number}: {MEANINGS[number]}", "  A gas book takes no interruptions."][: 1 + more])

    def test_settling(self):
        for text, printed, besides in [
            ("", "refused 10", []),
            ("join 3\n", "refused 11", ["  Missing, or 0, of operator 3: access-points."]),
            (f"{GOOD}join 2\nsetting 1 access-points 0\n", "refused 11", ["  Missing, or 0, of operators 1 and 2: access-points."]),
            ("join 3\nsetting 3 access-points 7\n", "refused 12", []),
            (f"{GOOD.split('mark')[0]}mark 0 D1 0\nmark 0 D1 1\n", "refused 12", []),
        ]:
            path = self.file("calls.txt", text)
            run = settle_here("--gas", path)
            self.assertEqual((run.status, run.output), (1, f"{printed}\n".encode()), text)
            number = int(printed.split()[1])
            start = f"{path}: the filing is read, and settling it is refused"
            self.assertEqual(run.said.splitlines(), [start, f"  {number}: {MEANINGS[number]}", *besides])

    def test_one_mark_is_enough(self):
        for indicator in ("D1", "D2"):
            text = f"join 3\nsetting 3 access-points 7\nmark 3 {indicator} 0\n"
            self.assertEqual(settle_here("--gas", self.file("calls.txt", text)).status, 0)

    def test_figures(self):
        said = self.said_of("join 0", "amount 0 2018 fees file 5", "amount 0 2018 fees withdraw 6", printed="refused 9 at 19")
        self.assertEqual(
            said[1:4],
            [
                f"  9: {MEANINGS[9]}",
                "  Of operator 0 in 2018 there stands 5 in fees at this point.",
                "  Earlier calls there: field 2 at byte 4.",
            ],
        )
        self.said_of("join 0", "amount 0 2018 fees file 100000000001", printed="refused 8 at 4")

    def test_what_else(self):
        said = self.said_of(
            "join 0", "setting 0 cabins-2017 5", INTERRUPTION, "mark 0 A1 0", "mark 1 D1 0", "rates 1 2", printed="refused 5 at 4"
        )
        self.assertEqual(
            [line for line in said if not line.startswith("  ")][1:],
            [
                f": field 3 at byte 17: would be refused too: {INTERRUPTION}: 2: A gas book takes no interruptions.",
                f": field 4 at byte 44: would be refused too: mark 0 A1 0: 5: The indicator is A1: {NO_MARKS}; "
                f"it is one of {CHOICES['indicator']}.",
                ": field 5 at byte 50: would be refused too: mark 1 D1 0: 7: This operator has not joined yet.",
                ": then settling would be refused: 11: Missing, or 0, of operator 0: access-points.",
                ": nothing is settled",
            ],
        )


class GivenAsElectricity(InFolder):
    def said_of(self, text, printed="refused 11"):
        run = settle_here(self.file("calls.txt", text))
        self.assertEqual((run.status, run.output), (1, f"{printed}\n".encode()), text)
        return run.said.splitlines()

    def test_a_gas_filing(self):
        missing = "  Missing, or 0, of operators 0 and 1: cabins-2017, cabins-2018 and cabins-2019."
        self.assertEqual(self.said_of(GOOD)[2:], [missing, f"  {GIVE}"])
        self.assertEqual(settle(GAS_EXERCISE / "bytes").said.splitlines()[-1], f"  {GIVE}")
        self.assertIn(f"{missing[2:]} {GIVE}\n", settle_here(self.file("calls.txt", f"{GOOD}join 0\n")).said)

    def test_where_something_of_electricity_is_filed(self):
        for call, word, *_ in UNTAKEN:
            self.assertNotIn("--gas", "".join(self.said_of(f"{GOOD}{call.format(word)}\n")), word)
        self.assertNotIn("--gas", "".join(self.said_of(f"{GOOD}{INTERRUPTION}\n")))
        refused = self.said_of(f"{GOOD}setting 0 cabins-2018 100001\n", "refused 5 at 125")
        self.assertIn("then settling would be refused: 11", "".join(refused))
        self.assertNotIn("--gas", "".join(refused))

    def test_other_refusals(self):
        self.assertNotIn("--gas", "".join(self.said_of("", "refused 10")))
        self.assertNotIn("--gas", "".join(self.said_of("join 0\njoin 0\nmark 9 D1 0\n", "refused 6 at 4")[:3]))


class Notes(InFolder):
    def notes(self, text):
        path = self.file("calls.txt", text)
        run = settle_here("--gas", path)
        self.assertEqual(run.status, 0, run)
        return [line.replace(f"{path}:", "") for line in run.said.splitlines()]

    def test_marks_at_the_two_alone(self):
        self.assertEqual(self.notes(GOOD), [])
        there = "and gets no points there; if its attestation is in, file: mark"
        text = GOOD.replace("mark 1 D1 0\n", "").replace("mark 1 D2 0\n", "")
        self.assertEqual(self.notes(text), [f"2: note: operator 1 is marked at D1, D2 since its join, {there} 1 D1 0"])
        self.assertEqual(self.notes(f"{GOOD}mark 0 D2 1\n"), [f"14: note: operator 0 is marked at D2 by this call, {there} 0 D2 0"])

    def test_the_others(self):
        rates = "so nobody pays or gets anything; file them, as in: rates 5000 10000"
        for more, note in [
            ("rates 0 0", f"both rates are 0, {rates}"),
            (
                "setting 1 income 0",
                "operator 1 has an income of 0, so its limit is 0 and it has no adjustment; file it in cents: setting 1 income ..",
            ),
            (
                "amount 0 2019 reconnection-fees file 7",
                "operator 0 has reconnection-fees in 2019 and no reconnections, so they weigh in full at D2, as with a count of 1; "
                "file its reconnections if there were any, or correct the year",
            ),
            ("amount 1 2017 connections file 100", "the same call stands in line 8; take one out if it is meant once"),
        ]:
            self.assertEqual(self.notes(f"{GOOD}{more}\n"), [f"14: note: {note}"])
        path = self.file("calls.txt", f"{GOOD}rates 0 0\n")
        self.assertEqual([settle("--gas", option, path).status for option in ("--strict", "--quiet")], [1, 0])


class Asked(InFolder):
    def test_a_sheet_cannot_be_meant(self):
        for asked in (["--gas", "--sheet", "0", "2017", GAS_EXERCISE / "words"], ["--sheet", "x", "y", "--gas"]):
            run = settle(*asked)
            self.assertEqual((run.status, run.output), (2, b""))
            self.assertTrue(run.said.endswith("settle: error: a gas book has no yearly sheet\n"), run.said)

    def test_the_example_of_gas(self):
        example = ROOT / "examples" / "gas"
        run = settle("--gas", example)
        self.assertEqual((run.status, run.output), (0, program_on((example / "filing.q").read_bytes(), GAS_PROGRAM)))
        self.assertEqual(settle(example).output, b"refused 11\n")
        self.assertIn(run.output, settle("--gas", cwd=self.folder).output)

    def test_the_kind_of_an_example(self):
        for name, book_kind in [("gas", GAS), ("gas-refused", GAS), ("case-m", ELECTRICITY), ("biogas", ELECTRICITY)]:
            self.assertIs(kind_of_example(name), book_kind)


# Starts and ends: in order, alike, exchanged, too late, too early.
TIMES = [("0", "300"), ("300", "300"), ("301", "300"), ("0", "94608000"), ("-31536001", "0")]
# Calls where operator 1 has joined: each of the seven, and each number at a place that not all kinds of book take alike.
TRIED = [
    "join 2",
    *(f"setting 1 {number} 1" for number in range(6)),
    INTERRUPTION.replace("interruption 0", "interruption 1"),
    *(f"interruption 1 file MV own {start} {end} 1" for start, end in TIMES),
    *(f"amount 1 2019 {number} file 1" for number in range(14)),
    *(f"mark 1 {number} 0" for number in range(7)),
    "rates 1 2",
    "index june-2013 1",
]


class Kinds(InFolder):
    def test_a_kind_takes_what_its_program_takes(self):
        joined = encode(Call(BY_NAME["join"], (1,)))
        for book_kind, text in product(KINDS_OF_BOOK, TRIED):
            call = words.read(text)[0][0].call
            printed = program_on(joined + encode(call), building.built(ROOT, book_kind.settling))
            taken = book_kind.takes(call) and not any(outside(number, call, book_kind) for number in CHECKS)
            self.assertEqual(b" at 4" not in printed, taken, (book_kind.name, text))

    def test_the_indicators_and_tags_of_each(self):
        self.assertEqual([word for _, word in ELECTRICITY.indicators], list(INDICATORS))
        self.assertEqual((GAS.indicators, GAS.tags), ([(4, "D1"), (5, "D2")], [1, 2, 4, 5, 6, 7]))

    def test_every_number_has_a_meaning_in_each(self):
        for book_kind in KINDS_OF_BOOK:
            self.assertEqual(list(meanings_of(book_kind)), list(range(1, 16 if book_kind is ELECTRICITY else 14)))
            self.assertFalse([meaning for meaning in meanings_of(book_kind).values() if "{" in meaning])
        differing = [number for number in MEANINGS if MEANINGS[number] != meanings_of(ELECTRICITY)[number]]
        self.assertEqual(differing, [2, 11, 12])
        for meaning in MEANINGS.values():
            self.assertNotRegex(meaning, "cabins|A[1-4]|six|interruption")
