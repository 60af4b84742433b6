"""Notes after settling: the CSV of a real exercise with its mistakes, then each note by itself; --strict and --quiet."""

from pathlib import Path

from front.tests.common import ROOT, InFolder, program_on, settle, settle_here

TABLE = Path(__file__).parent / "csv" / "calls.csv"

# What a person corrects in the table after the errors of its text were told, and after its refusals.
TYPING = [
    ("setting;2;cabins;", "setting;2;cabins-2019;"),
    ("107.03", "10703"),
    ("2017-07-03T10:00+02:00", "2017-07-03T09:00"),
    ("2017-07-03T11:00+02:00", "2017-07-03T10:00"),
    ("intrruption", "interruption"),
]
REFUSED = [("05/06/2018 10:00;2;", "05/06/2018 10:00;1;"), ("922500", "2250"), ("amount;3;", "amount;2;")]

NOTES = """\
:4: note: operator 1 is marked at A3 since its join, and gets no points there; if its attestation is in, file: mark 1 A3 0
:5: note: operator 2 has an income of 0, so its limit is 0 and it has no adjustment; file it in cents: setting 2 income ..
:12: note: operator 1 has 260 cabins in 2018, less than half the 2,600 of 2017; see whether a digit or a year is wrong
:13: note: operator 1 has 2,540 cabins in 2019, more than twice the 260 of 2018; see whether a digit or a year is wrong
:44: note: operator 0 has reconnection-fees in 2019 and no reconnections, so they weigh in full at D2, as with a count of 1; \
file its reconnections if there were any, or correct the year
:50: note: operator 2 has lv-seconds in 2019 and no lv-weight, so that year counts as 0 at A4; file its lv-weight, or correct the year
:29: note: the same call stands in line 28; take one out if it is meant once
:30: note: its weight, 330, is more than the operator's cabins in 2018, 260; correct one of them
:33: note: no LV interruption of these very values is left here to withdraw; correct it to what was filed
:35: note: the clocks changed in the night of 2017-03-26; times are winter time, all year, and here 7,200 seconds are counted \
from start to end; take an hour off a time that was read in summer time
:38: note: it lasts longer than 30 days, from 2018-06-03T09:00 to 2018-08-03T10:00; see whether a date is wrong
:39: note: 20170314 is taken as seconds, that is 2017-08-22T10:51:54; for that date write 2017-03-14T00:00, with its clock time
:39: note: 20170315 is taken as seconds, that is 2017-08-22T10:51:55; for that date write 2017-03-15T00:00, with its clock time
"""


def corrected(text, corrections):
    for wrong, right in corrections:
        assert wrong in text, wrong
        text = text.replace(wrong, right)
    return text


class Table(InFolder):
    def test_a_table_with_its_mistakes_until_it_is_settled(self):
        text = TABLE.read_bytes().decode()
        path = self.file("table.csv", text)
        run = settle(path)
        self.assertEqual((run.status, run.output), (2, b""))
        self.assertEqual([line.split("'")[0] for line in run.said.splitlines()[:-1]], [f"{path}:{line}: " for line in (18, 23, 34, 34, 41)])

        self.file("table.csv", corrected(text, TYPING))
        run = settle(path)
        self.assertEqual((run.status, run.output), (1, b"refused 5 at 661\n"))
        for said in [
            ":40: refused: interruption 2 file LV own 2018-06-05T09:00 2018-06-05T10:00 2\n",
            "\n  The weight is 2: for LV it is 1.\n",
            ":46: would be refused too: amount 1 2018 fees withdraw 922500: 9: ",
            ":51: would be refused too: amount 3 2018 fees file 7300: 7: ",
            ": nothing is settled\n",
        ]:
            self.assertIn(said, run.said)

        self.file("table.csv", corrected(text, TYPING + REFUSED))
        run = settle(path)
        self.assertEqual((run.status, run.said.replace(str(path), "")), (0, NOTES))
        self.assertEqual(run.output, program_on(settle("--encode", "-", path).output))
        self.assertEqual(settle("--quiet", path), (0, run.output, ""))
        self.assertEqual(settle("--strict", path), (1, run.output, run.said))


# Two operators that settle without a note.
GOOD = """\
join 0
join 1
setting 0 cabins-2017 100
setting 0 cabins-2018 110
setting 0 cabins-2019 120
setting 0 access-points 1000
setting 0 income 100000000
setting 1 cabins-2017 100
setting 1 cabins-2018 50
setting 1 cabins-2019 100
setting 1 access-points 3000
setting 1 income 200000000
rates 5000 10000
"""
GOOD += "".join(f"mark {operator} {indicator} 0\n" for operator in (0, 1) for indicator in ("A1", "A2", "A3", "A4", "D1", "D2"))
LINES = GOOD.count("\n")
MARKED = "is marked at {} since its join, and gets no points there; if its attestation is in, file: mark {} 0"
COUNTS = (
    "the clocks changed in the night of {}; times are winter time, all year, and here {} seconds are counted from start to end; "
    "take an hour off a time that was read in summer time"
)
TWIN = "no {} interruption of these very values is left here to withdraw; correct it to what was filed"
AGAIN = "the same call stands in line {}; take one out if it is meant once"
HEAVY = "its weight, {}, is more than the operator's cabins in {}, {}; correct one of them"
JUMP = "operator {} has {} cabins in {}, {} of {}; see whether a digit or a year is wrong"
NO_RATES = "so nobody pays or gets anything; file them, as in: rates 5000 10000"


def longer(*lines):
    """The good exercise with these lines after it."""
    return GOOD + "".join(f"{line}\n" for line in lines)


def without(text, line):
    assert line in text, line
    return text.replace(line, "")


class Notes(InFolder):
    def notes(self, text):
        """The notes on a text that is settled: the line, if there is one, and what is said."""
        path = self.file("calls.txt", text)
        run = settle_here(path)
        self.assertEqual(run.status, 0, run)
        self.assertTrue(run.output.startswith(b"operator"), run)
        return [line.replace(f"{path}:", "") for line in run.said.splitlines()]

    def added(self, *lines):
        """The notes on the good exercise with these lines after it, by the line from the end of it: 1 for the first."""
        found = [note.partition(": note: ") for note in self.notes(longer(*lines))]
        return [(int(line) - LINES, text) for line, _, text in found]

    def settled(self, *lines):
        """What the same prints."""
        return settle_here(self.file("calls.txt", longer(*lines))).output

    def test_nothing_to_note(self):
        self.assertEqual(self.notes(GOOD), [])
        self.assertEqual(self.added("interruption 0 file MV own 2017-03-04T10:00 2017-03-04T12:30 100"), [])
        twins = ["interruption 0 file LV own 0 300 1", "interruption 0 withdraw LV own 0 300 1"]
        self.assertEqual(self.added(*twins), [])

    def test_marks_that_were_not_cleared_or_set_again(self):
        self.assertEqual(self.notes(without(GOOD, "mark 0 A1 0\n")), [f"1: note: operator 0 {MARKED.format('A1', '0 A1')}"])
        some = without(without(GOOD, "mark 1 A1 0\n"), "mark 1 D2 0\n")
        self.assertEqual(self.notes(some), [f"2: note: operator 1 {MARKED.format('A1, D2', '1 A1')}"])
        by_this_call = MARKED.format("D2", "1 D2").replace("since its join", "by this call")
        self.assertEqual(self.added("mark 1 D2 1"), [(1, f"operator 1 {by_this_call}")])

    def test_an_income_of_0(self):
        said = "operator 1 has an income of 0, so its limit is 0 and it has no adjustment; file it in cents: setting 1 income .."
        self.assertEqual(self.added("setting 1 income 0"), [(1, said)])
        self.assertEqual(self.notes(without(GOOD, "setting 1 income 200000000\n")), [f"2: note: {said}"])

    def test_rates_that_were_never_filed(self):
        path = self.file("calls.txt", without(GOOD, "rates 5000 10000\n"))
        self.assertEqual(settle_here(path).said, f"{path}: note: rates were never filed, {NO_RATES}\n")
        self.assertEqual(self.added("rates 0 0"), [(1, f"both rates are 0, {NO_RATES}")])
        self.assertEqual(self.added("rates 0 7"), [])

    def test_figures_without_the_one_that_divides_them(self):
        for figure, divisor, outcome in [
            ("fees", "connections", "they weigh in full at D1, as with a count of 1; file its connections if there were any"),
            ("reconnection-fees", "reconnections", "they weigh in full at D2, as with a count of 1; file its reconnections if there were any"),
            ("mv-seconds", "mv-weight", "that year counts as 0 at A2; file its mv-weight"),
            ("lv-seconds", "lv-weight", "that year counts as 0 at A4; file its lv-weight"),
        ]:
            call, other = f"amount 0 2019 {figure} file 7", f"amount 0 2019 {divisor} file 1"
            said = f"operator 0 has {figure} in 2019 and no {divisor}, so {outcome}, or correct the year"
            self.assertEqual(self.added(call), [(1, said)])
            self.assertEqual(self.added(other, call), [])
            # The settlement is the one with a count of 1, or the one without the figure, as the note says.
            alone, counted, without_it = (self.settled(*lines) for lines in ([call], [call, other], []))
            weighs = "weigh in full" in outcome
            self.assertEqual((alone == counted, alone == without_it), (weighs, not weighs), figure)
        gone = self.added("interruption 0 file LV own 0 300 1", "amount 0 2017 lv-weight withdraw 1")
        said = "operator 0 has lv-seconds in 2017 and no lv-weight, so that year counts as 0 at A4; file its lv-weight, or correct the year"
        self.assertEqual(gone, [(2, said)])

    def test_the_same_call_twice(self):
        again = AGAIN.format(LINES + 1)
        filed, withdrawn = "amount 0 2017 fees file 5", "amount 0 2017 fees withdraw 5"
        count = "amount 0 2017 connections file 1"
        self.assertEqual(self.added(filed, count, filed), [(3, again)])
        self.assertEqual(self.added(filed, count, filed, filed), [(3, again), (4, again)])
        self.assertEqual(self.added(filed, count, filed, withdrawn), [])
        self.assertEqual(self.added(filed, count, filed, withdrawn, filed), [(5, again)])
        self.assertEqual(self.added(filed, count, "amount 0 2017 fees file 6"), [])
        self.assertEqual(self.added("amount 0 2017 fees file 15", count, withdrawn, withdrawn), [(4, AGAIN.format(LINES + 3))])
        cleared = GOOD.splitlines().index("mark 0 A1 0") + 1
        self.assertEqual(self.added("mark 0 A1 1", "mark 0 A1 0"), [(2, AGAIN.format(cleared))])

    def test_heavy_and_long_interruptions(self):
        self.assertEqual(
            self.added("interruption 0 file MV planned 2017-05-01T00:00 2017-05-02T00:00 101"),
            [(1, HEAVY.format(101, 2017, 100))],
        )
        self.assertEqual(self.added("interruption 0 file MV own 2017-05-01T00:00 2017-05-31T00:00 9"), [])
        self.assertEqual(
            self.added("interruption 0 file MV own 2017-05-01T00:00 2017-05-31T00:00:01 9"),
            [(1, "it lasts longer than 30 days, from 2017-05-01T00:00 to 2017-05-31T00:00:01; see whether a date is wrong")],
        )

    def test_the_cabins_are_those_of_the_year_of_the_end(self):
        for year, cabins in [(2017, 100), (2018, 110), (2019, 120)]:
            ends = [f"{year}-01-01T00:00", f"{year}-05-02T00:00", f"{year}-12-31T23:59:59"]
            # The first begins in the year before.
            starts = [f"{year - 1}-12-31T23:00", f"{year}-05-01T23:00", f"{year}-12-31T23:00"]
            for start, end in zip(starts, ends):
                call = f"interruption 0 file MV own {start} {end}"
                self.assertEqual(self.added(f"{call} {cabins}"), [])
                self.assertEqual(self.added(f"{call} {cabins + 1}"), [(1, HEAVY.format(cabins + 1, year, cabins))])
        # As they stand at the end, of this operator.
        call = "interruption 0 file MV own 2018-05-01T00:00 2018-05-02T00:00 111"
        self.assertEqual(self.added(call, "setting 0 cabins-2018 111", "setting 1 cabins-2018 99"), [])
        self.assertEqual(self.added(call, "setting 0 cabins-2018 90"), [(1, HEAVY.format(111, 2018, 90))])
        self.assertEqual(self.added("interruption 1 file MV own 2018-05-01T00:00 2018-05-02T00:00 51"), [(1, HEAVY.format(51, 2018, 50))])

    def test_cabins_that_jump(self):
        twice, half = "more than twice the", "less than half the"
        for lines, notes in [
            (["setting 0 cabins-2018 201"], [(1, JUMP.format(0, 201, 2018, f"{twice} 100", 2017))]),
            (["setting 0 cabins-2018 200"], []),
            (["setting 0 cabins-2019 221"], [(1, JUMP.format(0, 221, 2019, f"{twice} 110", 2018))]),
            (["setting 0 cabins-2019 220"], []),
            (["setting 0 cabins-2019 55"], []),
            (["setting 0 cabins-2019 54"], [(1, JUMP.format(0, 54, 2019, f"{half} 110", 2018))]),
            # The line is that of the later year, and the latest value counts.
            (
                ["setting 1 cabins-2018 90", "setting 1 cabins-2017 1000", "setting 1 cabins-2018 91"],
                [(3, JUMP.format(1, 91, 2018, f"{half} 1,000", 2017))],
            ),
            (["setting 0 cabins-2019 1100", "setting 0 cabins-2019 111"], []),
            # One year that is wrong is so beside the year before and the year after, whose line comes before these.
            (
                ["setting 0 cabins-2018 1100"],
                [
                    (1, JUMP.format(0, "1,100", 2018, f"{twice} 100", 2017)),
                    (GOOD.splitlines().index("setting 0 cabins-2019 120") + 1 - LINES, JUMP.format(0, 120, 2019, f"{half} 1,100", 2018)),
                ],
            ),
        ]:
            self.assertEqual(self.added(*lines), notes, lines)

    def test_the_examples_have_no_jump(self):
        for example in ("case-m", "course", "growing"):
            self.assertNotIn("cabins", settle_here(ROOT / "examples" / example).said)

    def test_withdrawals_that_are_left_out(self):
        """Each takes 1 from its count, which is noted only where another one was filed."""
        for cause, seconds, other in [
            ("planned", 300, "MV planned 0 300 6"),
            ("coupled", 300, "LV coupled 0 300 1"),
            ("exceptional", 300, "MV exceptional 0 299 5"),
            ("own", 180, "MV planned 0 180 5"),
        ]:
            filed, withdrawn = (f"interruption 0 {sign} MV {cause} 0 {seconds} 5" for sign in ("file", "withdraw"))
            self.assertEqual(self.added(filed, withdrawn), [])
            self.assertEqual(self.added(f"interruption 0 file {other}", withdrawn), [(2, TWIN.format("MV"))])
            self.assertEqual(self.added(filed, filed), [(2, AGAIN.format(LINES + 1))])

    def test_withdrawals_of_what_was_not_filed(self):
        filed = "interruption 0 file MV own 0 300 5"
        other = "interruption 0 withdraw MV own 0 299 5"
        same = "interruption 0 withdraw MV own 0 300 5"
        enough = [f"amount 0 2017 {total}" for total in ("mv-weight file 50", "mv-seconds file 9000", "count-counted file 3")]
        self.assertEqual(self.added(filed, other, *enough)[0], (2, TWIN.format("MV")))
        self.assertEqual(self.added(*enough, filed, same), [])
        self.assertEqual(self.added(*enough, same, filed), [])
        self.assertEqual(self.added(*enough, filed, same, same), [(6, AGAIN.format(LINES + 5)), (6, TWIN.format("MV"))])
        self.assertEqual(
            [line for line, text in self.added(*enough, filed, same, same, same) if text == TWIN.format("MV")], [6, 7]
        )

    def test_numbers_that_look_like_dates(self):
        for start, date in [("20170314", "2017-03-14"), ("14032017", "2017-03-14"), ("20161231", "2016-12-31")]:
            (line, said), *_ = self.added(f"interruption 0 file MV own {start} {int(start) + 300} 5")
            self.assertEqual(line, 1)
            self.assertIn(f"{start} is taken as seconds", said)
            self.assertIn(f"write {date}T00:00", said)
        self.assertEqual(self.added("interruption 0 file MV own 20171314 20171600 5"), [])
        self.assertEqual(self.added("interruption 0 file MV own 2017-08-22T10:51:54 2017-08-22T11:51:54 5"), [])

    def test_the_clocks(self):
        for start, end, day, seconds in [
            ("2017-03-26T02:30", "2017-03-26T04:00", "2017-03-26", "5,400"),
            ("2018-10-28T02:00", "2018-10-28T02:30", "2018-10-28", "1,800"),
            ("2019-03-30T22:00", "2019-03-31T07:00", "2019-03-31", "32,400"),
            ("2017-10-29T00:00", "2017-10-29T01:00", "2017-10-29", "3,600"),
            ("26/03/2017 03:00", "26/03/2017 04:00", "2017-03-26", "3,600"),
        ]:
            self.assertEqual(self.added(f"interruption 0 file MV own {start} {end} 5"), [(1, COUNTS.format(day, seconds))])
        for start, end in [("2017-03-26T00:00", "2017-03-26T00:59"), ("2017-03-26T03:01", "2017-03-26T04:00"), ("7260000", "7269000")]:
            self.assertEqual(self.added(f"interruption 0 file MV own {start} {end} 5"), [])

    def test_a_filing_is_noted_by_its_fields(self):
        path = self.file("calls.txt", GOOD + "interruption 0 file MV own 2017-03-26T02:30 2017-03-26T04:00 101\n")
        made = self.folder / "made.q"
        settle_here("--encode", made, path)
        self.assertEqual(settle_here(made).said, f"{made}: field 26 at byte 221: note: {HEAVY.format(101, 2017, 100)}\n")

    def test_many_notes_are_cut(self):
        notes = self.notes(GOOD + "interruption 0 file MV own 0 300 101\n" * 30)
        self.assertEqual((len(notes), notes[-1]), (41, " .. and 19 more notes"))


class Asked(InFolder):
    def test_many_at_once(self):
        good = self.file("good.txt", GOOD)
        noted = self.file("noted.txt", without(GOOD, "rates 5000 10000\n"))
        run = settle(good, noted, good)
        self.assertEqual(run.status, 0)
        self.assertTrue(run.output.endswith(f"# {good}: settled\n# {noted}: settled, 1 note\n# {good}: settled\n".encode()))
        self.assertEqual(settle("--strict", good, noted, good).status, 1)
        self.assertEqual(settle("--strict", good, good).status, 0)
        self.assertIn(f"# {noted}: settled\n".encode(), settle("--quiet", good, noted).output)

    def test_a_file_that_was_passed_over_is_a_note(self):
        self.file("calls.txt", GOOD)
        self.file("calls.csv", "call,operator\njoin,0\n")
        self.assertEqual([settle("--strict", self.folder).status, settle(self.folder).status], [1, 0])
        self.assertEqual(settle("--quiet", self.folder).said, "")

    def test_both_cannot_be_meant(self):
        self.assertEqual(settle("--strict", "--quiet", self.folder).status, 2)
