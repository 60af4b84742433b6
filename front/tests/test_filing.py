"""The bytes of a filing: encoding and showing are inverse, and the exercise is the same by words, by CSV and by bytes."""

import random

from front import figures, filing, words
from front.building import ROOT, Builder
from front.calls import KINDS, Call
from front.programs import Programs
from front.tests.common import EXERCISE, InFolder, program_on, settle, settle_here

FILINGS = 150


def drawn_value(draw, place):
    """A value that fits the place: often one that has a word, or one near its ends."""
    low, high = (-(1 << place.bits - 1), (1 << place.bits - 1) - 1) if place.signed else (0, (1 << place.bits) - 1)
    near = draw.choice([low, high, draw.randint(low, high), draw.randint(0, 9), draw.randint(0, 255)])
    return draw.choice([near, draw.randint(-40_000_000, 100_000_000) if place.is_time else draw.randint(0, 12)])


def drawn_call(draw):
    kind = draw.choice(KINDS)
    return Call(kind, tuple(drawn_value(draw, place) for place in kind.places))


def calls_in(run):
    """The calls of what a run printed, without the comments."""
    return [line.split("#")[0].rstrip() for line in run.output.decode().splitlines()]


class Inverse(InFolder):
    def test_shown_and_encoded_again(self):
        draw = random.Random(14)
        for _ in range(FILINGS):
            calls = [drawn_call(draw) for _ in range(draw.randint(0, 12))]
            data = b"".join(filing.encode(call) for call in calls)
            path = self.file("drawn.q", data)
            shown = settle_here("--show", path)
            self.assertEqual((shown.status, shown.said), (0, ""))
            again = settle_here("--encode", "-", self.file("drawn.txt", shown.output))
            self.assertEqual(again, (0, data, ""), shown.output)
            self.assertEqual([field.call for field in filing.fields_of(data)], calls)
            self.assertEqual(calls_in(settle_here("--show", "--offsets", self.folder / "drawn.txt")), calls_in(shown))

    def test_the_course_example(self):
        shown = settle("--show", "examples/course", cwd=EXERCISE.parents[2])
        path = self.file("course.txt", shown.output)
        self.assertEqual(settle("--encode", "-", path).output, (EXERCISE.parents[2] / "examples/course/filing.q").read_bytes())


INTERRUPTIONS = """\
join 3

interruption 3 file MV own 2017-12-31T23:00 2017-12-31T23:59:59 4
interruption 3 file MV own 2017-12-31T23:00 2018-01-01T00:00 4
interruption 3 file LV unattested 2019-03-04T10:00 2019-03-04T10:04 1
interruption 3 file LV own 0 180 1
interruption 3 file LV own 0 181 1
interruption 3 file MV planned 2017-03-04T10:00 2017-03-04T12:30 120
interruption 3 file MV coupled 2017-03-04T10:00 2017-03-04T12:30 120
interruption 3 file MV exceptional 2017-03-04T10:00 2017-03-04T12:30 120
interruption 3 withdraw MV planned 2017-03-04T10:00 2017-03-04T12:30 120
interruption 4 file MV own 2017-03-04T10:00 2017-03-04T12:30 120
interruption 3 file MV own 2017-03-04T10:00 2017-03-04T12:30 120
"""
# All that moves figures in yet another way.
OTHERS = """\
interruption 3 withdraw MV own 0 300 4
interruption 3 file MV planned 2018-12-31T23:59 2019-01-01T00:02 7
interruption 3 file MV planned 2018-12-31T23:59 2019-01-01T00:02:01 7
interruption 3 file LV unattested 2018-12-31T23:59 2019-01-01T00:02 1
interruption 3 withdraw LV exceptional 2018-12-31T23:59 2019-01-01T00:02 1
interruption 3 withdraw LV exceptional 0 181 1
amount 3 2019 count-short file 12
amount 3 2019 count-short withdraw 2
amount 3 2018 fees file 7
"""
BECOMES = [
    "line 1",
    "line 3, counted in 2017",
    "line 4, counted in 2018",
    "line 5, counted in 2019",
    "line 6, left out: short",
    "line 7, counted in 2017",
    "line 8, left out: planned",
    "line 9, left out: coupled",
    "line 10, left out: exceptional",
    "line 11, left out: planned",
    "line 12, refused 7",
    "line 13, not reached, since an earlier call is refused",
]


class Shown(InFolder):
    def test_the_counts_by_bytes_and_by_words(self):
        for number, word in enumerate(["counted", "short", "planned", "coupled", "exceptional"], start=8):
            call = f"amount 1 2018 count-{word} withdraw 3"
            data = bytes([4, 0, 12, 1, 1, number, 1, 0, 0, 0, 0, 0, 0, 0, 3])
            self.assertEqual(settle_here("--show", self.file("filing.q", data)), (0, f"{call}\n".encode(), ""))
            self.assertEqual(settle_here("--encode", "-", self.file("calls.txt", call)), (0, data, ""))

    def test_the_settings_by_bytes_and_by_words(self):
        for number, word in [(0, "cabins-2017"), (1, "access-points"), (2, "income"), (3, "cabins-2018"), (4, "cabins-2019"), (5, "5")]:
            call = f"setting 1 {word} 300"
            data = bytes([2, 0, 10, 1, number, 0, 0, 0, 0, 0, 0, 1, 44])
            self.assertEqual(settle_here("--show", self.file("filing.q", data)), (0, f"{call}\n".encode(), ""))
            self.assertEqual(settle_here("--encode", "-", self.file("calls.txt", call)), (0, data, ""))

    def test_a_filing_as_calls_alone(self):
        amount = "04 000c 03 00 0a 00 0000000000000001"
        interruption = "03 0018 03 01 00 01 00000000005249a0 0000000000526cc8 00000078"
        path = self.file("filing.q", bytes.fromhex(f"01 0001 03 {amount} {interruption} {interruption}"))
        withdrawn = "interruption 3 withdraw MV planned 2017-03-04T10:00 2017-03-04T12:30 120"
        calls = ["join 3", "amount 3 2017 count-planned file 1", withdrawn, withdrawn]
        self.assertEqual(
            settle("--show", path).output.decode().splitlines(),
            [*calls[:2], f"{withdrawn} # left out: planned", f"{withdrawn} # refused 9"],
        )
        places = ["field 1 at byte 0", "field 2 at byte 4", "field 3 at byte 19, left out: planned", "field 4 at byte 46, refused 9"]
        self.assertEqual(
            settle("--show", "--offsets", path).output.decode().splitlines(),
            [f"{call:<40} # {place}" for call, place in zip(calls, places)],
        )

    def test_each_interruption_with_what_becomes_of_it(self):
        run = settle("--show", self.file("calls.txt", INTERRUPTIONS))
        self.assertEqual((run.status, run.said), (0, ""))
        self.assertEqual([line.split("# ")[1] for line in run.output.decode().splitlines()], BECOMES)
        run = settle("--show", "--offsets", self.folder / "calls.txt")
        self.assertIn("# line 4, field 3 at byte 31, counted in 2018\n", run.output.decode())

    def test_what_becomes_of_it_is_what_the_book_shows(self):
        """A field changes the figures in the written book that it is said to move; one that is left out its count alone."""
        asked = Programs(Builder(ROOT, print))
        calls = INTERRUPTIONS.split("interruption 4")[0] + OTHERS
        data = settle_here("--encode", "-", self.file("calls.txt", calls)).output
        outcomes = asked.outcomes(data)
        met = set()
        for field in filing.fields_of(data)[1:]:
            before, after = asked.book(data[: field.offset]), asked.book(data[: field.offset + len(field.data)])
            sign = -1 if field.call.value("sign") else 1
            changed = {key: after.value(*key) - before.value(*key) for key in {*before.values, *after.values}}
            outcome = outcomes[field.offset]
            moves = figures.moves_of(field.call, outcome.word)
            self.assertEqual(
                {key: change for key, change in changed.items() if change}, {move.key: sign * move.amount for move in moves}, field
            )
            if outcome.word != "yes":
                self.assertEqual(asked.outcome_alone(field.call), outcome.word)
                self.assertEqual((moves[-1].name, len(moves)), (f"count-{outcome.word}", 3 if outcome.word == "counted" else 1))
                self.assertIn(outcome.number, (None, moves[-1].year))
            met.add(outcome.word)
        self.assertEqual(met, {"yes", "counted", "short", "planned", "coupled", "exceptional"})
        self.assertEqual(figures.moves_of(filing.fields_of(data)[0].call, "yes"), [])

    def test_bytes_that_are_no_call(self):
        for rest in ["01", "0100", "01000200", "630000", "0100020000", "0000"]:
            run = settle_here("--show", self.file("filing.q", bytes.fromhex("01000100" + rest)))
            self.assertEqual(run.status, 1)
            shown = run.output.decode().splitlines()
            self.assertEqual(shown, ["join 0", "# field 2 at byte 4: no call in the bytes from here on"])
            self.assertIn("filing.q: field 2 at byte 4: no call", run.said)

    def test_the_calls_of_a_text(self):
        run = settle_here("--show", self.file("calls.txt", "# one\njoin 0\n\nrates 1 2\n"))
        rows, _ = words.read(run.output.decode())
        self.assertEqual([row.call.kind.name for row in rows], ["join", "rates"])
        self.assertEqual([line.split("# ")[1] for line in run.output.decode().splitlines()], ["line 2", "line 4"])


class Exercise(InFolder):
    def test_by_words_by_csv_and_by_bytes(self):
        data = (EXERCISE / "bytes" / "filing.q").read_bytes()
        printed = program_on(data)
        self.assertTrue(printed.startswith(b"operator points out in adjustment\n0 "))
        for way in ("words", "csv", "bytes"):
            self.assertEqual(settle("--quiet", EXERCISE / way), (0, printed, ""), way)
            self.assertEqual(settle(EXERCISE / way)[:2], (0, printed), way)
            self.assertEqual(settle_here("--encode", "-", EXERCISE / way).output, data, way)

    def test_the_cabins_of_each_year_make_a_difference(self):
        calls = (EXERCISE / "words" / "calls.txt").read_text(encoding="utf-8")
        settled = settle_here("--quiet", EXERCISE / "words").output
        for one, other in [("2017", "2018"), ("2018", "2019"), ("2019", "2017")]:
            text = calls.replace(f"2 cabins-{one}", "2 cabins-x").replace(f"2 cabins-{other}", f"2 cabins-{one}")
            run = settle_here("--quiet", self.file("calls.txt", text.replace("cabins-x", f"cabins-{other}")))
            self.assertEqual((run.status, run.output == settled), (0, False), (one, other))
