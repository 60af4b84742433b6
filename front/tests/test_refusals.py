"""Every refusal of the program: its line on standard output as it is, the place and the reason in words beside it."""

import unittest

from front.filing import fields_of
from front.kinds import ELECTRICITY
from front.meanings import meanings_of
from front.tests.common import ROOT, InFolder, program_on, settle, settle_here

MEANINGS = meanings_of(ELECTRICITY)
NETWORK = "join 0\nsetting 0 cabins-2017 5\nsetting 0 cabins-2018 6\nsetting 0 cabins-2019 8\nsetting 0 access-points 7\n"
MARKED = NETWORK + "mark 0 A1 0\n" + "".join(f"mark 0 {indicator} 1\n" for indicator in ("A1", "A2", "A3", "A4", "D1", "D2"))

OF_INTERRUPTIONS = (
    "  An interruption counts in the year of its end; "
    "one of 180 seconds or less, or left out for its cause, moves its count and nothing else.\n"
)

# A filing; what is printed; where and what the refused field is; a part of what is said besides the meaning.
FILINGS = [
    ("01 00", "refused 1 at 0", "field 1 at byte 0: refused: the bytes 01 00", ""),
    ("01 00 01 00 01 00 05 00", "refused 1 at 4", "field 2 at byte 4: refused: the bytes 01 00 05 00", ""),
    ("01 00 01 00 63 00 00", "refused 2 at 4", "field 2 at byte 4: refused: the bytes 63 00 00", ""),
    ("63 00 20" + " 07" * 32, "refused 2 at 0", "field 1 at byte 0: refused: the bytes 63 00 20" + " 07" * 13 + " ..", ""),
    ("6a 6f 69 6e 20 30 0a", "refused 1 at 0", "field 1 at byte 0: refused: the bytes 6a 6f 69 6e 20 30 0a", "These bytes are a text"),
    ("01 00 02 00 00", "refused 3 at 0", "field 1 at byte 0: refused: the bytes 01 00 02 00 00", ""),
    ("01 00 01 10", "refused 4 at 0", "field 1 at byte 0: refused: join 16", ""),
    ("01 00 01 00 01 00 01 00", "refused 6 at 4", "field 2 at byte 4: refused: join 0", "It joined in field 1 at byte 0."),
]

# The same by text.
TEXTS = [
    ("# one\njoin 16", "refused 4 at 0", "2: refused: join 16", ""),
    (
        "join 0\nsetting 0 cabins-2018 100001",
        "refused 5 at 4",
        "2: refused: setting 0 cabins-2018 100001",
        "\n  The value is 100001: cabins of 2018 are 0 to 100,000.\n",
    ),
    ("join 4\n\njoin 4", "refused 6 at 4", "3: refused: join 4", "It joined in line 1."),
    ("join 0\nmark 1 A1 1", "refused 7 at 4", "2: refused: mark 1 A1 1", ""),
    (
        "join 0\namount 0 2018 fees file 100000000000\namount 0 2017 fees file 5\namount 0 2018 fees file 1",
        "refused 8 at 34",
        "4: refused: amount 0 2018 fees file 1",
        "  Of operator 0 in 2018 there stands 100,000,000,000 in fees at this point.\n  Earlier calls there: line 2.\n",
    ),
    (
        "join 0\namount 0 2018 fees file 100000000001",
        "refused 8 at 4",
        "2: refused: amount 0 2018 fees file 100000000001",
        "  Of operator 0 in 2018 there stands 0 in fees at this point.\n  Earlier calls there: none.\n",
    ),
    (
        "join 0\namount 0 2018 fees withdraw 1",
        "refused 9 at 4",
        "2: refused: amount 0 2018 fees withdraw 1",
        "  Of operator 0 in 2018 there stands 0 in fees at this point.\n  Earlier calls there: none.\n",
    ),
    (
        "join 0\ninterruption 0 file MV own 0 181 2\namount 0 2017 mv-weight withdraw 1\ninterruption 0 withdraw MV own 0 181 2",
        "refused 9 at 46",
        "4: refused: interruption 0 withdraw MV own 2017-01-01T00:00 2017-01-01T00:03:01 2",
        "  Of operator 0 in 2017 there stands 1 in mv-weight at this point.\n  Earlier calls there: line 2, line 3.\n"
        "  This interruption takes 2 from mv-weight, 362 from mv-seconds and 1 from count-counted.\n" + OF_INTERRUPTIONS,
    ),
    (
        "join 0\ninterruption 0 file LV own 0 300 1\namount 0 2017 lv-seconds withdraw 1\ninterruption 0 withdraw LV own 0 300 1",
        "refused 9 at 46",
        "4: refused: interruption 0 withdraw LV own 2017-01-01T00:00 2017-01-01T00:05 1",
        "  Of operator 0 in 2017 there stands 299 in lv-seconds at this point.\n  Earlier calls there: line 2, line 3.\n"
        "  This interruption takes 1 from lv-weight, 300 from lv-seconds and 1 from count-counted.\n" + OF_INTERRUPTIONS,
    ),
    (
        # The totals of the level are there, and the count is not.
        "join 0\namount 0 2017 mv-weight file 5\namount 0 2017 mv-seconds file 9000\ninterruption 0 file MV planned 0 300 2\n"
        "interruption 0 withdraw MV unattested 0 300 2",
        "refused 9 at 61",
        "5: refused: interruption 0 withdraw MV unattested 2017-01-01T00:00 2017-01-01T00:05 2",
        "  Of operator 0 in 2017 there stands 0 in count-counted at this point.\n  Earlier calls there: none.\n"
        "  This interruption takes 2 from mv-weight, 600 from mv-seconds and 1 from count-counted.\n" + OF_INTERRUPTIONS,
    ),
    (
        "join 0\ninterruption 0 withdraw MV own 2018-12-31T23:00 2019-01-01T00:10 2",
        "refused 9 at 4",
        "2: refused: interruption 0 withdraw MV own 2018-12-31T23:00 2019-01-01T00:10 2",
        "  Of operator 0 in 2019 there stands 0 in mv-weight, 0 in mv-seconds and 0 in count-counted at this point.\n"
        "  Earlier calls there: none.\n"
        "  This interruption takes 2 from mv-weight, 8,400 from mv-seconds and 1 from count-counted.\n" + OF_INTERRUPTIONS,
    ),
    (
        # One that is left out: the same cause a year before, and all else of the year, is no help.
        "join 0\ninterruption 0 file MV planned 2018-12-31T08:00 2018-12-31T09:00 2\ninterruption 0 file MV own 31536000 63072000 2\n"
        "interruption 0 file MV planned 63072000 63072180 2\ninterruption 0 withdraw MV planned 2018-12-31T23:00 2019-01-01T00:10 2",
        "refused 9 at 85",
        "5: refused: interruption 0 withdraw MV planned 2018-12-31T23:00 2019-01-01T00:10 2",
        "  Of operator 0 in 2019 there stands 0 in count-planned at this point.\n  Earlier calls there: none.\n"
        "  This interruption takes 1 from count-planned.\n" + OF_INTERRUPTIONS,
    ),
    (
        "join 0\ninterruption 0 file LV own 0 180 1\ninterruption 0 withdraw LV coupled 0 9 1\n"
        "interruption 0 withdraw MV exceptional 0 180 7",
        "refused 9 at 58",
        "4: refused: interruption 0 withdraw MV exceptional 2017-01-01T00:00 2017-01-01T00:03 7",
        "  Of operator 0 in 2017 there stands 0 in count-short at this point.\n  Earlier calls there: line 2, line 3.\n"
        "  This interruption takes 1 from count-short.\n" + OF_INTERRUPTIONS,
    ),
    (
        "join 0\namount 0 2018 count-coupled file 99999999999\ninterruption 0 file MV coupled 31536000 31536181 9\n"
        "interruption 0 file LV coupled 31536000 31536181 1",
        "refused 8 at 46",
        "4: refused: interruption 0 file LV coupled 2018-01-01T00:00 2018-01-01T00:03:01 1",
        "  Of operator 0 in 2018 there stands 100,000,000,000 in count-coupled at this point.\n  Earlier calls there: line 2, line 3.\n"
        "  This interruption adds 1 to count-coupled.\n" + OF_INTERRUPTIONS,
    ),
    (
        # The weight would be 100,000,000,000, which is taken.
        "join 0\namount 0 2017 count-counted file 100000000000\namount 0 2017 mv-weight file 99999999998\n"
        "interruption 0 file MV own 0 300 2",
        "refused 8 at 34",
        "4: refused: interruption 0 file MV own 2017-01-01T00:00 2017-01-01T00:05 2",
        "  Of operator 0 in 2017 there stands 100,000,000,000 in count-counted at this point.\n  Earlier calls there: line 2.\n"
        "  This interruption adds 2 to mv-weight, 600 to mv-seconds and 1 to count-counted.\n" + OF_INTERRUPTIONS,
    ),
    (
        "join 0\namount 0 2017 mv-seconds file 99999999401\ninterruption 0 file MV own 0 300 2",
        "refused 8 at 19",
        "3: refused: interruption 0 file MV own 2017-01-01T00:00 2017-01-01T00:05 2",
        "  Of operator 0 in 2017 there stands 99,999,999,401 in mv-seconds at this point.\n  Earlier calls there: line 2.\n"
        "  This interruption adds 2 to mv-weight, 600 to mv-seconds and 1 to count-counted.\n" + OF_INTERRUPTIONS,
    ),
    (
        "join 0\ninterruption 0 file LV planned 0 300 1\ninterruption 0 file LV own 0 300 1\namount 0 2017 count-planned withdraw 2",
        "refused 9 at 58",
        "4: refused: amount 0 2017 count-planned withdraw 2",
        "  Of operator 0 in 2017 there stands 1 in count-planned at this point.\n  Earlier calls there: line 2.\n" + OF_INTERRUPTIONS,
    ),
    (
        "join 0\namount 0 2017 count-short file 100000000001",
        "refused 8 at 4",
        "2: refused: amount 0 2017 count-short file 100000000001",
        "  Of operator 0 in 2017 there stands 0 in count-short at this point.\n  Earlier calls there: none.\n",
    ),
    (
        "join 0\ninterruption 0 file LV own 2017-12-31T23:00 2018-01-01T01:00 1\namount 0 2017 lv-weight withdraw 1",
        "refused 9 at 31",
        "3: refused: amount 0 2017 lv-weight withdraw 1",
        "  Of operator 0 in 2017 there stands 0 in lv-weight at this point.\n  Earlier calls there: none.\n",
    ),
]

# Texts whose settlement is refused.
SETTLING = [
    ("# nothing at all\n", "refused 10", ""),
    ("rates 5000 10000", "refused 10", ""),
    (
        NETWORK + "join 1\nsetting 1 cabins-2019 5\nsetting 0 cabins-2018 0",
        "refused 11",
        "  Missing, or 0, of operator 0: cabins-2018.\n  Missing, or 0, of operator 1: cabins-2017, cabins-2018 and access-points.\n",
    ),
    ("join 2", "refused 11", "  Missing, or 0, of operator 2: cabins-2017, cabins-2018, cabins-2019 and access-points.\n"),
    (NETWORK, "refused 12", ""),
    (MARKED, "refused 12", ""),
]


# A line that 5 refuses, and what is said of each value that is outside its range; of an interruption's times nothing.
OUTSIDE = [
    ("setting 0 cabins-2017 100001", ["The value is 100001: cabins of 2017 are 0 to 100,000."]),
    ("setting 0 cabins-2018 4000000", ["The value is 4000000: cabins of 2018 are 0 to 100,000."]),
    ("setting 0 cabins-2019 100001", ["The value is 100001: cabins of 2019 are 0 to 100,000."]),
    ("setting 0 access-points 4000001", ["The value is 4000001: access points are 0 to 4,000,000."]),
    ("setting 0 income 100000000001", ["The value is 100000000001: income is 0 to 100,000,000,000 cents."]),
    (
        "setting 0 5 100001",
        ["The setting is 5: it is one of cabins-2017, access-points, income, cabins-2018, cabins-2019, or a number 0 to 4."],
    ),
    ("amount 0 3 fees file 1", ["The year is 3: it is one of 2017, 2018, 2019, or a number 0 to 2."]),
    (
        "amount 0 2017 13 file 1",
        [
            "The figure is 13: it is one of mv-weight, mv-seconds, lv-weight, lv-seconds, fees, connections, reconnection-fees, "
            "reconnections, count-counted, count-short, count-planned, count-coupled, count-exceptional, or a number 0 to 12."
        ],
    ),
    ("amount 0 2017 fees 2 1", ["The sign is 2: it is one of file, withdraw, or a number 0 to 1."]),
    ("mark 0 6 1", ["The indicator is 6: it is one of A1, A2, A3, A4, D1, D2, or a number 0 to 5."]),
    ("mark 0 A1 2", ["The mark is 2: it is 0 (cleared) or 1 (unreliable)."]),
    ("rates 20001 0", ["The pot is 20001: a rate is 0 to 20,000 millionths."]),
    ("rates 0 20001", ["The cap is 20001: a rate is 0 to 20,000 millionths."]),
    ("index june-2017 0", ["The value is 0: an index is 1 to 100,000 hundredths."]),
    (
        "index 4 100001",
        [
            "The index is 4: it is one of june-2016, june-2017, june-2018, june-2013, or a number 0 to 3.",
            "The value is 100001: an index is 1 to 100,000 hundredths.",
        ],
    ),
    ("interruption 0 file MV own 0 300 100001", ["The weight is 100001: for MV it is 1 to 100,000 cabins."]),
    ("interruption 0 file MV own 0 300 0", ["The weight is 0: for MV it is 1 to 100,000 cabins."]),
    ("interruption 0 file LV own 0 300 2", ["The weight is 2: for LV it is 1."]),
    ("interruption 0 file LV own 500 300 2", ["The weight is 2: for LV it is 1."]),
    ("interruption 0 file LV own 0 94608000 2", ["The weight is 2: for LV it is 1."]),
    (
        "interruption 0 file 2 5 0 300 2",
        [
            "The level is 2: it is one of MV, LV, or a number 0 to 1.",
            "The cause is 5: it is one of own, planned, coupled, exceptional, unattested, or a number 0 to 4.",
        ],
    ),
]

# The same of an interruption's times, with the number that each has.
OF_PERIOD = "it is 2017-01-01T00:00 to 2019-12-31T23:59:59."
MISTYPED = [
    ("500 300", 14, ["The start is 2017-01-01T00:08:20: it is not after the end, 2017-01-01T00:05."]),
    ("301 300", 14, ["The start is 2017-01-01T00:05:01: it is not after the end, 2017-01-01T00:05."]),
    ("2019-03-01T08:00 2018-03-01T09:00", 14, ["The start is 2019-03-01T08:00: it is not after the end, 2018-03-01T09:00."]),
    ("94608001 94608000", 14, ["The start is 2020-01-01T00:00:01: it is not after the end, 2020-01-01T00:00."]),
    ("94607000 94608000", 15, [f"The end is 2020-01-01T00:00: {OF_PERIOD}"]),
    ("-5 -1", 15, [f"The end is 2016-12-31T23:59:59: {OF_PERIOD}"]),
    ("-31536001 0", 15, ["The start is 2016-01-01T23:59:59: it is not before 2016-01-02T00:00."]),
    (
        "-31536001 -31536000",
        15,
        [f"The end is 2016-01-02T00:00: {OF_PERIOD}", "The start is 2016-01-01T23:59:59: it is not before 2016-01-02T00:00."],
    ),
]

ALONE = "nothing is settled; without this line nothing else would be refused"


class Refusals(InFolder):
    def check(self, path, printed, place, besides):
        run = settle_here(path)
        self.assertEqual((run.status, run.output), (1, f"{printed}\n".encode()), path.read_bytes())
        lines = run.said.splitlines()
        self.assertEqual(lines[0], f"{path}{place}")
        number = int(printed.split()[1])
        self.assertEqual(lines[1], f"  {number}: {MEANINGS[number]}")
        explained = [line for line in lines[2:] if line.startswith("  ")]
        self.assertEqual(bool(explained), bool(besides), run.said)
        self.assertIn(besides, run.said)
        self.assertEqual(" at " in printed, f"{path}: nothing is settled" in run.said)
        return number

    def test_every_refusal(self):
        met = set()
        for data, printed, place, besides in FILINGS:
            data = bytes.fromhex(data)
            self.assertEqual(program_on(data), f"{printed}\n".encode())
            met.add(self.check(self.file("filing.q", data), printed, f": {place}", besides))
        for text, printed, place, besides in TEXTS:
            met.add(self.check(self.file("calls.txt", text), printed, f":{place}", besides))
        for text, printed, besides in SETTLING:
            met.add(self.check(self.file("calls.txt", text), printed, ": the filing is read, and settling it is refused", besides))
        # All but 13, which no program gives; 14 and 15 have a test of their own.
        self.assertEqual(met, set(MEANINGS) - {13, 14, 15})

    def test_by_csv_the_row_is_named(self):
        path = self.file("calls.csv", "call,operator\njoin,0\n\njoin,0\n")
        self.check(path, "refused 6 at 4", ":4: refused: join 0", "It joined in line 2.")

    def test_many_places_are_cut(self):
        text = "join 0\n" + "amount 0 2017 fees file 1\n" * 20 + "amount 0 2017 fees withdraw 21"
        run = settle(self.file("calls.txt", text))
        self.assertIn("  Earlier calls there: line 2, line 3, ", run.said)
        self.assertIn("line 12, line 13 and 8 more.", run.said)

    def test_too_long(self):
        path = self.file("calls.txt", "join 0\n" + "rates 1 1\n" * 6000)
        run = settle(path)
        self.assertEqual((run.status, run.output), (1, b"too long\n"))
        self.assertEqual(
            run.said,
            f"{path}: a filing has at most 65,536 bytes, and this one has 66,004\n"
            f"{path}:5959: here it passes them: file totals in the place of many entries\n",
        )
        encoded = settle("--encode", self.folder / "made.q", path)
        self.assertEqual((encoded.status, encoded.said), (0, run.said))
        run = settle(self.file("filing.q", b"\x01\x00\x01\x00" + bytes([6, 0, 8] + [0] * 8) * 6000))
        self.assertIn("filing.q: field 5959 at byte 65531: here it passes them", run.said)

    def test_the_value_that_is_outside_its_range(self):
        for line, sentences in OUTSIDE:
            run = settle_here(self.file("calls.txt", f"{NETWORK}{line}\n"))
            self.assertEqual(run.output, b"refused 5 at 56\n", line)
            self.assertEqual([told[2:] for told in run.said.splitlines()[2:] if told.startswith("  ")], sentences)

    def test_the_time_that_is_mistyped(self):
        for times, number, sentences in MISTYPED:
            text = f"{NETWORK}mark 0 A1 0\ninterruption 0 file MV own {times} 1\n"
            path = self.file("calls.txt", text)
            run = settle_here(path)
            self.assertEqual((run.status, run.output), (1, f"refused {number} at 62\n".encode()))
            explained = [f"  {number}: {MEANINGS[number]}", *(f"  {sentence}" for sentence in sentences)]
            self.assertEqual(run.said.splitlines()[1:], [*explained, f"{path}: {ALONE}"])
            # And where another line is refused before it.
            run = settle_here(self.file("calls.txt", f"join 16\n{text}"))
            self.assertIn(f": {number}: {' '.join(sentences)}\n", run.said)

    def test_the_order_of_the_numbers(self):
        # No such operator and a weight of 0 come before 14 and 15, and one that has not joined after them.
        for operator, weight, times, number in [
            (16, 1, "301 300", 4),
            (0, 0, "301 300", 5),
            (0, 0, "0 94608000", 5),
            (1, 1, "301 300", 14),
            (1, 1, "0 94608000", 15),
            (1, 1, "0 300", 7),
        ]:
            run = settle_here(self.file("calls.txt", f"{NETWORK}interruption {operator} file MV own {times} {weight}\n"))
            self.assertEqual(run.output, f"refused {number} at 56\n".encode())


CABINS_2017 = "  Only the cabins of 2017 are filed here, as was done before each year had its own. Add those of 2018 and 2019.\n"
GAS_HINT = "  If this is a gas filing, give --gas: a gas book takes no cabins.\n"
ALL_FOUR = ("cabins-2017", "cabins-2018", "cabins-2019", "access-points")


def network_of(operator, *words, value=5):
    """The lines that set these words of an operator."""
    return "".join(f"setting {operator} {word} {value}\n" for word in words)


class Lacking(InFolder):
    """What 11 says of each operator: which of the four it lacks, and nothing else."""

    def besides(self, text):
        """What stands under the meaning of 11."""
        path = self.file("calls.txt", text)
        run = settle_here(path)
        self.assertEqual((run.status, run.output), (1, b"refused 11\n"), text)
        start = f"{path}: the filing is read, and settling it is refused\n  11: {MEANINGS[11]}\n"
        self.assertTrue(run.said.startswith(start), run.said)
        return run.said[len(start) :]

    def test_each_of_the_four_alone(self):
        for lacking in ALL_FOUR:
            filed = network_of(3, *(word for word in ALL_FOUR if word != lacking))
            expected = f"  Missing, or 0, of operator 3: {lacking}.\n"
            for text in [f"join 3\n{filed}", f"join 3\n{filed}{network_of(3, lacking, value=0)}"]:
                self.assertEqual(self.besides(text), expected)
            # The latest value counts.
            self.assertEqual(self.besides(f"join 3\n{network_of(3, *ALL_FOUR)}{network_of(3, lacking, value=0)}"), expected)
            clear = "".join(f"mark 3 {indicator} 0\n" for indicator in ("A2", "D1"))
            self.assertEqual(self.besides(f"join 3\n{filed}{clear}rates 5000 10000\n"), expected)

    def test_income_is_not_among_them(self):
        text = f"join 3\n{network_of(3, *ALL_FOUR)}"
        self.assertEqual(settle_here(self.file("calls.txt", text)).output, b"refused 12\n")
        self.assertEqual(settle_here(self.file("calls.txt", f"{text}mark 3 D1 0\n")).status, 0)

    def test_those_that_lack_the_same_stand_together(self):
        joins = "".join(f"join {operator}\n" for operator in reversed(range(16)))
        every = "cabins-2017, cabins-2018, cabins-2019 and access-points"
        self.assertEqual(self.besides(joins), f"  Missing, or 0, of operators 0 to 15: {every}.\n{GAS_HINT}")
        whole = "".join(network_of(operator, *ALL_FOUR) for operator in (2, 5, 6, 9, 13))
        cabins = network_of(7, *ALL_FOUR[:3]) + network_of(0, *ALL_FOUR[:2]) + network_of(15, *ALL_FOUR[:3])
        self.assertEqual(
            self.besides(joins + whole + cabins),
            "  Missing, or 0, of operator 0: cabins-2019 and access-points.\n"
            f"  Missing, or 0, of operators 1, 3, 4, 8, 10 to 12 and 14: {every}.\n"
            "  Missing, or 0, of operators 7 and 15: access-points.\n",
        )

    def test_cabins_of_2017_alone(self):
        text = "join 0\njoin 1\nsetting 0 0 100\nsetting 0 1 1000\nsetting 1 0 100\nsetting 1 1 3000\n"
        missing = "  Missing, or 0, of operators 0 and 1: cabins-2018 and cabins-2019.\n"
        self.assertEqual(self.besides(text), missing + CABINS_2017)
        # Whoever has filed the cabins of another year knows of them.
        for word, value in [("cabins-2018", 100), ("cabins-2019", 100), ("cabins-2018", 0)]:
            self.assertNotIn("Only the cabins of 2017", self.besides(f"{text}setting 1 {word} {value}\n"))
        self.assertNotIn("Only the cabins of 2017", self.besides("join 0\nsetting 0 1 1000\n"))

    def test_a_course_filing_from_before_each_year_had_its_cabins(self):
        course = ROOT / "examples" / "course"
        fields = fields_of((course / "filing.q").read_bytes())
        data = b"".join(field.data for field in fields if not (field.data[0] == 2 and field.data[4] in (3, 4)))
        path = self.file("filing.q", data)
        run = settle(path)
        self.assertEqual((run.status, run.output), (1, b"refused 11\n"))
        self.assertEqual(
            run.said,
            f"{path}: the filing is read, and settling it is refused\n  11: {MEANINGS[11]}\n"
            "  Missing, or 0, of operators 0 to 15: cabins-2018 and cabins-2019.\n" + CABINS_2017,
        )
        # Its sheets need no cabins.
        self.assertEqual(settle("--sheet", 3, 2018, path), settle("--sheet", 3, 2018, course))
        # It is whole with two settings more of each operator.
        added = "".join(network_of(operator, "cabins-2018", "cabins-2019", value=4000) for operator in range(16))
        calls = self.file("calls.txt", settle("--show", path).output.decode() + added)
        self.assertEqual(settle("--quiet", calls).status, 0)


class WhatElse(InFolder):
    """After a refusal: what else would be refused, on a copy without the line."""

    def said_of(self, text):
        path = self.file("calls.txt", text)
        run = settle_here(path)
        self.assertEqual(run.status, 1)
        return [line.replace(f"{path}:", "") for line in run.said.splitlines() if not line.startswith("  ")]

    def test_nothing_else(self):
        self.assertEqual(self.said_of(f"{NETWORK}mark 0 A1 0\njoin 0\n"), ["7: refused: join 0", f" {ALONE}"])

    def test_lines_and_settling(self):
        said = self.said_of("join 0\njoin 0\n\nmark 1 A1 0\namount 0 2017 fees withdraw 5\nrates 20001 7\nsetting 0 cabins-2017 5\n")
        self.assertEqual(
            said,
            [
                "2: refused: join 0",
                "4: would be refused too: mark 1 A1 0: 7: This operator has not joined yet.",
                "5: would be refused too: amount 0 2017 fees withdraw 5: "
                "9: The figure would fall below 0: more is withdrawn than stands in it by then.",
                "6: would be refused too: rates 20001 7: 5: The pot is 20001: a rate is 0 to 20,000 millionths.",
                " then settling would be refused: 11: Missing, or 0, of operator 0: cabins-2018, cabins-2019 and access-points. "
                "Only the cabins of 2017 are filed here, as was done before each year had its own. Add those of 2018 and 2019.",
                " nothing is settled",
            ],
        )

    def test_what_the_refused_line_leaves_missing(self):
        said = self.said_of(f"{NETWORK}join 3\n".replace("cabins-2018 ", "cabins-2018 100001"))
        self.assertEqual(
            said[1:],
            [
                " then settling would be refused: 11: Missing, or 0, of operator 0: cabins-2018. "
                "Missing, or 0, of operator 3: cabins-2017, cabins-2018, cabins-2019 and access-points.",
                " nothing is settled",
            ],
        )

    def test_cabins_of_another_year_that_are_refused(self):
        said = self.said_of("join 0\nsetting 0 cabins-2017 5\nsetting 0 cabins-2018 100001\n")
        self.assertEqual(
            said[1:],
            [
                " then settling would be refused: 11: Missing, or 0, of operator 0: cabins-2018, cabins-2019 and access-points.",
                " nothing is settled",
            ],
        )

    def test_at_most_ten(self):
        said = self.said_of(NETWORK + "setting 5 cabins-2019 1\n" * 40)
        self.assertEqual(len(said), 12)
        self.assertEqual(said[10].split(":")[0], "16")
        self.assertEqual(said[11], " nothing is settled, and there may be more")

    def test_the_fields_of_a_filing_keep_their_places(self):
        data = bytes.fromhex("01 0001 00 01 0001 00 01 0001 00 01 0001 10 63 0000")
        run = settle(self.file("filing.q", data))
        self.assertIn("field 3 at byte 8: would be refused too: join 0: 6: ", run.said)
        self.assertIn("field 4 at byte 12: would be refused too: join 16: 4: ", run.said)
        self.assertIn("field 5 at byte 16: would be refused too: the bytes 63 00 00: 2: ", run.said)
        self.assertTrue(run.said.endswith("nothing is settled; what follows these bytes cannot be read\n"))
        self.assertEqual(run.output, b"refused 6 at 4\n")


class Meanings(unittest.TestCase):
    def test_every_number_of_the_table_has_one(self):
        self.assertEqual(list(MEANINGS), list(range(1, 16)))
        self.assertEqual(len(set(MEANINGS.values())), 15)
