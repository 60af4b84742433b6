"""--compare: how two books differ, in words; and --table: the settlement as CSV."""

import csv
import os

from front.tests.common import EXERCISE, ROOT, InFolder, settle, settle_here

CASE_M = ROOT / "examples" / "case-m"
CALLS = (CASE_M / "calls.txt").read_text(encoding="utf-8")

# A line more, and how the book then differs from that of case M.
MORE = [
    ("amount 1 2017 fees file 7", ["operator 1, 2017, fees: 50000 here, 50007 there"]),
    ("amount 0 2019 connections file 7", ["operator 0, 2019, connections: 0 here, 7 there"]),
    ("setting 1 access-points 2000", ["operator 1, access-points: 3000 here, 2000 there"]),
    ("setting 0 cabins-2017 0", ["operator 0, cabins-2017: 100 here, 0 there"]),
    ("setting 0 cabins-2018 101", ["operator 0, cabins-2018: 100 here, 101 there"]),
    ("setting 1 cabins-2019 99", ["operator 1, cabins-2019: 100 here, 99 there"]),
    ("mark 1 D2 1", ["operator 1, mark at D2: cleared here, set there"]),
    ("rates 5001 10000", ["pot rate: 5000 here, 5001 there"]),
    ("rates 0 0", ["pot rate: 5000 here, 0 there", "cap rate: 10000 here, 0 there"]),
    ("index june-2018 10250", ["index june-2018: 10000 here, 10250 there"]),
    ("join 7", ["operator 7: not joined here, joined there"]),
    (
        "join 7\nsetting 7 cabins-2019 5\nmark 7 A1 0",
        ["operator 7: not joined here, joined there", "operator 7, cabins-2019: 0 here, 5 there"],
    ),
    (
        "interruption 0 file MV own 2017-12-31T23:00 2018-01-01T01:00 4",
        [
            "operator 0, 2018, mv-weight: 0 here, 4 there",
            "operator 0, 2018, mv-seconds: 0 here, 28800 there",
            "operator 0, 2018, count-counted: 0 here, 1 there",
        ],
    ),
    ("interruption 0 file MV planned 2017-12-31T23:00 2018-01-01T01:00 4", ["operator 0, 2018, count-planned: 0 here, 1 there"]),
    ("interruption 0 file LV coupled 0 180 1", ["operator 0, 2017, count-short: 0 here, 1 there"]),
    ("interruption 0 file LV coupled 0 181 1", ["operator 0, 2017, count-coupled: 0 here, 1 there"]),
    ("interruption 0 file LV exceptional 0 181 1\n" * 2, ["operator 0, 2017, count-exceptional: 0 here, 2 there"]),
    ("amount 0 2019 count-short file 7", ["operator 0, 2019, count-short: 0 here, 7 there"]),
    (
        "interruption 0 file MV planned 2019-03-01T08:00 2019-03-01T09:00 4\namount 0 2019 count-planned withdraw 1",
        ["the books are the same"],
    ),
    (
        "interruption 0 file MV planned 2019-03-01T08:00 2019-03-01T09:00 4\n"
        "interruption 0 withdraw LV planned 2019-05-01T08:00 2019-05-01T10:00 1",
        ["the books are the same"],
    ),
    ("amount 1 2017 fees file 7\namount 1 2017 fees withdraw 7", ["the books are the same"]),
]


class Compared(InFolder):
    def test_value_by_value(self):
        for more, lines in MORE:
            path = self.file("there.txt", f"{CALLS}{more}\n")
            run = settle_here("--compare", CASE_M, path)
            same = lines == ["the books are the same"]
            self.assertEqual((run.status, run.said), (0 if same else 1, ""), more)
            self.assertEqual(run.output.decode().splitlines(), [f"# here: {CASE_M}/filing.q, there: {path}", *lines])

    def test_the_other_way_round_and_the_order_of_values(self):
        settings = "setting 0 cabins-2018 7\nsetting 0 income 1\n"
        more = f"join 15\nrates 7 8\nindex june-2013 9\nmark 0 A2 1\namount 0 2017 fees file 1\n{settings}"
        path = self.file("there.txt", f"{CALLS}{more}")
        lines = [
            ("operator 15", "not joined", "joined"),
            ("operator 0, income", "100000000", "1"),
            ("operator 0, cabins-2018", "100", "7"),
            ("operator 0, 2017, fees", "0", "1"),
            ("operator 0, mark at A2", "cleared", "set"),
            ("index june-2013", "10000", "9"),
            ("pot rate", "5000", "7"),
            ("cap rate", "10000", "8"),
        ]
        there = settle("--compare", CASE_M, path).output.decode().splitlines()[1:]
        self.assertEqual(there, [f"{what}: {first} here, {second} there" for what, first, second in lines])
        here = settle("--compare", path, CASE_M).output.decode().splitlines()[1:]
        self.assertEqual(here, [f"{what}: {second} here, {first} there" for what, first, second in lines])

    def test_the_same_book_by_other_calls(self):
        for there in [EXERCISE / "csv", EXERCISE / "bytes"]:
            run = settle("--compare", EXERCISE / "words", there)
            self.assertEqual((run.status, run.said), (0, ""))
            self.assertIn(b"\nthe books are the same\n", run.output)
        self.assertEqual(settle("--compare", CASE_M, "-", input=CALLS.encode()).status, 0)

    def test_what_cannot_be_compared(self):
        refused = self.file("refused.txt", "join 0\njoin 0\n")
        for paths, said in [
            ((CASE_M, refused), f"{refused}:2: refused: join 0"),
            ((refused, CASE_M), f"{refused}:2: refused: join 0"),
            ((CASE_M, self.folder / "missing"), "missing: No such file or directory"),
            ((CASE_M, self.file("wrong.txt", "jion 0")), "wrong.txt:1: 'jion'"),
        ]:
            run = settle("--compare", *paths)
            self.assertEqual((run.status, run.output), (2, b""))
            self.assertIn(said, run.said)
        for paths in [(), (CASE_M,), (CASE_M, CASE_M, CASE_M), ("-", "-")]:
            run = settle("--compare", *paths)
            self.assertEqual((run.status, run.output), (2, b""))
            self.assertIn("usage: settle", run.said)


class Table(InFolder):
    def test_the_same_numbers(self):
        printed = [line.split() for line in settle("--quiet", EXERCISE / "words").output.decode().splitlines()]
        for option, separator in [("--table", ","), ("--table=excel", ";")]:
            run = settle(option, "--quiet", EXERCISE / "words")
            self.assertEqual((run.status, run.said), (0, ""))
            self.assertEqual([line.split(separator) for line in run.output.decode().splitlines()], printed[:-1])
        self.assertEqual(printed[-1][0], "all")

    def test_the_order_of_words_and_other_values(self):
        self.assertEqual(settle(CASE_M, "--table").output, settle("--table", CASE_M).output)
        for asked in [["--table=words", CASE_M], ["--table"], ["--table", "--show", CASE_M], ["--offsets", CASE_M]]:
            self.assertEqual(settle(*asked).status, 2, asked)

    def test_many_are_one_table(self):
        odd = self.file("a;b, c.txt", CALLS)
        refused = self.file("refused.txt", "join 0\njoin 0\n")
        run = settle("--table", CASE_M, refused, odd, self.folder / "missing")
        self.assertEqual(run.status, 2)
        rows = list(csv.reader(run.output.decode().splitlines()))
        self.assertEqual(rows[0], ["path", "operator", "points", "out", "in", "adjustment"])
        self.assertEqual([row[:2] for row in rows[1:]], [[str(CASE_M), "0"], [str(CASE_M), "1"], [str(odd), "0"], [str(odd), "1"]])
        self.assertIn("refused 6 at 4\n", run.said)
        self.assertIn(f"# {refused}: refused 6 at 4\n", run.said)

    def test_a_refusal_is_no_row(self):
        run = settle("--table", self.file("refused.txt", "join 0\n"))
        self.assertEqual((run.status, run.output), (1, b""))
        self.assertIn("refused 11\n", run.said)

    def test_a_name_that_is_no_text(self):
        name = os.path.join(os.fsencode(self.folder), b"\xff.q")
        with open(name, "wb") as file:
            file.write((CASE_M / "filing.q").read_bytes())
        run = settle("--table", os.fsdecode(name), CASE_M)
        self.assertEqual(run.status, 0)
        self.assertIn(name + b",0,65036", run.output)
        self.assertEqual(settle("--compare", os.fsdecode(name), CASE_M).status, 0)
