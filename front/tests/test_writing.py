"""--write with the proved writer, where the tree has it: the book comes out as a filing that settles alike."""

import unittest
from itertools import product

from front.calls import FIGURES, YEARS
from front.tests.common import EXERCISE, ROOT, InFolder, settle, settle_here

MISSING = "this tree has no crates/rewrite yet"
MOST_WRITTEN = 11_083


@unittest.skipUnless((ROOT / "crates" / "rewrite").is_dir(), MISSING)
class Writer(InFolder):
    def test_a_written_book_settles_alike_and_is_written_alike(self):
        once, twice = self.folder / "once.q", self.folder / "twice.q"
        examples = [ROOT / "examples" / name for name in ("case-m", "course", "growing")]
        for path in [*examples, EXERCISE / "words", EXERCISE / "csv"]:
            self.assertEqual(settle("--write", once, path), (0, b"", ""))
            self.assertEqual(settle_here("--write", twice, once), (0, b"", ""))
            self.assertEqual(once.read_bytes(), twice.read_bytes())
            self.assertLessEqual(len(once.read_bytes()), MOST_WRITTEN)
            self.assertEqual(settle_here("--quiet", once), settle_here("--quiet", path))
            self.assertEqual(settle_here("--write", "-", path).output, once.read_bytes())

    def test_withdrawn_entries_are_gone(self):
        twins = "".join(f"interruption 3 {sign} MV planned 0 300 5\n" for sign in ("file", "withdraw"))
        path = self.file("calls.txt", f"join 3\namount 3 2018 fees file 9\namount 3 2018 fees withdraw 9\n{twins}rates 0 7\n")
        self.assertEqual(settle("--write", self.folder / "out.q", path).status, 0)
        shown = settle("--show", self.folder / "out.q").output.decode()
        self.assertEqual([line.split("#")[0].strip() for line in shown.splitlines()], ["join 3", "rates 0 7"])

    def test_counts_are_written_as_amounts(self):
        calls = ["join 3", "interruption 3 file MV own 0 300 5", "interruption 3 file LV own 0 180 1", "amount 3 2018 count-planned file 7"]
        written = settle_here("--write", "-", self.file("calls.txt", "\n".join([*calls, calls[2]]))).output
        shown = settle_here("--show", self.file("written.q", written)).output.decode().splitlines()
        amounts = ["2017 mv-weight file 5", "2017 mv-seconds file 1500", "2017 count-counted file 1", "2017 count-short file 2"]
        self.assertEqual(shown, ["join 3", *(f"amount 3 {amount}" for amount in amounts), calls[3].strip()])

    def test_a_full_book_in_the_order_of_the_numbers(self):
        """A value of its own at every place: the settings of an operator come by number, so the cabins do not stand together."""
        operators = range(16)
        settings = ("cabins-2017", "access-points", "income", "cabins-2018", "cabins-2019")
        joins = [f"join {operator}" for operator in operators]
        places = [
            *(f"setting {operator} {word}" for operator, word in product(operators, settings)),
            *(f"amount {operator} {year} {figure} file" for operator, year, figure in product(operators, YEARS, FIGURES)),
        ]
        rest = [
            *(f"{place} {value}" for value, place in enumerate(places, start=1)),
            *(f"mark {operator} {indicator} 0" for operator, indicator in product(operators, ("A1", "A2", "A3", "A4", "D1", "D2"))),
            *(f"index june-{year} 7" for year in (2016, 2017, 2018, 2013)),
            "rates 1 2",
        ]
        written = settle_here("--write", "-", self.file("calls.txt", "\n".join([*joins, *reversed(rest)])))
        self.assertEqual((written.status, len(written.output)), (0, MOST_WRITTEN))
        self.assertEqual(settle_here("--show", self.file("written.q", written.output)).output.decode().splitlines(), joins + rest)

    def test_an_empty_book(self):
        out = self.folder / "out.q"
        self.assertEqual(settle("--write", out, self.file("calls.txt", "# nothing\n")), (0, b"", ""))
        self.assertEqual(out.read_bytes(), b"")

    def test_a_refused_filing_is_not_written(self):
        out = self.file("out.q", b"kept")
        run = settle("--write", out, self.file("calls.txt", "join 0\njoin 0\n"))
        self.assertEqual((run.status, run.output, out.read_bytes()), (1, b"", b"kept"))
        self.assertIn("calls.txt:2: refused: join 0", run.said)
        run = settle("--write", out, self.file("calls.txt", "rates 1 1\n" * 6000))
        self.assertEqual((run.status, run.output, out.read_bytes()), (1, b"", b"kept"))
