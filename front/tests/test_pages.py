"""The pages for staff say what the programs and the front do."""

import re

from front import csv_calls, words
from front.calls import KINDS
from front.kinds import KINDS_OF_BOOK
from front.meanings import MEANINGS, UNJOINED_SHEET, meanings_of
from front.sources import source_of
from front.tests.common import ROOT, InFolder, settle

PAGES = ("README.md", "docs/FILING.md")
BLOCK = re.compile(r"^```(\w+)\n(.*?)^```$", re.MULTILINE | re.DOTALL)


def page(name):
    return (ROOT / name).read_text(encoding="utf-8")


def followed(text, kind, then):
    """The blocks of a kind that a block of another kind follows, both."""
    blocks = BLOCK.findall(text)
    return [(one, other) for (first, one), (second, other) in zip(blocks, blocks[1:]) if (first, second) == (kind, then)]


class Pages(InFolder):
    def test_the_exercises_of_the_pages_print_what_the_pages_say(self):
        for name in PAGES:
            shown = followed(page(name), "calls", "printed")
            self.assertTrue(shown, name)
            for calls, printed in shown:
                self.assertEqual(settle(self.file("exercise.txt", calls)), (0, printed.encode(), ""))

    def test_the_gas_book_of_the_page(self):
        text = page("docs/FILING.md")
        ((calls, printed),) = followed(text, "gas", "printed")
        path = self.file("exercise.txt", calls)
        self.assertEqual(settle("--gas", path), (0, printed.encode(), ""))
        # Without the option, and with cabins, in words and in bytes.
        self.assertIn(f"\n  {settle(path).said.splitlines()[-1]}\n", text)
        self.file("exercise.txt", calls.replace("join 1\n", "join 1\nsetting 0 cabins-2017 100\n"))
        settle("--encode", "old.q", "exercise.txt", cwd=self.folder)
        for name in ("exercise.txt", "old.q"):
            run = settle("--gas", name, cwd=self.folder)
            for line in (run.output.decode() + run.said).splitlines()[:5]:
                self.assertIn(f"    {line}\n", text)

    def test_the_sheet_of_the_page(self):
        text = page("docs/FILING.md")
        shown = followed(text, "calls", "sheet")
        asked = re.findall(r"^`\./settle (--sheet [0-9]+ [0-9]+) exercise\.txt` prints:$", text, re.MULTILINE)
        self.assertEqual((len(shown), len(asked)), (1, 1))
        (calls, printed), words_asked = shown[0], asked[0].split()
        self.assertEqual(settle(*words_asked, self.file("exercise.txt", calls)), (0, printed.encode(), ""))
        # What becomes of it makes the difference, and the amount.
        for line in calls.splitlines():
            run = settle(*words_asked, self.file("other.txt", calls.replace(f"{line}\n", "")))
            self.assertEqual(run.output == printed.encode(), "not on the sheet" in line, line)

    def test_the_refusal_of_a_sheet_stands_there(self):
        self.assertIn(f"\n    7: {UNJOINED_SHEET}\n", page("docs/FILING.md"))

    def test_the_mistyped_dates_of_the_page(self):
        text = page("docs/FILING.md")
        shown = re.findall(r"^    (exercise\.txt:6: refused: (interruption .*)\n      (1[45]): .*\n      .*\n)", text, re.MULTILINE)
        self.assertEqual([number for _, _, number in shown], ["14", "15"])
        for block, line, number in shown:
            for first in ("join 0\n", "join 1\n"):
                self.file("exercise.txt", f"{first}rates 1 1\n\n\n\n{line}\n")
                run = settle("exercise.txt", cwd=self.folder)
                self.assertEqual(run.output, f"refused {number} at 15\n".encode())
                self.assertEqual("".join(f"{told}\n" for told in run.said.splitlines()[:3]), block.replace("\n      ", "\n  "))
        # One of no length is left out as short.
        calls = self.file("exercise.txt", "join 0\ninterruption 0 file MV own 300 300 1\n")
        self.assertIn(b"left out: short", settle("--show", calls).output)

    def test_the_order_of_the_numbers_is_the_definitions(self):
        definition = (ROOT / "crates" / "calls" / "specs" / "Laws.antt").read_text(encoding="utf-8")
        ((numbers),) = re.findall(r"^order = ([0-9 ∷]+) ∷ \[\]$", definition, re.MULTILINE)
        told = re.search(r"the first in\s+this order is given: ([0-9, ]+)\.", page("docs/FILING.md"))[1]
        self.assertEqual(told.split(", "), numbers.split(" ∷ "))
        self.assertEqual(sorted(map(int, told.split(", "))), list(MEANINGS))

    def test_the_table_of_the_page_is_read(self):
        tables = [text for kind, text in BLOCK.findall(page("docs/FILING.md")) if kind == "csv"]
        self.assertEqual([csv_calls.read(table)[1] for table in tables], [[]])

    def test_every_meaning_stands_there(self):
        for book_kind in KINDS_OF_BOOK:
            for number, meaning in meanings_of(book_kind).items():
                self.assertIn(f"| {number} | {meaning} |\n", page("docs/FILING.md"))

    def test_every_word_stands_there_with_its_number(self):
        for kind in KINDS:
            for place in kind.places:
                for number, word in enumerate(place.words):
                    self.assertIn(f"`{word}` {number}", page("docs/FILING.md"))

    def test_the_calls_and_bytes_of_the_tables(self):
        text = page("docs/FILING.md")
        for kind in KINDS:
            names = " ".join(place.name for place in kind.places)
            self.assertIn(f"`{kind.name} {names.upper()}`", text)
            content = ", ".join(f"{place.name} {place.bits // 8}" for place in kind.places)
            self.assertIn(f"| {kind.tag} | {kind.name} | {kind.length} | {content} |", text)
            columns = ", ".join(f"`{place.name}`" for place in kind.places)
            self.assertIn(f"| `{kind.name}` | `call`, {columns} |", text)

    def test_the_examples_of_the_calls(self):
        examples = re.findall(r"^\| `[a-z]+ [A-Z ]+` \| .* \| `(.*)` \|$", page("docs/FILING.md"), re.MULTILINE)
        self.assertEqual(len(examples), len(KINDS))
        self.assertEqual(words.read("\n".join(examples))[1], [])
        # Each is taken where the operators have joined.
        joins = "".join(f"join {operator}\n" for operator in range(16) if f"join {operator}" not in examples)
        run = settle("--write", "-", self.file("calls.txt", joins + "\n".join(examples)))
        self.assertEqual((run.status, run.said), (0, ""))

    def test_a_filing_with_the_cabins_of_2017_alone(self):
        text = page("docs/FILING.md")
        calls = next(block for kind, block in BLOCK.findall(text) if kind == "calls")
        old = re.sub("setting .* cabins-201[89] .*\n", "", calls)
        self.file("exercise.txt", old.replace("0 cabins-2017 100", "0 cabins 100"))
        self.assertIn(f"    {settle('exercise.txt', cwd=self.folder).said.splitlines()[0]}\n", text)
        # The page shows the same of sixteen operators.
        run = settle(self.file("exercise.txt", old))
        self.assertEqual(run.output, b"refused 11\n")
        for line in run.said.splitlines()[2:]:
            self.assertIn(f"  {line}\n".replace("operators 0 and 1:", "operators 0 to 15:"), text)
        added = re.search(r"as in `(setting 0 cabins-2018 \d+)` and\s`(setting 0 cabins-2019 \d+)`", text).groups()
        for operator in ("0", "1"):
            old += "".join(f"{line.replace(' 0 ', f' {operator} ')}\n" for line in added)
        self.assertEqual(settle(self.file("exercise.txt", old)).status, 0)

    def test_the_cabins_of_the_growing_example(self):
        text = " ".join(page("docs/FILING.md").split())
        calls = [field.call for field in source_of(ROOT / "examples" / "growing").fields()]
        values = {(call.kind.name, *call.values[:-1]): call.values[-1] for call in calls}
        cabins, weights = [values["setting", 0, which] for which in (0, 3, 4)], [values["amount", 0, year, 0, 0] for year in range(3)]
        yearly = [1_000_000 * weight // number for weight, number in zip(weights, cabins)]
        self.assertIn("operator 0 has {}, {} and {} cabins, and an `mv-weight` of {}, {} and {}. ".format(*cabins, *weights), text)
        self.assertIn("Its values at A1 are {:,}, {:,} and {:,}, so *s* = {:,}.".format(*yearly, sum(yearly)), text)

    def test_case_m_with_other_calls(self):
        text = page("docs/FILING.md")
        calls = next(block for kind, block in BLOCK.findall(text) if kind == "calls")
        by_hand = " ".join(text.partition("## Case M by hand\n")[2].partition("\n## ")[0].split())
        fees = "amount 0 2018 fees file 100"
        for more, told in [
            (["rates 5000 50"], "the adjustments are {2:,} and {3:,}."),
            (
                ["setting 0 income 100000400"],
                "the contributions are {4:,} and {5:,}. The returns are {6:,} and {7:,}, and the adjustments are {2:,} and {3:,}.",
            ),
            ([fees], "All points are {0:,} and {1:,}, and the adjustments are {2:,} and {3:,}."),
            ([fees, "index june-2017 12500"], "All points are {0:,} and {1:,}, and the adjustments are {2:,} and {3:,}."),
        ]:
            run = settle("--quiet", self.file("exercise.txt", calls + "\n".join(more)))
            rows = [row.split() for row in run.output.decode().splitlines()[1:3]]
            numbers = [int(row[column]) for column in (1, -1, 2, 3) for row in rows]
            variation = by_hand.partition(f" With `{more[-1]}` ")[2].partition(" With `")[0]
            self.assertIn(told.format(*numbers), variation)

    def test_the_mistakes_that_the_page_shows(self):
        text = page("docs/FILING.md")
        calls = next(block for kind, block in BLOCK.findall(text) if kind == "calls")
        for right, wrong in [("file 50000", "file 5o000"), ("amount 1 2017 fees", "amount 2 2017 fees")]:
            self.file("exercise.txt", calls.replace(right, wrong))
            run = settle("exercise.txt", cwd=self.folder)
            for line in (run.output.decode() + run.said).splitlines():
                self.assertIn(f"    {line}\n", text)
