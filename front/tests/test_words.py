"""The text form: what is taken, and every error of it."""

from front import filing, times, words
from front.tests.common import InFolder, settle, settle_here


def numbers(text):
    """The calls of a text as numbers; it must have no problem."""
    rows, problems = words.read(words.decoded(text if isinstance(text, bytes) else text.encode()))
    assert not problems, problems
    return [(row.call.kind.name, *row.call.values) for row in rows]


def words_again(text):
    """A line as it is shown again: its seconds as clock times."""
    for seconds, clock in [(" -5 181", " 2016-12-31T23:59:55 181"), (" 0 181", " 2017-01-01T00:00 181"), (" 181", " 2017-01-01T00:03:01")]:
        text = text.replace(seconds, clock)
    return text


class Taken(InFolder):
    def test_every_word_has_its_number(self):
        for text, call in [
            ("join 3", ("join", 3)),
            ("setting 0 cabins-2017 100", ("setting", 0, 0, 100)),
            ("setting 0 access-points 100", ("setting", 0, 1, 100)),
            ("setting 0 income 100", ("setting", 0, 2, 100)),
            ("setting 0 cabins-2018 100", ("setting", 0, 3, 100)),
            ("setting 0 cabins-2019 100", ("setting", 0, 4, 100)),
            ("amount 1 2017 mv-weight file 5", ("amount", 1, 0, 0, 0, 5)),
            ("amount 1 2018 mv-seconds withdraw 5", ("amount", 1, 1, 1, 1, 5)),
            ("amount 1 2019 lv-weight file 5", ("amount", 1, 2, 2, 0, 5)),
            ("amount 1 2017 lv-seconds file 5", ("amount", 1, 0, 3, 0, 5)),
            ("amount 1 2018 fees file 50000", ("amount", 1, 1, 4, 0, 50000)),
            ("amount 1 2017 connections file 5", ("amount", 1, 0, 5, 0, 5)),
            ("amount 1 2017 reconnection-fees file 5", ("amount", 1, 0, 6, 0, 5)),
            ("amount 1 2017 reconnections file 5", ("amount", 1, 0, 7, 0, 5)),
            ("amount 1 2017 count-counted file 5", ("amount", 1, 0, 8, 0, 5)),
            ("amount 1 2018 count-short withdraw 5", ("amount", 1, 1, 9, 1, 5)),
            ("amount 1 2019 count-planned file 5", ("amount", 1, 2, 10, 0, 5)),
            ("amount 1 2017 count-coupled file 5", ("amount", 1, 0, 11, 0, 5)),
            ("amount 1 2017 count-exceptional file 5", ("amount", 1, 0, 12, 0, 5)),
            ("mark 2 A1 1", ("mark", 2, 0, 1)),
            ("mark 2 A2 1", ("mark", 2, 1, 1)),
            ("mark 2 A3 1", ("mark", 2, 2, 1)),
            ("mark 2 A4 1", ("mark", 2, 3, 1)),
            ("mark 2 D1 1", ("mark", 2, 4, 1)),
            ("mark 2 D2 0", ("mark", 2, 5, 0)),
            ("rates 5000 10000", ("rates", 5000, 10000)),
            ("index june-2016 10250", ("index", 0, 10250)),
            ("index june-2017 10250", ("index", 1, 10250)),
            ("index june-2018 10250", ("index", 2, 10250)),
            ("index june-2013 10250", ("index", 3, 10250)),
            ("interruption 3 file MV own 0 181 1", ("interruption", 3, 0, 0, 0, 0, 181, 1)),
            ("interruption 3 file LV planned 0 181 1", ("interruption", 3, 0, 1, 1, 0, 181, 1)),
            ("interruption 3 withdraw LV coupled 0 181 1", ("interruption", 3, 1, 1, 2, 0, 181, 1)),
            ("interruption 3 file LV exceptional 0 181 1", ("interruption", 3, 0, 1, 3, 0, 181, 1)),
            ("interruption 3 file LV unattested -5 181 1", ("interruption", 3, 0, 1, 4, -5, 181, 1)),
        ]:
            self.assertEqual(numbers(text), [call], text)
            self.assertEqual(words.line_of(words.read(text)[0][0].call), words_again(text), text)

    def test_numbers_stay_good_and_case_does_not_matter(self):
        self.assertEqual(numbers("amount 1 1 4 0 007"), numbers("Amount 1 2018 FEES File 7"))
        self.assertEqual(numbers("amount 1 2 10 1 7"), numbers("amount 1 2019 Count-Planned withdraw 7"))
        self.assertEqual(numbers("setting 3 4 7\nsetting 3 0 8"), numbers("setting 3 CABINS-2019 7\nsetting 3 Cabins-2017 8"))
        self.assertEqual(numbers("mark 2 0 1"), numbers("mark 2 a1 1"))
        self.assertEqual(numbers("interruption 3 1 0 1 0 181 1"), numbers("interruption 3 withdraw mv planned 0 181 1"))

    def test_times(self):
        text = "interruption 3 withdraw MV planned 2017-03-04T10:00 2017-03-04T12:30 120"
        self.assertEqual(numbers(text), [("interruption", 3, 1, 0, 1, 5392800, 5401800, 120)])
        for clock, seconds in [
            ("2017-01-01T00:00", 0),
            ("2017-01-01T00:00:01", 1),
            ("2016-12-31T23:59:59", -1),
            ("2016-01-02T00:00", -31536000),
            ("2018-01-01T00:00", 31536000),
            ("2019-12-31T23:59:59", 94607999),
            ("2020-01-01T00:00", 94608000),
            ("2017-07-01T00:00", 181 * 86400),
        ]:
            self.assertEqual(times.seconds_of(clock), seconds)
            self.assertEqual(times.clock_of(seconds), clock)

    def test_times_as_spreadsheets_write_them(self):
        expected = numbers("interruption 3 file MV own 2017-01-14T08:10 2017-02-05T17:05:30 120")
        for start, end in [
            ("14/01/2017 08:10", "05/02/2017 17:05:30"),
            ("14/1/2017 8:10", "5/2/2017 17:05:30"),
            ("2017-01-14 08:10", "2017-02-05  17:05:30"),
            ("2017-01-14\t8:10", "2017-02-05T17:05:30"),
            ("14/01/2017 08:10", "3085530"),
        ]:
            self.assertEqual(numbers(f"interruption 3 file MV own {start} {end} 120"), expected, start)

    def test_blanks_comments_line_ends_and_byte_order_marks(self):
        expected = [("join", 0), ("rates", 1, 2), ("join", 1)]
        for text in [
            "join 0\nrates 1 2\njoin 1",
            "# first\n\n  join\t0 # second\n \t \nrates  1 2#third\n\n#\njoin 1\n",
            "join 0\r\nrates 1 2\r\njoin 1\r\n",
            "join 0\rrates 1 2\rjoin 1\r",
            "join\u00a00\nrates 1 2\njoin 1",
            b"\xef\xbb\xbfjoin 0\nrates 1 2\njoin 1",
            "join 0\nrates 1 2\njoin 1".encode("utf-16"),
            b"# caf\xe9\njoin 0\nrates 1 2 # \xff\njoin 1",
        ]:
            self.assertEqual(numbers(text), expected, text)
        self.assertEqual(numbers(""), [])

    def test_what_fits_its_bytes_is_passed_on(self):
        for text, printed in [
            ("join 255", b"refused 4 at 0\n"),
            ("join 0\nmark 0 6 1", b"refused 5 at 4\n"),
            ("join 0\namount 0 3 fees file 1", b"refused 5 at 4\n"),
            ("join 0\namount 0 0 13 file 1", b"refused 5 at 4\n"),
            ("join 0\nsetting 0 cabins-2018 18446744073709551615", b"refused 5 at 4\n"),
            ("join 0\nsetting 0 5 1", b"refused 5 at 4\n"),
            ("join 0\ninterruption 0 file MV own 2015-12-31T00:00 2017-01-01T00:00 1", b"refused 15 at 4\n"),
            ("join 0\ninterruption 0 file MV own 2017-01-02T00:00 2017-01-01T00:00 1", b"refused 14 at 4\n"),
            ("join 0\ninterruption 0 file MV own -9223372036854775808 9223372036854775807 4294967295", b"refused 5 at 4\n"),
            ("join 0\ninterruption 0 file MV own -9223372036854775808 9223372036854775807 1", b"refused 15 at 4\n"),
            ("join 0\ninterruption 0 file MV own 9223372036854775807 -9223372036854775808 1", b"refused 14 at 4\n"),
            ("rates 4294967295 0", b"refused 5 at 0\n"),
        ]:
            run = settle_here(self.file("calls.txt", text))
            self.assertEqual((run.status, run.output), (1, printed), text)


AMOUNT = "an amount up to 100000000000, fees in cents, as a whole number in digits alone (value of amount)"
SIGN = "a sign: file, withdraw, or a number 0 to 1 (sign of amount)"
FIGURES = (
    "mv-weight, mv-seconds, lv-weight, lv-seconds, fees, connections, reconnection-fees, reconnections, "
    "count-counted, count-short, count-planned, count-coupled, count-exceptional"
)

SETTING = "a setting: cabins-2017, access-points, income, cabins-2018, cabins-2019, or a number 0 to 4 (setting of setting)"
EACH_YEAR = "cabins-2017, cabins-2018 or cabins-2019: each year has its own cabins (setting of setting)"

# A line, and the word and what is expected of each of its errors.
ERRORS = [
    ("amuont 1 2018 fees file 50000", [("amuont", "a call: join, setting, interruption, amount, mark, rates, index")]),
    ("settle", [("settle", "a call: join, setting, interruption, amount, mark, rates, index")]),
    ("join", [("join", "1 word after join (operator), found 0")]),
    ("join 1 2", [("join 1 2", "1 word after join (operator), found 2")]),
    ("amount 1 2018 fees 5", [("amount 1 2018 fees 5", "5 words after amount (operator year figure sign value), found 4")]),
    ("rates 5000 # 10000", [("rates 5000", "2 words after rates (pot cap), found 1")]),
    ("join 256", [("256", "an operator, 0 to 15, as a whole number in digits alone (operator of join)")]),
    ("join -1", [("-1", "an operator, 0 to 15, as a whole number in digits alone (operator of join)")]),
    ("amount 1 2018 fees file 5o000", [("5o000", AMOUNT)]),
    ("amount 1 2018 fees file 50,000", [("50,000", AMOUNT)]),
    ("amount 1 2018 fees file 500.00", [("500.00", AMOUNT)]),
    ("amount 1 2018 fees file +5", [("+5", AMOUNT)]),
    ("amount 1 2018 fees file -5", [("-5", AMOUNT)]),
    ("amount 1 2018 fees file \u0665", [("\u0665", AMOUNT)]),
    ("amount 1 2018 fees file 18446744073709551616", [("18446744073709551616", AMOUNT)]),
    ("amount 1 2018 fees file " + "9" * 5000, [("9" * 60 + "..", AMOUNT)]),
    ("amount 1 2018 fees put 5", [("put", SIGN)]),
    ("amount 1 2018 fees 256 5", [("256", SIGN)]),
    ("amount 1 2020 fees file 5", [("2020", "a year: 2017, 2018, 2019, or a number 0 to 2 (year of amount)")]),
    (
        "amount 1 2018 fee file 5",
        [
            (
                "fee",
                f"a figure: {FIGURES}, or a number 0 to 12 (figure of amount)",
            )
        ],
    ),
    ("amount 1 2018 planned file 5", [("planned", f"a figure: {FIGURES}, or a number 0 to 12 (figure of amount)")]),
    ("amount 1 2018 256 file 5", [("256", f"a figure: {FIGURES}, or a number 0 to 12 (figure of amount)")]),
    (
        "interruption 0 file MV count-planned 0 181 1",
        [
            (
                "count-planned",
                "a cause: own, planned, coupled, exceptional, unattested, or a number 0 to 4 (cause of interruption)",
            )
        ],
    ),
    ("setting 0 cabin 5", [("cabin", SETTING)]),
    ("setting 0 cabins-2020 5", [("cabins-2020", SETTING)]),
    ("setting 0 cabins2018 5", [("cabins2018", SETTING)]),
    ("setting 0 256 5", [("256", SETTING)]),
    ("setting 0 cabins 5", [("cabins", EACH_YEAR)]),
    ("setting 0 Cabins 5", [("Cabins", EACH_YEAR)]),
    ("setting 0 CABINS 5", [("CABINS", EACH_YEAR)]),
    (
        "setting 0 cabins-2017 many",
        [
            (
                "many",
                "cabins up to 100000, access points up to 4000000, or income in cents up to 100000000000, "
                "as a whole number in digits alone (value of setting)",
            )
        ],
    ),
    ("mark 2 A5 1", [("A5", "an indicator: A1, A2, A3, A4, D1, D2, or a number 0 to 5 (indicator of mark)")]),
    ("mark 2 A1 yes", [("yes", "a mark, 1 (unreliable) or 0, as a whole number in digits alone (mark of mark)")]),
    ("rates 0.5 1", [("0.5", "the pot rate, up to 20000 millionths, as a whole number in digits alone (pot of rates)")]),
    ("rates 1 4294967296", [("4294967296", "the cap rate, up to 20000 millionths, as a whole number in digits alone (cap of rates)")]),
    ("index june-2019 1", [("june-2019", "an index: june-2016, june-2017, june-2018, june-2013, or a number 0 to 3 (index of index)")]),
    ("index 0 102.5", [("102.5", "the index in hundredths, 1 to 100000, as a whole number in digits alone (value of index)")]),
]

TIME = "a time that exists, as 2017-03-14T10:00, 2017-03-14 10:00:30 or 14/03/2017 10:00, or seconds from the start of 2017"
NO_TIMES = [
    "2017-02-30T10:00",
    "2017-03-04T24:00",
    "2017-03-04T10:60",
    "2017-12-31T23:59:60",
    "2017-03-04",
    "10:00",
    "2017-3-4T10:00",
    "2017-03-04T10",
    "14/13/2017T10:00",
    "03/14/2017T10:00",
    "14-03-2017T10:00",
    "2017-03-04T10:00ZZ",
    "0000-01-01T00:00",
    "9223372036854775808",
    "-9223372036854775809",
    "--1",
    "1e6",
]


class Errors(InFolder):
    def said_of(self, text):
        """What is said of a text with errors, which settles nothing and writes nothing."""
        path = self.file("calls.txt", text)
        written = self.folder / "filing.q"
        settled, encoded, rewritten = settle_here(path), settle_here("--encode", written, path), settle_here("--write", written, path)
        self.assertEqual((settled.status, settled.output), (2, b""), text)
        self.assertEqual(encoded, settled)
        self.assertEqual(rewritten, settled)
        self.assertFalse(written.exists())
        return path, settled.said.splitlines()

    def test_every_error_of_a_line(self):
        for line, problems in ERRORS:
            path, said = self.said_of(f"join 0\n\n{line}\njoin 1\n")
            self.assertEqual(said[:-1], [f"{path}:3: {word!r}: expected {expected}" for word, expected in problems])
            self.assertEqual(said[-1], f"{path}: 1 error; nothing is settled and nothing is written")

    def test_cabins_with_the_year_as_a_word_of_its_own(self):
        for line in ("setting 0 cabins 2018 104", "setting 0 Cabins"):
            word, count = line.split()[2], len(line.split()) - 1
            path, said = self.said_of(line)
            expected = f"expected 3 words after setting (operator setting value), found {count}"
            self.assertEqual(said[:2], [f"{path}:1: {line!r}: {expected}", f"{path}:1: {word!r}: expected {EACH_YEAR}"])
        self.assertEqual(len(self.said_of("setting 0 cabins-2018 2018 104")[1]), 2)

    def test_times_that_are_none(self):
        for word in NO_TIMES:
            path, said = self.said_of(f"interruption 0 file MV own 0 {word} 1")
            self.assertEqual(said[0], f"{path}:1: {word!r}: expected {TIME} (end of interruption)")

    def test_a_zone_is_told_in_winter_time(self):
        for word, here in [
            ("2017-03-04T10:00Z", "2017-03-04T11:00"),
            ("2017-07-01T10:00+02:00", "2017-07-01T09:00"),
            ("2017-07-01T10:00:30-0030", "2017-07-01T11:30:30"),
            ("2017-01-01 00:30 cest", "2016-12-31T23:30"),
            ("14/07/2017 10:00 Z", "2017-07-14T11:00"),
        ]:
            path, said = self.said_of(f"interruption 0 file MV own 0 {word} 1")
            expected = f"expected a clock time without a zone: all times are winter time, all year, in which this one is {here}"
            self.assertEqual(said[0], f"{path}:1: {word!r}: {expected} (end of interruption)")

    def test_the_first_twenty_errors_and_how_many_more(self):
        path, said = self.said_of("join x\n" * 1234)
        self.assertEqual(len(said), 22)
        self.assertTrue(said[19].startswith(f"{path}:20: 'x'"))
        self.assertEqual(said[20:], [f"{path}: .. and 1,214 more", f"{path}: 1,234 errors; nothing is settled and nothing is written"])
        self.assertEqual(len(self.said_of("join x\n" * 20)[1]), 21)

    def test_all_errors_of_a_file_at_once(self):
        path, said = self.said_of("join x\njoin 0\namount y 2020 fees put 1\r\n# join x\nfoo\n")
        places = [line.split(": expected")[0] for line in said]
        expected = ["1: 'x'", "3: 'y'", "3: '2020'", "3: 'put'", "5: 'foo'"]
        self.assertEqual(places[:-1], [f"{path}:{place}" for place in expected])
        self.assertEqual(said[-1], f"{path}: 5 errors; nothing is settled and nothing is written")

    def test_a_word_cannot_speak_to_the_terminal(self):
        _, said = self.said_of("join \x1b[2J")
        self.assertIn(r"'\x1b[2J'", said[0])

    def test_a_real_run_keeps_the_file_that_was_there(self):
        path = self.file("calls.txt", "join 0\njoin one\n")
        kept = self.file("kept.q", b"kept")
        run = settle("--encode", kept, path)
        self.assertEqual((run.status, run.output, kept.read_bytes()), (2, b"", b"kept"))
        self.assertIn(f"{path}:2: 'one': expected", run.said)


class Encoded(InFolder):
    def test_the_bytes_are_those_of_the_calls(self):
        path = self.file("calls.txt", "join 1\nrates 256 1\n")
        run = settle("--encode", "-", path)
        self.assertEqual(run, (0, bytes([1, 0, 1, 1, 6, 0, 8, 0, 0, 1, 0, 0, 0, 0, 1]), ""))
        settle("--encode", self.folder / "made.q", path)
        self.assertEqual((self.folder / "made.q").read_bytes(), run.output)
        self.assertEqual(len(filing.fields_of(run.output)), 2)
