"""CSV: what is taken, and every error of it."""

from front import csv_calls, words
from front.tests.common import InFolder, settle_here

COLUMNS = "call, operator, setting, value, sign, level, cause, start, end, weight, year, figure, indicator, mark, pot, cap, index"


def numbers(data):
    """The calls of a table as numbers, each after its line; it must have no problem."""
    rows, problems = csv_calls.read(words.decoded(data if isinstance(data, bytes) else data.encode()))
    assert not problems, problems
    return [(row.line, row.call.kind.name, *row.call.values) for row in rows]


class Taken(InFolder):
    def test_columns_in_any_order(self):
        table = "figure,value,call,sign,operator,year\nfees,50000,amount,file,1,2018\n,,join,,2,\n"
        self.assertEqual(numbers(table), [(2, "amount", 1, 1, 4, 0, 50000), (3, "join", 2)])

    def test_the_counts(self):
        counts = ["count-counted", "count-short", "COUNT-planned", "count-coupled", "count-exceptional", "8", "12"]
        table = "call;operator;year;figure;sign;value\n" + "".join(f"amount;3;2019;{count};withdraw;4\n" for count in counts)
        self.assertEqual([row[4] for row in numbers(table)], [8, 9, 10, 11, 12, 8, 12])
        self.assertEqual(numbers(table)[0], (2, "amount", 3, 2, 8, 1, 4))

    def test_the_settings(self):
        settings = ["cabins-2017", "access-points", "Income", "cabins-2018", "CABINS-2019", "0", "4"]
        table = "call;operator;setting;value\n" + "".join(f"setting;3;{setting};7\n" for setting in settings)
        self.assertEqual([row[3] for row in numbers(table)], [0, 1, 2, 3, 4, 0, 4])

    def test_separators_quotes_blanks_and_case(self):
        for table in [
            "call,pot,cap\nrates,5000,10000\n",
            "call;pot;cap\r\nrates;5000;10000\r\n",
            "call\tpot\tcap\nrates\t5000\t10000\n",
            '"call","pot","cap"\n"rates","5000","10000"\n',
            " Call , POT , cap \n Rates , 5000 , 10000 \n",
            b"\xef\xbb\xbfcall,pot,cap\nrates,5000,10000\n",
            "call;pot;cap\nrates;5000;10000\n".encode("utf-16"),
        ]:
            self.assertEqual(numbers(table), [(2, "rates", 5000, 10000)], table)

    def test_comments_and_empty_rows(self):
        table = '# first, of all\n"# second, quoted"\ncall,operator\n\n,\njoin,0 # third, of all\n#,\njoin,1,# fourth\n'
        self.assertEqual(numbers(table), [(6, "join", 0), (8, "join", 1)])

    def test_a_row_is_at_its_first_line(self):
        self.assertEqual(numbers('call,operator\n"join","\n0"\njoin,1\n'), [(2, "join", 0), (4, "join", 1)])

    def test_what_spreadsheets_add(self):
        for table in [
            "sep=;\ncall;operator;value;setting\nsetting;0;7;cabins-2019\n",
            "\ufeffsep=;\r\ncall;operator;value;setting\r\nsetting;0;7;cabins-2019\r\n",
            "SEP=,\ncall,operator,value,setting\nsetting,0,7,cabins-2019\n",
            ";;;;\ncall;operator;value;setting\nsetting;0;7;cabins-2019\n",
        ]:
            lines = table.count("\n")
            self.assertEqual(numbers(table), [(lines, "setting", 0, 4, 7)], table)

    def test_columns_that_are_not_read(self):
        for table in [
            "call,operator,value,setting,,,\nsetting,0,7,cabins-2019,,,\n",
            "call,operator,Note,value,setting\nsetting,0,all # of them,7,cabins-2019\n",
            'call,operator,#checked by,value,setting,note\nsetting,0,"x, y",7,cabins-2019,join # 5\n',
            "call,operator,#,#,value,setting\nsetting,0,a,b,7,cabins-2019\n",
            "call,operator,value,setting # the columns\nsetting,0,7,cabins-2019\n",
        ]:
            self.assertEqual(numbers(table), [(2, "setting", 0, 4, 7)], table)

    def test_times_as_spreadsheets_write_them(self):
        table = "call;operator;sign;level;cause;weight;start;end\ninterruption;1;file;MV;own;3;14/01/2017 08:10;2017-01-14 09:00\n"
        self.assertEqual(numbers(table), [(2, "interruption", 1, 0, 0, 0, 1152600, 1155600, 3)])

    def test_a_header_alone_has_no_call(self):
        self.assertEqual(numbers("call,operator\n"), [])


CALLS = "a call: join, setting, interruption, amount, mark, rates, index"
COLUMN = f"the name of a column: {COLUMNS}; or note, or a name that begins with #, for what is not read"
OPERATOR = "an operator, 0 to 15, as a whole number in digits alone (operator of join)"

SETTING = "a setting: cabins-2017, access-points, income, cabins-2018, cabins-2019, or a number 0 to 4 (setting of setting)"
EACH_YEAR = "cabins-2017, cabins-2018 or cabins-2019: each year has its own cabins (setting of setting)"

# A table, and line, word and what is expected of each of its errors.
ERRORS = [
    ("", [(1, "", f"a header line with names of columns: {COLUMNS}")]),
    ("# nothing\n\n", [(1, "", f"a header line with names of columns: {COLUMNS}")]),
    ("join,0\n", [(1, "join", COLUMN), (1, "0", COLUMN), (1, "join,0", "a column call")]),
    ("call,operator,remark\njoin,0,x\n", [(1, "remark", COLUMN)]),
    ("call,operator,,\njoin,0,,5\n", [(2, "5", "no cell under a column without a name")]),
    ("sep=|\ncall|operator\njoin|0\n", [(2, "call|operator", COLUMN), (2, "call|operator", "a column call")]),
    ("call,operator,Operator\njoin,0,0\n", [(1, "operator", "each column once")]),
    ("operator\n0\n", [(1, "operator", "a column call")]),
    ("call,operator\njion,0\n", [(2, "jion", CALLS)]),
    ("call,operator\n,0\n", [(2, "", CALLS)]),
    ("call,operator\njoin,x\n", [(2, "x", OPERATOR)]),
    ("call,operator\njoin,\n", [(2, "", OPERATOR)]),
    ("call,pot\njoin,\n", [(2, "", OPERATOR)]),
    ("call,operator\njoin\n", [(2, "", OPERATOR)]),
    ("call,operator,value\njoin,0,5\n", [(2, "5", "an empty cell (join has no value)")]),
    ("call,operator,setting,value\nsetting,0, cabins ,5\nsetting,0,Cabins,6\n", [(2, "cabins", EACH_YEAR), (3, "Cabins", EACH_YEAR)]),
    ("call,operator,setting,value\nsetting,0,cabin,5\nsetting,0,,5\n", [(2, "cabin", SETTING), (3, "", SETTING)]),
    ("call,operator\njoin,0,5\n", [(2, "5", "no cell under a column without a name")]),
    ('call,operator\njoin,0\njoin,"1\n', [(3, 'join,"1', "cells with quotes that match (unexpected end of data)")]),
    (
        "call,operator,value\njoin,x\njoin,0,1\n\nfoo,0\n",
        [(2, "x", OPERATOR), (3, "1", "an empty cell (join has no value)"), (5, "foo", CALLS)],
    ),
    ('call,operator\njoin,x\njoin,"1', [(2, "x", OPERATOR), (3, 'join,"1', "cells with quotes that match (unexpected end of data)")]),
]


class Errors(InFolder):
    def test_every_error(self):
        for table, problems in ERRORS:
            path = self.file("calls.csv", table)
            run = settle_here("--encode", self.folder / "filing.q", path)
            self.assertEqual((run.status, run.output), (2, b""), table)
            said = run.said.splitlines()
            self.assertEqual(said[:-1], [f"{path}:{line}: {word!r}: expected {expected}" for line, word, expected in problems], table)
            self.assertIn("nothing is settled and nothing is written", said[-1])
            self.assertFalse((self.folder / "filing.q").exists())
