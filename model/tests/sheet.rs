//! The sheet: the subcommand `sheet` as a program, and the totals of the sheets over
//! random lists of filing calls.

#[path = "common/folder.rs"]
mod folder;
#[path = "common/text.rs"]
mod text;

use folder::folder;
use model::book::Book;
use model::calls::{Answer, Interruption, Reason};
use model::filing::{apply, encode, Field};
use model::random::Random;
use model::script;
use model::sheet::sheet;
use std::collections::BTreeMap;
use std::fs;
use std::path::Path;
use text::run;

// The subcommand.

/// The sheet of an operator and year in a file is printed so.
fn prints(file: &Path, words: [&str; 2], output: &str) {
    let given = run(&["sheet", file.to_str().unwrap(), words[0], words[1]], "");
    assert_eq!(given, (0, output.to_string(), String::new()), "{words:?}");
}

#[test]
fn printed_sheets() {
    let filing: Vec<u8> = [
        "join 3",
        "interruption 3 0 0 0 31535900 31536081 5",
        "interruption 3 0 0 1 0 180 5",
        "amount 3 0 12 0 100000000000",
    ]
    .into_iter()
    .flat_map(|call| script::encode(call).unwrap())
    .collect();
    let file = folder("sheet").join("filing.q");
    fs::write(&file, filing).unwrap();
    let of_year_0 = "counted 0\nshort 1\nplanned 0\ncoupled 0\nexceptional 100000000000\n";
    prints(&file, ["3", "0"], of_year_0);
    let of_year_1 = "counted 1\nshort 0\nplanned 0\ncoupled 0\nexceptional 0\n";
    prints(&file, ["3", "1"], of_year_1);
    prints(&file, ["16", "3"], "refused 4\n");
    prints(&file, ["255", "0"], "refused 4\n");
    prints(&file, ["4", "3"], "refused 5\n");
    prints(&file, ["3", "255"], "refused 5\n");
    prints(&file, ["4", "2"], "refused 7\n");
}

#[test]
fn filings_that_are_not_read() {
    let file = folder("sheet_unread").join("filing.q");
    prints(&file, ["0", "0"], "refused 7\n");
    for (filing, line) in [
        (vec![1, 0, 1, 0, 1, 0, 1, 0], "refused 6 at 4\n"),
        (vec![1, 0], "refused 1 at 0\n"),
        (vec![0; 65_536], "refused 2 at 0\n"),
        (vec![0; 65_537], "too long\n"),
    ] {
        fs::write(&file, filing).unwrap();
        prints(&file, ["0", "0"], line);
        prints(&file, ["16", "3"], line);
    }
}

#[test]
fn words_that_are_no_operator_or_year() {
    let file = folder("sheet_malformed").join("filing.q");
    for words in [
        ["256", "0"],
        ["0", "256"],
        ["-1", "0"],
        ["0", "x"],
        ["", "0"],
    ] {
        let (status, output, message) =
            run(&["sheet", file.to_str().unwrap(), words[0], words[1]], "");
        assert_eq!((status, output), (2, String::new()), "{words:?}");
        assert!(!message.is_empty());
    }
}

// Totals over lists of calls.

/// What accepted calls filed less what they withdrew, by operator, year and count,
/// made from the calls and their answers alone.
#[derive(Default)]
struct History {
    totals: BTreeMap<(u8, u8, u8), i128>,
    /// By operator: the same over interruptions, and over amounts.
    interruptions: BTreeMap<u8, i128>,
    amounts: BTreeMap<u8, i128>,
    /// How many calls were refused, by number.
    refused: BTreeMap<u8, u32>,
}

impl History {
    fn call(&mut self, field: &Field, answer: Answer) {
        match (*field, answer) {
            (_, Answer::Refused(number)) => *self.refused.entry(number).or_default() += 1,
            (Field::Interruption(filed), _) => self.interruption(&filed, answer),
            (
                Field::Amount {
                    operator,
                    year,
                    figure: figure @ 8..=12,
                    sign,
                    value,
                },
                _,
            ) => {
                let value = signed(sign, i128::from(value));
                *self.totals.entry((operator, year, figure)).or_default() += value;
                *self.amounts.entry(operator).or_default() += value;
            }
            _ => {}
        }
    }

    fn interruption(&mut self, filed: &Interruption, answer: Answer) {
        let figure = match answer {
            Answer::Counted { .. } => 8,
            Answer::LeftOut(Reason::Short) => 9,
            Answer::LeftOut(Reason::Planned) => 10,
            Answer::LeftOut(Reason::Coupled) => 11,
            Answer::LeftOut(Reason::Exceptional) => 12,
            _ => panic!("{answer:?}"),
        };
        let year = (filed.end / 31_536_000) as u8;
        let one = signed(filed.sign, 1);
        let operator = filed.operator;
        *self.totals.entry((operator, year, figure)).or_default() += one;
        *self.interruptions.entry(operator).or_default() += one;
    }

    /// Each count of each sheet is its total; the three sheets of an operator sum to
    /// its interruptions and amounts.
    fn agrees(&self, book: &Book) {
        for operator in (0..16).filter(|&k| book.operators[usize::from(k)].joined) {
            let sum: i128 = (0..3)
                .map(|year| self.sheet_sum(book, operator, year))
                .sum();
            let of = |list: &BTreeMap<u8, i128>| list.get(&operator).copied().unwrap_or(0);
            assert_eq!(sum, of(&self.interruptions) + of(&self.amounts));
        }
    }

    /// The sum of a sheet whose counts are their totals.
    fn sheet_sum(&self, book: &Book, operator: u8, year: u8) -> i128 {
        let (answer, counts) = sheet(book, operator, year);
        assert_eq!(answer, Answer::Yes);
        for (figure, &count) in (8..).zip(&counts) {
            let total = self.totals.get(&(operator, year, figure));
            assert_eq!(count as i128, total.copied().unwrap_or(0));
        }
        counts.iter().sum::<u128>() as i128
    }
}

fn signed(sign: u8, value: i128) -> i128 {
    if sign == 0 {
        value
    } else {
        -value
    }
}

/// An interruption of one of few operators, now and then out of range, or with a start
/// after its end.
fn interruption(random: &mut Random) -> Field {
    let end = random.pick(&[-1, 0, 31_535_999, 31_536_000, 63_072_100, 94_607_999]);
    let level = random.place(2) as u8;
    let weight = random.pick(&[1, 1, 1, 7, 100_000]);
    Field::Interruption(Interruption {
        operator: random.place(3) as u8,
        sign: u8::from(random.percent(45)),
        level,
        cause: random.place(6) as u8,
        start: end - random.pick(&[0, 180, 181, 1000, 2_000_000, -1]),
        end,
        weight: if level == 0 { weight } else { weight.min(2) },
    })
}

fn amount(random: &mut Random) -> Field {
    let most = 100_000_000_000;
    Field::Amount {
        operator: random.place(3) as u8,
        year: random.place(4) as u8,
        figure: random.place(14) as u8,
        sign: random.place(2) as u8,
        value: random.pick(&[0, 1, 2, 5, most - 3, most, most + 1, u64::MAX]),
    }
}

fn call(random: &mut Random) -> Field {
    match random.up_to(9) {
        0 => Field::Join {
            operator: random.place(3) as u8,
        },
        1 | 2 => amount(random),
        _ => interruption(random),
    }
}

/// Makes so many calls from a fresh book on, and holds the sheets to the history.
/// Each refused call leaves the book.
fn agrees_over_a_list(random: &mut Random, calls: u64) -> BTreeMap<u8, u32> {
    let mut book = Book::fresh();
    let mut history = History::default();
    for _ in 0..calls {
        let field = call(random);
        let before = book.clone();
        let answer = apply(&mut book, &field);
        let refused = matches!(answer, Answer::Refused(_));
        assert!(!refused || book == before, "{:?}", encode(&field));
        history.call(&field, answer);
        history.agrees(&book);
    }
    history.refused
}

#[test]
fn totals_of_the_sheets() {
    let lists: Vec<BTreeMap<u8, u32>> = (0..60)
        .map(|number| agrees_over_a_list(&mut Random::new(2, number), 100))
        .collect();
    let refused = |number: u8| lists.iter().filter_map(|list| list.get(&number)).sum();
    for number in [5, 7, 8, 9, 14, 15] {
        let count: u32 = refused(number);
        assert!(count > 50, "{number}: {count}");
    }
}
