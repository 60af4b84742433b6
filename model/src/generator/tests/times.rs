//! The times in the generated filings: at the ends of the period, outside it and in the
//! wrong order, alone and with other reasons; and that mistakes about them would show.

use super::{are_shown, counted};
use crate::book::Book;
use crate::calls::{Answer, Interruption};
use crate::filing::{after_field, apply, field_at, read, Field};
use crate::generator::{filing, filing_in, kind, Kind};
use crate::sector::Sector;
use std::collections::BTreeSet;

/// An interruption that a reader of a filing comes to, and what it answers.
struct Met {
    filed: Interruption,
    is_joined: bool,
    answer: Answer,
}

/// The numbers that may be given, in the order in which they are looked at, each with
/// whether it applies.
type Rule = fn(&Met) -> Vec<(u8, bool)>;

/// The interruptions of a filing, up to its first refusal.
fn met(filing: &[u8]) -> Vec<Met> {
    let mut book = Book::fresh();
    let mut met = Vec::new();
    let mut next = Some(0);
    while let Some(offset) = next {
        next = meet(&mut met, &mut book, filing, offset);
    }
    met
}

/// Takes in the field at the offset; answers the offset after it if it is taken.
fn meet(met: &mut Vec<Met>, book: &mut Book, filing: &[u8], offset: usize) -> Option<usize> {
    let field = field_at(Sector::Electricity, filing, offset).ok()?;
    let before = book.joined_mask();
    let answer = apply(book, &field);
    if let Field::Interruption(filed) = field {
        let is_joined = filed.operator < 16 && (before >> filed.operator) % 2 == 1;
        met.push(Met {
            filed,
            is_joined,
            answer,
        });
    }
    match answer {
        Answer::Refused(_) => None,
        _ => Some(after_field(filing, offset)),
    }
}

// What applies.

impl Met {
    fn operator(&self) -> (u8, bool) {
        (4, self.filed.operator > 15)
    }

    fn has_value_out_of_range(&self) -> bool {
        let Interruption {
            sign,
            level,
            cause,
            weight,
            ..
        } = self.filed;
        let most = [100_000, 1].get(usize::from(level));
        let has_weight = most.is_some_and(|most| (1..=*most).contains(&weight));
        sign > 1 || cause > 4 || !has_weight
    }

    fn value(&self) -> (u8, bool) {
        (5, self.has_value_out_of_range())
    }

    fn order(&self) -> (u8, bool) {
        (14, self.filed.start > self.filed.end)
    }

    fn period(&self) -> (u8, bool) {
        (15, self.is_outside(-31_536_000, 0, 94_607_999))
    }

    /// Outside a period with these ends.
    fn is_outside(&self, earliest_start: i64, first_end: i64, last_end: i64) -> bool {
        let Interruption { start, end, .. } = self.filed;
        start < earliest_start || !(first_end..=last_end).contains(&end)
    }

    fn join(&self) -> (u8, bool) {
        (7, !self.is_joined)
    }
}

/// What is right, but for 8 and 9.
fn right(met: &Met) -> Vec<(u8, bool)> {
    with_times(met, met.order(), met.period())
}

/// The same with these two for the times.
fn with_times(met: &Met, order: (u8, bool), period: (u8, bool)) -> Vec<(u8, bool)> {
    vec![met.operator(), met.value(), order, period, met.join()]
}

/// The first number that applies.
fn given(numbers: &[(u8, bool)]) -> Option<u8> {
    let applying = numbers.iter().find(|(_, applies)| *applies);
    applying.map(|(number, _)| *number)
}

// Mistakes.

const MISTAKES: [(&str, Rule); 16] = [
    ("5 for all", |met| {
        let by_times = met.order().1 || met.period().1;
        let value = (5, met.value().1 || by_times);
        vec![met.operator(), value, met.join()]
    }),
    ("14 and 15 exchanged", |met| {
        with_times(met, (15, met.order().1), (14, met.period().1))
    }),
    ("15 before 14", |met| {
        with_times(met, met.period(), met.order())
    }),
    ("14 before 5", |met| {
        [vec![met.operator(), met.order()], right(met)].concat()
    }),
    ("15 before 5", |met| {
        [vec![met.operator(), met.period()], right(met)].concat()
    }),
    ("times before 4", |met| {
        [vec![met.order(), met.period()], right(met)].concat()
    }),
    ("7 before the times", |met| {
        let before = vec![met.operator(), met.value(), met.join()];
        [before, right(met)].concat()
    }),
    ("an early start is still 5", |met| {
        let early = met.is_outside(-31_536_000, i64::MIN, i64::MAX);
        [vec![met.operator(), (5, early)], right(met)].concat()
    }),
    ("a start at its end is refused", |met| {
        with_times(met, (14, met.filed.start >= met.filed.end), met.period())
    }),
    ("a start one second after its end is taken", |met| {
        let limit = met.filed.end.saturating_add(1);
        with_times(met, (14, met.filed.start > limit), met.period())
    }),
    ("the last second is refused", |met| {
        let outside = met.is_outside(-31_536_000, 0, 94_607_998);
        with_times(met, met.order(), (15, outside))
    }),
    ("one second more is taken", |met| {
        let outside = met.is_outside(-31_536_000, 0, 94_608_000);
        with_times(met, met.order(), (15, outside))
    }),
    ("the first second is refused", |met| {
        let outside = met.is_outside(-31_536_000, 1, 94_607_999);
        with_times(met, met.order(), (15, outside))
    }),
    ("an end in 2016 is taken", |met| {
        let outside = met.is_outside(-31_536_000, -31_536_000, 94_607_999);
        with_times(met, met.order(), (15, outside))
    }),
    ("the earliest start is refused", |met| {
        let outside = met.is_outside(-31_535_999, 0, 94_607_999);
        with_times(met, met.order(), (15, outside))
    }),
    ("the length is of 64 bits", |met| {
        let length = met.filed.end.wrapping_sub(met.filed.start);
        with_times(met, (14, length < 0), met.period())
    }),
];

/// The mistakes that would show in what is printed for a filing.
fn mistakes_shown(filing: &[u8]) -> BTreeSet<String> {
    let met = met(filing);
    let differs = |rule: Rule, one: &Met| given(&rule(one)) != given(&right(one));
    let shows = |rule: Rule| met.iter().any(|one| differs(rule, one));
    let shown = MISTAKES.iter().filter(|(_, rule)| shows(*rule));
    shown.map(|(name, _)| name.to_string()).collect()
}

// What the filings show.

/// The times at which something changes.
const TIMES: [i64; 8] = [
    i64::MIN,
    -31_536_001,
    -31_536_000,
    -1,
    0,
    94_607_999,
    94_608_000,
    i64::MAX,
];

/// The answer by number, and the numbers that apply.
fn reasons_in_words(met: &Met) -> String {
    let applying: Vec<String> = right(met)
        .iter()
        .filter(|(_, applies)| *applies)
        .map(|(number, _)| number.to_string())
        .collect();
    format!("{} of {}", answer_in_words(met.answer), applying.join(" "))
}

fn answer_in_words(answer: Answer) -> String {
    match answer {
        Answer::Refused(number) => format!("refused {number}"),
        _ => "taken".to_string(),
    }
}

fn times_in_words(met: &Met) -> Vec<String> {
    let Interruption { start, end, .. } = met.filed;
    let answer = answer_in_words(met.answer);
    let is_widest = |time: i64| [i64::MIN, i64::MAX].contains(&time);
    let cases = [
        (TIMES.contains(&start), format!("start {start} {answer}")),
        (TIMES.contains(&end), format!("end {end} {answer}")),
        (
            is_widest(start) && is_widest(end),
            format!("{start} to {end} {answer}"),
        ),
        (start == end, format!("start at end {answer}")),
        (
            start.checked_sub(1) == Some(end),
            format!("start a second after end {answer}"),
        ),
        (true, reasons_in_words(met)),
    ];
    let shown = cases.into_iter().filter(|(is_shown, _)| *is_shown);
    shown.map(|(_, what)| what).collect()
}

/// What the interruptions of a filing show.
fn times_shown(filing: &[u8]) -> BTreeSet<String> {
    met(filing).iter().flat_map(times_in_words).collect()
}

/// The filings about times among the first ones.
fn filings_of_times(most: u64) -> impl Iterator<Item = Vec<u8>> {
    (0..most)
        .filter(|&number| kind(number) == Kind::Times)
        .map(|number| filing(1, number))
}

/// The answers are right for every interruption that is met.
#[test]
fn answers_follow_from_the_values() {
    for one in (0..2000).flat_map(|number| met(&filing(1, number))) {
        let by_values = match one.answer {
            Answer::Refused(8 | 9) => None,
            Answer::Refused(number) => Some(number),
            _ => None,
        };
        assert_eq!(by_values, given(&right(&one)), "{:?}", one.filed);
    }
}

/// At least so many of 2000 filings of electricity show the mistake.
const LEAST_MISTAKES: [(&str, u32); 16] = [
    ("5 for all", 40),
    ("14 and 15 exchanged", 40),
    ("15 before 14", 8),
    ("14 before 5", 6),
    ("15 before 5", 20),
    ("times before 4", 20),
    ("7 before the times", 12),
    ("an early start is still 5", 10),
    ("a start at its end is refused", 220),
    ("a start one second after its end is taken", 9),
    ("the last second is refused", 330),
    ("one second more is taken", 3),
    ("the first second is refused", 380),
    ("an end in 2016 is taken", 3),
    ("the earliest start is refused", 130),
    ("the length is of 64 bits", 5),
];

#[test]
fn mistakes_about_times_show() {
    for seed in [1, 2017] {
        let filings = (0..2000).map(|number| filing(seed, number));
        let counts = counted(filings.flat_map(|filing| mistakes_shown(&filing)));
        are_shown(&counts, &LEAST_MISTAKES);
    }
}

/// What is shown of single times and of both, and in at least how many of the filings
/// about them among the first 12,000, some 630.
const LEAST_TIMES: [(&str, u32); 27] = [
    ("start at end taken", 110),
    ("start at end refused 15", 28),
    ("start a second after end refused 14", 50),
    ("start -31536000 taken", 90),
    ("start -31536001 refused 15", 24),
    ("start -9223372036854775808 refused 15", 24),
    ("start 9223372036854775807 refused 14", 27),
    ("end 0 taken", 190),
    ("end 0 refused 14", 20),
    ("end 0 refused 15", 8),
    ("end -1 refused 14", 12),
    ("end -1 refused 15", 24),
    ("end 94607999 taken", 170),
    ("end 94607999 refused 14", 12),
    ("end 94607999 refused 15", 3),
    ("end 94608000 refused 14", 8),
    ("end 94608000 refused 15", 33),
    ("end 9223372036854775807 refused 15", 27),
    ("end -9223372036854775808 refused 14", 10),
    ("-9223372036854775808 to -9223372036854775808 refused 15", 5),
    ("-9223372036854775808 to 9223372036854775807 refused 15", 6),
    ("9223372036854775807 to -9223372036854775808 refused 14", 4),
    ("9223372036854775807 to 9223372036854775807 refused 15", 8),
    ("start 0 refused 14", 6),
    ("start 94607999 refused 15", 8),
    ("start 94608000 refused 14", 5),
    ("start 94608000 refused 15", 4),
];

/// The same of the numbers that apply at once.
const LEAST_REASONS: [(&str, u32); 15] = [
    ("refused 14 of 14", 36),
    ("refused 15 of 15", 73),
    ("refused 14 of 14 15", 33),
    ("refused 14 of 14 7", 10),
    ("refused 15 of 15 7", 39),
    ("refused 14 of 14 15 7", 14),
    ("refused 5 of 5 14", 7),
    ("refused 5 of 5 15", 26),
    ("refused 5 of 5 14 15", 10),
    ("refused 5 of 5 14 7", 7),
    ("refused 5 of 5 15 7", 11),
    ("refused 5 of 5 14 15 7", 5),
    ("refused 4 of 4 14 7", 7),
    ("refused 4 of 4 15 7", 20),
    ("refused 4 of 4 14 15 7", 5),
];

#[test]
fn times_of_every_sort_occur() {
    let counts = counted(filings_of_times(12_000).flat_map(|filing| times_shown(&filing)));
    are_shown(&counts, &LEAST_TIMES);
    are_shown(&counts, &LEAST_REASONS);
}

// Gas.

/// The numbers by which electricity would refuse the times of the interruption that gas
/// stops at, with the one that gas gives.
fn times_met_by_gas(filing: &[u8]) -> Option<String> {
    let reading = read(&mut Book::fresh_in(Sector::Gas), filing);
    let field = field_at(Sector::Electricity, filing, reading.offset).ok()?;
    let Field::Interruption(filed) = field else {
        return None;
    };
    let answer = Answer::Refused(reading.refusal?);
    let met = Met {
        filed,
        is_joined: false,
        answer,
    };
    let numbers = [met.order(), met.period()].into_iter();
    let applying: Vec<String> = numbers
        .filter(|(_, applies)| *applies)
        .map(|(number, _)| number.to_string())
        .collect();
    Some(format!(
        "{} of {}",
        answer_in_words(answer),
        applying.join(" ")
    ))
}

#[test]
fn gas_looks_at_no_times() {
    let filings = (0..6000).map(|number| filing_in(Sector::Gas, 1, number));
    let counts = counted(filings.filter_map(|filing| times_met_by_gas(&filing)));
    let expected = [
        ("refused 2 of ", 110),
        ("refused 2 of 14", 8),
        ("refused 2 of 15", 37),
        ("refused 2 of 14 15", 9),
    ];
    are_shown(&counts, &expected);
    assert_eq!(counts.len(), expected.len(), "{counts:#?}");
}
