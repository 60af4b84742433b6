//! The cabins of the generated filings: networks of every sort, each setting missing
//! alone, settings at their limits; and that mistakes about the cabins would show.

use super::{are_shown, book_of, counted, fields_of};
use crate::book::{Book, Operator};
use crate::calls::Answer;
use crate::filing::{after_field, apply, field_at, Field};
use crate::generator::{filing, kind, Kind};
use crate::sector::Sector;
use crate::settlement::{refusal, settle};
use std::collections::BTreeSet;

/// The first filings of one kind.
fn filings_of(wanted: Kind, count: usize) -> Vec<Vec<u8>> {
    (0..)
        .filter(|&number| kind(number) == wanted)
        .map(|number| filing(1, number))
        .take(count)
        .collect()
}

fn joined(book: &Book) -> impl Iterator<Item = &Operator> {
    book.operators.iter().filter(|operator| operator.joined)
}

// Networks.

fn sort_of_network([first, second, third]: [u128; 3]) -> &'static str {
    if first == second && second == third {
        "equal"
    } else if first < second && second < third {
        "growing"
    } else if first > second && second > third {
        "shrinking"
    } else {
        "mixed"
    }
}

fn all_differ(numbers: impl IntoIterator<Item = u128>) -> bool {
    numbers.into_iter().collect::<BTreeSet<_>>().len() == 3
}

/// What one operator of a settled book shows.
fn network_shown(operator: &Operator) -> Vec<&'static str> {
    let cabins = operator.cabins;
    let weights: Vec<u128> = operator.figures.iter().map(|year| year[0]).collect();
    let [least, most] = [cabins.iter().min(), cabins.iter().max()].map(Option::unwrap);
    let equal_by_cabin = |year: usize| weights[year] * cabins[0] == weights[0] * cabins[year];
    let cases = [
        ("wide", *most > 1000 * least),
        ("near", *most > *least && *most <= least + 2),
        ("year 1 at its limit", cabins[1] == 100_000),
        ("year 2 at its limit", cabins[2] == 100_000),
        (
            "all differ with weights",
            all_differ(cabins) && all_differ(weights.clone()),
        ),
        (
            "all differ with equal weights",
            all_differ(cabins) && weights[0] > 0 && weights.iter().all(|&one| one == weights[0]),
        ),
        (
            "all differ with weights for each cabin",
            all_differ(cabins) && weights[0] > 0 && (1..3).all(equal_by_cabin),
        ),
        (
            "all differ with weights in one year",
            all_differ(cabins) && weights.iter().filter(|&&weight| weight > 0).count() == 1,
        ),
    ];
    let shown = cases.into_iter().filter(|&(_, shown)| shown);
    shown
        .map(|(what, _)| what)
        .chain([sort_of_network(cabins)])
        .collect()
}

// Mistakes.

/// Settles otherwise if the cabins are these.
fn settles_otherwise(book: &Book, cabins: fn([u128; 3]) -> [u128; 3]) -> bool {
    let mut other = book.clone();
    for operator in &mut other.operators {
        operator.cabins = cabins(operator.cabins);
    }
    settle(&other) != settle(book)
}

/// The mistakes in A1 that would show in the settlement of the book.
fn mistakes_in_a1(book: &Book) -> Vec<&'static str> {
    let cases = [
        (
            "years 1 and 2 exchanged",
            settles_otherwise(book, |[zero, one, two]| [zero, two, one]),
        ),
        (
            "years 0 and 2 exchanged",
            settles_otherwise(book, |[zero, one, two]| [two, one, zero]),
        ),
        (
            "year 0 alone",
            settles_otherwise(book, |[zero, _, _]| [zero; 3]),
        ),
        (
            "year 2 alone",
            settles_otherwise(book, |[_, _, two]| [two; 3]),
        ),
    ];
    let shown = cases.into_iter().filter(|&(_, shown)| shown);
    shown.map(|(what, _)| what).collect()
}

/// What a filing shows that settles.
fn settled_shown(filing: &[u8]) -> BTreeSet<String> {
    let settled = book_of(Sector::Electricity, filing).filter(|book| refusal(book).is_none());
    let Some(book) = settled else {
        return BTreeSet::new();
    };
    let networks = joined(&book).flat_map(network_shown);
    networks
        .chain(mistakes_in_a1(&book))
        .map(String::from)
        .collect()
}

#[test]
fn networks_occur_and_mistakes_in_a1_show() {
    let counts = counted((0..600).flat_map(|number| settled_shown(&filing(1, number))));
    let expected = [
        ("equal", 200),
        ("growing", 200),
        ("shrinking", 200),
        ("mixed", 200),
        ("wide", 150),
        ("near", 100),
        ("year 1 at its limit", 100),
        ("year 2 at its limit", 100),
        ("all differ with weights", 200),
        ("all differ with equal weights", 20),
        ("all differ with weights for each cabin", 20),
        ("all differ with weights in one year", 50),
        ("years 1 and 2 exchanged", 100),
        ("years 0 and 2 exchanged", 100),
        ("year 0 alone", 100),
        ("year 2 alone", 100),
    ];
    are_shown(&counts, &expected);
}

// Number 11.

/// The numbers of the settings that an operator lacks.
fn missing(operator: &Operator) -> Vec<usize> {
    let settings = operator.settings();
    let sizes = [0, 1, 3, 4].into_iter();
    sizes.filter(|&which| settings[which] == 0).collect()
}

/// Whether a filing never sets the cabins of year 1 or 2.
fn is_of_the_old_kind(filing: &[u8]) -> bool {
    let sets_later_cabins = |field: &Field| matches!(field, Field::Setting { which: 3 | 4, .. });
    let fields = fields_of(Sector::Electricity, filing);
    !fields.iter().any(sets_later_cabins)
}

/// What a filing shows that is refused by 11, among it the mistakes that would
/// settle it or refuse it by another number.
fn refused_by_11_shown(filing: &[u8]) -> BTreeSet<String> {
    let refused = book_of(Sector::Electricity, filing).filter(|book| refusal(book) == Some(11));
    let Some(book) = refused else {
        return BTreeSet::new();
    };
    let lacking: Vec<&Operator> = joined(&book)
        .filter(|operator| !missing(operator).is_empty())
        .collect();
    let all = |is_so: fn(&Operator) -> bool| lacking.iter().all(|operator| is_so(operator));
    let lacks_later_cabins_alone = |one: &Operator| missing(one).iter().all(|&which| which >= 3);
    let mut shown = BTreeSet::new();
    for (what, is_shown) in [
        ("of the old kind", is_of_the_old_kind(filing)),
        ("11 by year 0 alone", all(lacks_later_cabins_alone)),
        ("11 without those marked at A1", all(|one| one.marks[0])),
    ] {
        if is_shown {
            shown.insert(what.to_string());
        }
    }
    if let [operator] = lacking[..] {
        shown.extend(missing_alone_shown(operator));
    }
    shown
}

/// What the only operator shows that lacks a setting.
fn missing_alone_shown(operator: &Operator) -> Vec<String> {
    let [which] = missing(operator)[..] else {
        return Vec::new();
    };
    let marks = match operator.marks[..] {
        [true, false, false, false, false, false] => "marked at A1",
        _ if operator.marks.contains(&true) => "marked",
        _ => "unmarked",
    };
    let alone = format!("{which} missing alone");
    vec![format!("{alone}, {marks}"), alone]
}

#[test]
fn each_setting_is_missing_alone_and_mistakes_in_11_show() {
    let filings = filings_of(Kind::WithoutSize, 160);
    let shown = filings
        .iter()
        .flat_map(|filing| refused_by_11_shown(filing));
    let counts = counted(shown);
    let expected = [
        ("0 missing alone", 10),
        ("1 missing alone", 10),
        ("3 missing alone", 10),
        ("4 missing alone", 10),
        ("0 missing alone, marked at A1", 3),
        ("1 missing alone, marked at A1", 3),
        ("3 missing alone, marked at A1", 3),
        ("4 missing alone, marked at A1", 3),
        ("0 missing alone, unmarked", 3),
        ("1 missing alone, unmarked", 3),
        ("3 missing alone, unmarked", 3),
        ("4 missing alone, unmarked", 3),
        ("of the old kind", 10),
        ("11 by year 0 alone", 30),
        ("11 without those marked at A1", 30),
    ];
    are_shown(&counts, &expected);
}

// Number 5.

/// The settings of a filing up to its first refusal, and whether they are taken.
fn settings_shown(filing: &[u8]) -> BTreeSet<String> {
    let mut book = Book::fresh();
    let mut shown = BTreeSet::new();
    let mut offset = 0;
    while let Ok(field) = field_at(Sector::Electricity, filing, offset) {
        let answer = apply(&mut book, &field);
        let refused = matches!(answer, Answer::Refused(_));
        if let Field::Setting { which, value, .. } = field {
            let taken = ["taken", "refused"][usize::from(refused)];
            shown.insert(format!("{which} is {value} {taken}"));
            shown.insert(format!("{which} {taken}"));
        }
        if refused || after_field(filing, offset) == filing.len() {
            break;
        }
        offset = after_field(filing, offset);
    }
    shown
}

#[test]
fn settings_at_their_limits() {
    let filings = filings_of(Kind::RefusedSetting, 320);
    let counts = counted(filings.iter().flat_map(|filing| settings_shown(filing)));
    let cabins = |which: u8| {
        [
            "is 100000 taken",
            "is 100001 refused",
            "is 4000000 refused",
            "is 100000000000 refused",
        ]
        .map(|text| format!("{which} {text}"))
    };
    let others = [
        "1 is 100001 taken",
        "1 is 4000000 taken",
        "1 is 4000001 refused",
        "1 is 100000000000 refused",
        "2 is 100001 taken",
        "2 is 4000001 taken",
        "2 is 100000000000 taken",
        "2 is 100000000001 refused",
        "255 refused",
    ];
    let texts = [0, 3, 4].map(cabins).concat();
    let expected: Vec<(&str, u32)> = texts
        .iter()
        .map(String::as_str)
        .chain(others)
        .map(|text| (text, 1))
        .chain([("5 refused", 20)])
        .collect();
    are_shown(&counts, &expected);
    assert!(!counts.contains_key("5 taken"));
}
