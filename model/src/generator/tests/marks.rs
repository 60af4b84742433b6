//! The marks of the generated filings: cleared, kept and set again, by one
//! operator or by all.

use super::{book_of, fields_of};
use crate::book::{Book, Operator};
use crate::filing::{read, Field};
use crate::generator::{filing, kind, Kind};
use crate::sector::Sector;
use crate::settlement::refusal;
use std::collections::{BTreeMap, BTreeSet};

/// Where a mark stands: operator and indicator.
type MarkPlace = (u8, u8);

/// The marks in a filing that is read whole, with their places.
fn marks_filed(filing: &[u8]) -> Vec<(MarkPlace, u8)> {
    let mark_of = |field: Field| match field {
        Field::Mark {
            operator,
            indicator,
            mark,
        } => Some(((operator, indicator), mark)),
        _ => None,
    };
    let fields = fields_of(Sector::Electricity, filing);
    fields.into_iter().filter_map(mark_of).collect()
}

/// The places of the marks that are set after they were cleared.
fn places_set_again(filed: &[(MarkPlace, u8)]) -> BTreeSet<MarkPlace> {
    let mut cleared = BTreeSet::new();
    let mut again = BTreeSet::new();
    for &(place, mark) in filed {
        if mark == 0 {
            cleared.insert(place);
        } else if cleared.contains(&place) {
            again.insert(place);
        }
    }
    again
}

/// What the marks of a filing come to, if it is read whole and settles or is
/// refused by 12.
fn marks_shown(filing: &[u8]) -> Vec<&'static str> {
    let Some(book) = book_of(Sector::Electricity, filing) else {
        return Vec::new();
    };
    let filed = marks_filed(filing);
    let cases = match refusal(&book) {
        None => settled_cases(&book, &filed),
        Some(12) => refused_cases(&filed),
        _ => Vec::new(),
    };
    cases
        .into_iter()
        .filter(|&(_, shown)| shown)
        .map(|(what, _)| what)
        .collect()
}

/// What the marks of a settled book may show, and whether they do.
fn settled_cases(book: &Book, filed: &[(MarkPlace, u8)]) -> Vec<(&'static str, bool)> {
    let joined = book.operators.iter().filter(|operator| operator.joined);
    let operators: Vec<&Operator> = joined.collect();
    let marks = || operators.iter().flat_map(|operator| &operator.marks);
    let cleared = marks().filter(|&&marked| !marked).count();
    let all_cleared = cleared == marks().count();
    let keeps_six = |operator: &&Operator| !operator.marks.contains(&false);
    let some_keep_six = operators.iter().any(keeps_six);
    let again = places_set_again(filed);
    let is_set = |&(operator, indicator): &MarkPlace| {
        book.operators[usize::from(operator)].marks[usize::from(indicator)]
    };
    vec![
        ("all cleared", all_cleared),
        ("some of each", !all_cleared && !some_keep_six),
        ("an operator keeps six", some_keep_six),
        ("only one cleared", cleared == 1),
        ("set again", again.iter().any(is_set)),
        ("set for a while", !again.iter().all(is_set)),
    ]
}

/// The same of a book that is refused by 12.
fn refused_cases(filed: &[(MarkPlace, u8)]) -> Vec<(&'static str, bool)> {
    let any_cleared = filed.iter().any(|&(_, mark)| mark == 0);
    vec![
        ("12 without a clearing", !any_cleared),
        ("12 after a clearing", any_cleared),
    ]
}

/// At least how many of 2200 filings show it.
const LEAST_SHOWN: [(&str, u32); 8] = [
    ("all cleared", 800),
    ("some of each", 270),
    ("an operator keeps six", 120),
    ("only one cleared", 5),
    ("set again", 230),
    ("set for a while", 180),
    ("12 without a clearing", 10),
    ("12 after a clearing", 10),
];

fn has_all_marks(seed: u64) {
    let mut counts: BTreeMap<&str, u32> = BTreeMap::new();
    for what in (0..2200).flat_map(|number| marks_shown(&filing(seed, number))) {
        *counts.entry(what).or_default() += 1;
    }
    let often =
        |&(what, least): &(&str, u32)| counts.get(what).is_some_and(|&count| count >= least);
    assert!(LEAST_SHOWN.iter().all(often), "{counts:?}");
    assert_eq!(counts.len(), LEAST_SHOWN.len(), "{counts:?}");
}

#[test]
fn all_marks_occur() {
    has_all_marks(1);
    has_all_marks(2017);
}

/// The refusals of the books of one kind, among 2000 filings.
fn refusals_of(wanted: Kind) -> BTreeSet<Option<u8>> {
    let refusal_of = |number: u64| {
        let mut book = Book::fresh();
        read(&mut book, &filing(1, number));
        refusal(&book)
    };
    (0..2000)
        .filter(|&number| kind(number) == wanted)
        .map(refusal_of)
        .collect()
}

#[test]
fn nearly_all_marked_is_not_all() {
    let refusals = refusals_of(Kind::NearlyAllMarked);
    assert!(refusals.contains(&None), "{refusals:?}");
    assert!(!refusals.contains(&Some(12)), "{refusals:?}");
}
