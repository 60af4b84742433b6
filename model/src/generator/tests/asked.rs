//! The sheets asked of the generated filings: every outcome, and mostly a sheet.

use crate::generator::{asked_sheet, filing};
use crate::program::sheet_printed;
use std::collections::BTreeMap;

/// What is printed for the sheet that is asked of a filing: the names of the counts
/// above 0, or the first words without the offset.
fn outcomes(seed: u64, number: u64) -> Vec<String> {
    let (operator, year) = asked_sheet(seed, number);
    let printed = sheet_printed(Some(&filing(seed, number)), operator, year);
    let text = String::from_utf8(printed).unwrap();
    let lines: Vec<&str> = text.lines().collect();
    match lines[..] {
        [line] => vec![match line.split_once(" at ") {
            Some((refused, _)) => format!("{refused} at"),
            None => line.to_string(),
        }],
        _ => {
            assert_eq!(lines.len(), 5);
            let above_0 = lines.iter().filter(|line| !line.ends_with(" 0"));
            let names = above_0.map(|line| line.split(' ').next().unwrap());
            names.chain(["sheet"]).map(String::from).collect()
        }
    }
}

/// At least how many of 2200 filings have it.
const LEAST: [(&str, u32); 15] = [
    ("sheet", 1000),
    ("counted", 500),
    ("short", 500),
    ("planned", 500),
    ("coupled", 500),
    ("exceptional", 500),
    ("refused 4", 150),
    ("refused 5", 150),
    ("refused 7", 40),
    ("refused 1 at", 20),
    ("refused 8 at", 20),
    ("refused 9 at", 20),
    ("refused 14 at", 20),
    ("refused 15 at", 20),
    ("too long", 1),
];

#[test]
fn all_outcomes_of_sheets_occur() {
    let mut counts: BTreeMap<String, u32> = BTreeMap::new();
    for what in (0..2200).flat_map(|number| outcomes(1, number)) {
        *counts.entry(what).or_default() += 1;
    }
    let often = |(what, least): &(&str, u32)| counts.get(*what).is_some_and(|count| count >= least);
    assert!(LEAST.iter().all(often), "{counts:#?}");
}

#[test]
fn the_sheet_asked_for_depends_on_seed_and_number_only() {
    let asked = |seed: u64| -> Vec<(u8, u8)> {
        let numbers = 0..200;
        numbers.map(|number| asked_sheet(seed, number)).collect()
    };
    assert_eq!(asked(5), asked(5));
    assert_ne!(asked(5), asked(6));
}

#[test]
fn operators_and_years_asked_for() {
    let asked: Vec<(u8, u8)> = (0..1000).map(|number| asked_sheet(1, number)).collect();
    let operator_of = |wanted: u8| asked.iter().filter(|asked| asked.0 == wanted).count();
    let year_of = |wanted: u8| asked.iter().filter(|asked| asked.1 == wanted).count();
    assert!((0..16).all(|operator| operator_of(operator) > 20));
    assert!((0..3).all(|year| year_of(year) > 200));
    for past in [
        operator_of(16) + operator_of(255),
        year_of(3) + year_of(255),
    ] {
        assert!((80..180).contains(&past), "{past}");
    }
    assert_eq!(
        (0..16).chain([16, 255]).map(operator_of).sum::<usize>(),
        1000
    );
    assert_eq!([0, 1, 2, 3, 255].map(year_of).iter().sum::<usize>(), 1000);
}
