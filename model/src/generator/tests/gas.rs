//! The gas filings: all that gas has, each thing refused that only electricity has,
//! and what the programs of both make of the filings of the other.

use super::{counted, numbered, outcome, Counts, Notes};
use crate::book::{Book, SETTINGS};
use crate::calls::Answer;
use crate::filing::{after_field, apply, field_at, read, Field};
use crate::generator::{filing, filing_in, kind, kind_in, Kind};
use crate::sector::Sector;

/// The filings of a kind among the first ones made for gas, with their numbers.
fn filings_of(wanted: Kind, most: u64) -> impl Iterator<Item = (u64, Vec<u8>)> {
    (0..most)
        .filter(move |&number| kind_in(Sector::Gas, number) == wanted)
        .map(|number| (number, filing_in(Sector::Gas, 1, number)))
}

/// Each of these occurs at least so often.
fn occur(counts: &Counts, expected: &[String], least: u32) {
    let rare: Vec<&String> = expected
        .iter()
        .filter(|what| counts.get(*what).is_none_or(|&count| count < least))
        .collect();
    assert!(rare.is_empty(), "{rare:?} in {counts:#?}");
}

#[test]
fn sound_kinds_of_gas_are_read_whole() {
    let is_sound = |kind: Kind| {
        !matches!(
            kind,
            Kind::Damaged
                | Kind::Refused
                | Kind::RefusedSetting
                | Kind::OnlyElectricity
                | Kind::Interrupted
                | Kind::Foreign
                | Kind::Long
        )
    };
    let numbers = 0..500;
    for number in numbers.filter(|&number| is_sound(kind_in(Sector::Gas, number))) {
        let mut book = Book::fresh_in(Sector::Gas);
        let reading = read(&mut book, &filing_in(Sector::Gas, 3, number));
        assert_eq!(reading.refusal, None, "{number}");
    }
}

#[test]
fn long_gas_filings_have_their_lengths() {
    let lengths = [499, 999, 1499].map(|number| filing_in(Sector::Gas, 1, number).len());
    assert_eq!(lengths, [65_536, 65_537, 65_535]);
}

fn expected_numbers() -> Vec<String> {
    [
        numbered("operators #", 0..=16),
        numbered("tag # taken", [1, 2, 4, 5, 6, 7]),
        numbered("tag # refused 4", [1, 2, 4, 5]),
        numbered("tag # refused 5", [2, 4, 5, 6, 7]),
        numbered("tag # refused 6", [1]),
        numbered("tag # refused 7", [2, 4, 5]),
        numbered("tag # refused 8", [4]),
        numbered("tag # refused 9", [4]),
        numbered("all marked at #", [4, 5]),
        numbered("tie at #", [4, 5]),
        numbered("sums past 64 bits at #", [4, 5]),
        numbered("index #", [1, 100_000]),
        numbered("rate #", [0, 20_000]),
        numbered("setting # fresh again", [1, 2]),
        numbered("figure # fresh again", 4..=7),
        numbered("mark # from 1 to 0", [4, 5]),
        numbered("mark # from 0 to 1", [4, 5]),
        numbered("mark # from 0 to 0", [4, 5]),
        numbered("mark # from 1 to 1", [4, 5]),
        numbered("index # fresh again", 0..=3),
    ]
    .concat()
}

const EXPECTED_TEXTS: [&str; 10] = [
    "amount withdrawn",
    "figure at its most",
    "money moved",
    "money moved and cut",
    "bonuses larger",
    "maluses larger",
    "cut to equal sides",
    "rates fresh again",
    "only the pot rate",
    "only the cap rate",
];

#[test]
fn gas_filings_show_every_case() {
    let notes = Notes::of(Sector::Gas);
    notes.show(
        [
            expected_numbers(),
            EXPECTED_TEXTS.map(String::from).to_vec(),
        ]
        .concat(),
    );
    // Nothing that only electricity has.
    let shown = |start: &str| notes.seen.iter().any(|what| what.starts_with(start));
    assert!(!shown("counted") && !shown("left out") && !shown("tag 3"));
    assert!(!shown("tie at 0") && !shown("figure 3") && !shown("setting 0"));
}

// What only electricity has.

/// The field at which gas stops reading a filing, and its refusal; none if that is a
/// field that is not well formed, or there is none.
fn refused_field(filing: &[u8]) -> Option<(Field, u8)> {
    let mut book = Book::fresh_in(Sector::Gas);
    let mut offset = 0;
    while offset < filing.len() {
        let field = field_at(Sector::Gas, filing, offset).ok()?;
        if let Answer::Refused(number) = apply(&mut book, &field) {
            return Some((field, number));
        }
        offset = after_field(filing, offset);
    }
    None
}

/// Where a refused field would have filed, and whether its value is 0.
fn place_in_words((field, number): (Field, u8)) -> Vec<String> {
    let (place, value) = match field {
        Field::Setting { which, value, .. } => (format!("setting {which}"), value),
        Field::Amount { figure, value, .. } => (format!("figure {figure}"), value),
        Field::Mark {
            indicator, mark, ..
        } => (format!("mark {indicator}"), u64::from(mark)),
        _ => return Vec::new(),
    };
    let zero = (value == 0).then(|| format!("{place} refused {number} with 0"));
    [Some(format!("{place} refused {number}")), zero]
        .into_iter()
        .flatten()
        .collect()
}

#[test]
fn each_place_of_electricity_is_refused() {
    let filings = filings_of(Kind::OnlyElectricity, 12_000);
    let refused = filings.filter_map(|(_, filing)| refused_field(&filing));
    let counts = counted(refused.flat_map(place_in_words));
    let places = [
        numbered("setting # refused 5", [0, 3, 4]),
        numbered("figure # refused 5", (0..=3).chain(8..=12)),
        numbered("mark # refused 5", 0..=3),
    ]
    .concat();
    occur(&counts, &places, 5);
    let with_0: Vec<String> = places
        .iter()
        .map(|place| format!("{place} with 0"))
        .collect();
    occur(&counts, &with_0, 2);
    // Above 15 the operator is refused first.
    let by_4 = counts
        .keys()
        .filter(|what| what.ends_with("refused 4"))
        .count();
    assert!(by_4 > SETTINGS, "{counts:#?}");
}

/// The tag and the refusal at the first field that is not well formed for gas, and
/// whether electricity takes the filing up to there and beyond.
fn tag_refused(filing: &[u8]) -> Option<String> {
    let [gas, electricity] =
        [Sector::Gas, Sector::Electricity].map(|sector| read(&mut Book::fresh_in(sector), filing));
    let tag = filing.get(gas.offset)?;
    let farther = if electricity.offset > gas.offset {
        ", electricity reads on"
    } else {
        ""
    };
    Some(format!("tag {tag} refused {}{farther}", gas.refusal?))
}

#[test]
fn interruptions_are_refused() {
    let filings = filings_of(Kind::Interrupted, 6000);
    let counts = counted(filings.filter_map(|(_, filing)| tag_refused(&filing)));
    let expected = [
        "tag 3 refused 2, electricity reads on",
        "tag 3 refused 2",
        "tag 3 refused 1",
    ];
    occur(&counts, &expected.map(String::from), 20);
    assert_eq!(counts.len(), 3, "{counts:#?}");
}

// The filings of the other sector.

#[test]
fn filings_of_electricity_are_given_to_gas() {
    let mut kinds = Vec::new();
    for (number, foreign) in filings_of(Kind::Foreign, 3000) {
        assert_eq!(foreign, filing(1, number));
        kinds.push(format!("{:?}", kind(number)));
    }
    let counts = counted(kinds.into_iter());
    assert!(counts.len() >= 17, "{counts:#?}");
    let filings = filings_of(Kind::Foreign, 9000);
    let outcomes = counted(filings.map(|(_, filing)| outcome(Sector::Gas, &filing)));
    let expected = ["refused 2 at", "refused 5 at"];
    occur(&outcomes, &expected.map(String::from), 4);
}

#[test]
fn filings_of_gas_are_given_to_electricity() {
    let outcomes = (0..4000).map(|number| {
        let filing = filing_in(Sector::Gas, 1, number);
        outcome(Sector::Electricity, &filing)
    });
    let counts = counted(outcomes);
    let expected = [
        numbered("refused # at", 1..=9),
        numbered("refused # at", 14..=15),
        numbered("refused #", 10..=11),
    ];
    occur(&counts, &expected.concat(), 10);
    // Nearly all others have no cabins.
    assert!(counts["refused 11"] > 2000, "{counts:#?}");
}
