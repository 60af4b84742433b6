//! The counts of the generated filings: moved by interruptions and by amounts, and
//! what is refused because of them.

use crate::book::Book;
use crate::calls::{Answer, Interruption};
use crate::filing::{after_field, apply, field_at, Field};
use crate::generator::filing;
use crate::sector::Sector;
use std::collections::{BTreeMap, BTreeSet};

const MOST: u128 = 100_000_000_000;

/// Where a count stands: operator, year and figure.
type CountPlace = (usize, usize, usize);

/// The place of the count that an interruption in range moves.
fn count_place(filed: &Interruption) -> CountPlace {
    let figure = match (filed.end - filed.start, filed.cause) {
        (..=180, _) => 9,
        (_, 1) => 10,
        (_, 2) => 11,
        (_, 3) => 12,
        _ => 8,
    };
    let year = (filed.end / 31_536_000) as usize;
    (usize::from(filed.operator), year, figure)
}

/// Whether weight and weighted seconds alone would let the interruption pass.
fn weights_allow(book: &Book, filed: &Interruption) -> bool {
    let (operator, year, figure) = count_place(filed);
    if figure != 8 {
        return true;
    }
    let first = 2 * usize::from(filed.level);
    let figures = &book.operators[operator].figures[year][first..first + 2];
    let weight = u128::from(filed.weight);
    let needed = [weight, weight * (filed.end - filed.start) as u128];
    let allows = |(&figure, &needed): (&u128, &u128)| match filed.sign {
        0 => figure + needed <= MOST,
        _ => figure >= needed,
    };
    figures.iter().zip(&needed).all(allows)
}

/// What the counts of one filing show, up to its first refusal.
#[derive(Default)]
struct Shown {
    seen: BTreeSet<String>,
    /// Where interruptions were filed, and where amounts were withdrawn.
    filed: BTreeSet<CountPlace>,
    taken: BTreeSet<CountPlace>,
}

impl Shown {
    fn of(filing: &[u8]) -> BTreeSet<String> {
        let mut shown = Shown::default();
        let mut book = Book::fresh();
        let mut next = Some(0);
        while let Some(offset) = next {
            next = shown.field_at(&mut book, filing, offset);
        }
        shown.seen
    }

    /// Notes the field at the offset; answers the offset after it if it is taken.
    fn field_at(&mut self, book: &mut Book, filing: &[u8], offset: usize) -> Option<usize> {
        let field = field_at(Sector::Electricity, filing, offset).ok()?;
        let answer = apply(book, &field);
        match field {
            // A refused one has left the book.
            Field::Interruption(filed) => self.interruption(book, &filed, answer),
            Field::Amount { .. } => self.amount(&field, answer),
            _ => {}
        }
        match answer {
            Answer::Refused(_) => None,
            _ => Some(after_field(filing, offset)),
        }
    }

    fn note(&mut self, what: String) {
        self.seen.insert(what);
    }

    fn interruption(&mut self, book: &Book, filed: &Interruption, answer: Answer) {
        match answer {
            Answer::Refused(number @ (8 | 9)) if weights_allow(book, filed) => {
                self.refused_by_count(count_place(filed), number);
            }
            Answer::Refused(number @ (8 | 9)) => self.note(format!("weights refused {number}")),
            Answer::Refused(_) => {}
            _ => self.moved(count_place(filed), filed.sign),
        }
    }

    fn moved(&mut self, place: CountPlace, sign: u8) {
        if sign == 0 {
            self.filed.insert(place);
        }
        let moved = ["filed", "withdrawn"][usize::from(sign)];
        self.note(format!("{} {moved}", place.2));
    }

    /// Notes that nothing but the count refuses an interruption, and what was done
    /// there before.
    fn refused_by_count(&mut self, place: CountPlace, number: u8) {
        let figure = place.2;
        self.note(format!("{figure} alone refused {number}"));
        if self.filed.contains(&place) {
            self.note(format!("{figure} filed and refused {number}"));
        }
        if self.taken.contains(&place) {
            self.note(format!("{figure} taken and refused {number}"));
        }
    }

    /// Notes an amount on a count, or past the last one.
    fn amount(&mut self, field: &Field, answer: Answer) {
        let Field::Amount {
            operator,
            year,
            figure: figure @ 8..=13,
            sign,
            value,
        } = *field
        else {
            return;
        };
        match answer {
            Answer::Refused(number) => self.note(format!("{figure} amount refused {number}")),
            _ if value == 0 => {}
            _ if sign == 0 => self.note(format!("{figure} amount filed")),
            _ => {
                let [operator, year, place] = [operator, year, figure].map(usize::from);
                self.taken.insert((operator, year, place));
                self.note(format!("{figure} amount withdrawn"));
            }
        }
    }
}

/// What each count shows, and in at least how many of 8000 filings.
const LEAST_OF_EACH: [(&str, u32); 10] = [
    ("filed", 1300),
    ("withdrawn", 530),
    ("amount filed", 2650),
    ("amount withdrawn", 530),
    ("amount refused 8", 3),
    ("amount refused 9", 1),
    ("alone refused 8", 8),
    ("alone refused 9", 21),
    ("filed and refused 9", 16),
    ("taken and refused 9", 10),
];

/// What is shown besides, in the same way.
const LEAST_BESIDES: [(&str, u32); 3] = [
    ("13 amount refused 5", 13),
    ("weights refused 8", 13),
    ("weights refused 9", 13),
];

#[test]
fn all_counts_occur() {
    let mut counts: BTreeMap<String, u32> = BTreeMap::new();
    for what in (0..8000).flat_map(|number| Shown::of(&filing(1, number))) {
        *counts.entry(what).or_default() += 1;
    }
    let of_each = (8..=12)
        .flat_map(|figure| LEAST_OF_EACH.map(|(what, least)| (format!("{figure} {what}"), least)));
    let besides = LEAST_BESIDES.map(|(what, least)| (what.to_string(), least));
    let rare: Vec<(String, u32)> = of_each
        .chain(besides)
        .filter(|(what, least)| counts.get(what).is_none_or(|count| count < least))
        .collect();
    assert!(rare.is_empty(), "{rare:?} in {counts:#?}");
}
