//! The book: what is kept of each operator, the rates and the indices, with
//! the range of every value.

use crate::sector::Sector;
use std::ops::Range;

pub const OPERATORS: usize = 16;
pub const SETTINGS: usize = 5;
pub const INDICATORS: usize = 6;
pub const YEARS: usize = 3;
pub const FIGURES: usize = 13;
/// The first of the figures that count interruptions; all after it do so too.
pub const FIRST_COUNT: usize = 8;
pub const COUNTS: usize = FIGURES - FIRST_COUNT;
pub const INDICES: usize = 4;

pub const MOST_CABINS: u128 = 100_000;
pub const MOST_ACCESS_POINTS: u128 = 4_000_000;
pub const MOST_INCOME: u128 = 100_000_000_000;
pub const MOST_FIGURE: u128 = 100_000_000_000;
pub const MOST_RATE: u128 = 20_000;
pub const LEAST_INDEX: u128 = 1;
pub const MOST_INDEX: u128 = 100_000;
pub const FRESH_INDEX: u128 = 10_000;

/// What a setting of an operator is.
#[derive(Clone, Copy, Debug, PartialEq, Eq)]
pub enum Setting {
    /// With the year that they are of.
    Cabins(usize),
    AccessPoints,
    Income,
}

/// The settings by number, the filing's `which`.
/// Follows 01: "which (0 cabins, 1 access points, 2 income)"; and 02, point 3:
/// "Setting 0 is year 0; settings 3 and 4 are years 1 and 2".
pub const NUMBERED_SETTINGS: [Setting; SETTINGS] = [
    Setting::Cabins(0),
    Setting::AccessPoints,
    Setting::Income,
    Setting::Cabins(1),
    Setting::Cabins(2),
];

impl Setting {
    pub fn most(self) -> u128 {
        match self {
            Setting::Cabins(_) => MOST_CABINS,
            Setting::AccessPoints => MOST_ACCESS_POINTS,
            Setting::Income => MOST_INCOME,
        }
    }
}

/// What the book keeps of one operator.
#[derive(Clone, Debug, PartialEq, Eq)]
pub struct Operator {
    pub joined: bool,
    /// By indicator; true = unreliable.
    pub marks: Vec<bool>,
    /// By year.
    pub cabins: [u128; YEARS],
    pub access_points: u128,
    /// In cents.
    pub income: u128,
    /// By year, then figure.
    pub figures: Vec<Vec<u128>>,
}

impl Operator {
    /// Follows 01: "A fresh book has none joined, no marks, all figures and
    /// settings 0".
    pub fn fresh() -> Operator {
        Operator {
            joined: false,
            marks: vec![false; INDICATORS],
            cabins: [0; YEARS],
            access_points: 0,
            income: 0,
            figures: vec![vec![0; FIGURES]; YEARS],
        }
    }

    pub fn setting(&self, setting: Setting) -> u128 {
        match setting {
            Setting::Cabins(year) => self.cabins[year],
            Setting::AccessPoints => self.access_points,
            Setting::Income => self.income,
        }
    }

    /// Sets a value without any check.
    pub fn put_setting(&mut self, setting: Setting, value: u128) {
        match setting {
            Setting::Cabins(year) => self.cabins[year] = value,
            Setting::AccessPoints => self.access_points = value,
            Setting::Income => self.income = value,
        }
    }

    /// All settings, by number.
    pub fn settings(&self) -> [u128; SETTINGS] {
        NUMBERED_SETTINGS.map(|setting| self.setting(setting))
    }

    /// Not joined, and every value is the fresh one.
    pub fn is_fresh(&self) -> bool {
        !self.joined
            && self.cabins == [0; YEARS]
            && self.access_points == 0
            && self.income == 0
            && !self.marks.contains(&true)
            && self.figures == [[0; FIGURES]; YEARS]
    }

    /// Every value is in its range, and without a join every value is fresh.
    pub fn in_range(&self, sector: Sector) -> bool {
        if !self.joined {
            return self.is_fresh();
        }
        let setting_in_range =
            |&setting: &Setting| self.setting(setting) <= sector.most_setting(setting);
        let figures = sector.figures();
        let year_in_range = |year: &Vec<u128>| {
            year.iter().all(|&figure| figure <= MOST_FIGURE)
                && outside(year, &figures).all(|&figure| figure == 0)
        };
        NUMBERED_SETTINGS.iter().all(setting_in_range)
            && outside(&self.marks, &sector.indicators()).all(|&marked| !marked)
            && self.figures.iter().all(year_in_range)
    }
}

/// The values of a list whose places are not in the range.
fn outside<'a, T>(list: &'a [T], range: &Range<usize>) -> impl Iterator<Item = &'a T> {
    list[..range.start].iter().chain(&list[range.end..])
}

/// Every year and figure: by year, then figure.
pub fn figure_places() -> impl Iterator<Item = (usize, usize)> {
    (0..YEARS).flat_map(|year| (0..FIGURES).map(move |figure| (year, figure)))
}

/// The numbers of the joined operators, rising.
pub fn joined(operators: &[Operator]) -> Vec<usize> {
    (0..operators.len())
        .filter(|&k| operators[k].joined)
        .collect()
}

/// The access points of these operators: what decides between equal remainders in
/// every sharing, whatever is shared by.
/// Follows 02, point 7: "the operator with more access points".
pub fn sizes(operators: &[Operator], numbers: &[usize]) -> Vec<u128> {
    numbers
        .iter()
        .map(|&k| operators[k].access_points)
        .collect()
}

/// One number of so many bits: bit k is the one at place k.
fn mask(bits: impl Iterator<Item = bool>) -> u128 {
    bits.enumerate().map(|(k, bit)| u128::from(bit) << k).sum()
}

#[derive(Clone, Debug, PartialEq, Eq)]
pub struct Book {
    /// The sector of the calls that are made on the book. Its values are of the same
    /// form in both, so that a book made by the calls of one can be lent to those of
    /// the other.
    pub sector: Sector,
    pub operators: Vec<Operator>,
    /// In millionths.
    pub pot_rate: u128,
    /// In millionths.
    pub cap_rate: u128,
    /// In hundredths: 0 to 2 for the June before each year, 3 for June 2013.
    pub indices: Vec<u128>,
}

impl Book {
    /// A fresh book of electricity.
    pub fn fresh() -> Book {
        Book::fresh_in(Sector::Electricity)
    }

    /// Follows 01: "A fresh book has none joined, no marks, all figures and
    /// settings 0, and all four indices 10,000."
    pub fn fresh_in(sector: Sector) -> Book {
        Book {
            sector,
            operators: vec![Operator::fresh(); OPERATORS],
            pot_rate: 0,
            cap_rate: 0,
            indices: vec![FRESH_INDEX; INDICES],
        }
    }

    /// The same values, lent to the calls of that sector.
    pub fn lent_to(&self, sector: Sector) -> Book {
        Book {
            sector,
            ..self.clone()
        }
    }

    /// False for 01's "book with a value outside its range, or with anything
    /// but fresh values for an operator not joined"; and by 02, point 4, for "a lent
    /// gas book in which one of these isn't 0".
    pub fn in_range(&self) -> bool {
        let operator_in_range = |operator: &Operator| operator.in_range(self.sector);
        self.operators.iter().all(operator_in_range)
            && self.pot_rate <= MOST_RATE
            && self.cap_rate <= MOST_RATE
            && self
                .indices
                .iter()
                .all(|index| (LEAST_INDEX..=MOST_INDEX).contains(index))
    }

    /// The joined operators as one number: bit k stands for operator k.
    pub fn joined_mask(&self) -> u128 {
        mask(self.operators.iter().map(|operator| operator.joined))
    }

    /// The operators marked at an indicator as one number: bit k for operator k.
    pub fn mark_mask(&self, indicator: usize) -> u128 {
        mask(
            self.operators
                .iter()
                .map(|operator| operator.marks[indicator]),
        )
    }

    /// Has the operators joined whose bits are 1 and no others, without any check;
    /// unlike a join it leaves the marks.
    pub fn put_joined_mask(&mut self, mask: u16) {
        for k in 0..OPERATORS {
            self.operators[k].joined = (mask >> k) % 2 == 1;
        }
    }

    /// Marks the operators whose bits are 1 and no others, without any check.
    pub fn put_mark_mask(&mut self, indicator: usize, mask: u16) {
        for k in 0..OPERATORS {
            self.operators[k].marks[indicator] = (mask >> k) % 2 == 1;
        }
    }
}

#[cfg(test)]
mod tests {
    use super::*;

    /// A book with every value at its greatest.
    fn full() -> Book {
        let mut book = Book::fresh();
        for operator in &mut book.operators {
            *operator = Operator {
                joined: true,
                marks: vec![true; INDICATORS],
                cabins: [100_000; 3],
                access_points: 4_000_000,
                income: 100_000_000_000,
                figures: vec![vec![100_000_000_000; 13]; 3],
            };
        }
        book.pot_rate = 20_000;
        book.cap_rate = 20_000;
        book.indices = vec![100_000; 4];
        book
    }

    /// The book is out of range once any one of its operators is altered so.
    fn out_of_range_with(book: &Book, alter: impl Fn(&mut Operator)) {
        for k in 0..16 {
            out_of_range(book, |other| alter(&mut other.operators[k]));
        }
    }

    /// The book is out of range once it is altered so.
    fn out_of_range(book: &Book, alter: impl Fn(&mut Book)) {
        let mut other = book.clone();
        alter(&mut other);
        assert!(!other.in_range(), "{other:?}");
    }

    #[test]
    fn fresh_book() {
        let fresh = Operator {
            joined: false,
            marks: vec![false; 6],
            cabins: [0; 3],
            access_points: 0,
            income: 0,
            figures: vec![vec![0; 13]; 3],
        };
        assert!(fresh.is_fresh());
        let book = Book::fresh();
        assert_eq!(book.operators, vec![fresh; 16]);
        assert_eq!((book.pot_rate, book.cap_rate), (0, 0));
        assert_eq!(book.indices, vec![10_000; 4]);
        assert!(book.in_range());
    }

    #[test]
    fn settings_by_number() {
        let mut operator = Operator::fresh();
        operator.cabins = [1, 2, 3];
        operator.access_points = 4;
        operator.income = 5;
        // Cabins of year 0, access points, income, cabins of years 1 and 2.
        assert_eq!(operator.settings(), [1, 4, 5, 2, 3]);
        let mut other = Operator::fresh();
        for (setting, value) in NUMBERED_SETTINGS.into_iter().zip([1, 4, 5, 2, 3]) {
            other.put_setting(setting, value);
        }
        assert_eq!(other, operator);
        let most = NUMBERED_SETTINGS.map(Setting::most);
        let cabins = 100_000;
        assert_eq!(most, [cabins, 4_000_000, 100_000_000_000, cabins, cabins]);
    }

    #[test]
    fn places_of_the_figures() {
        let places: Vec<(usize, usize)> = figure_places().collect();
        assert_eq!(places.len(), 39);
        assert_eq!(places[..2], [(0, 0), (0, 1)]);
        assert_eq!(places[7..9], [(0, 7), (0, 8)]);
        assert_eq!(places[12..14], [(0, 12), (1, 0)]);
        assert_eq!(places[38], (2, 12));
    }

    #[test]
    fn ends_of_the_ranges_are_in_range() {
        assert!(full().in_range());
        let mut book = Book::fresh();
        book.indices = vec![1; 4];
        assert!(book.in_range());
        book.put_joined_mask(0x8001);
        assert!(book.in_range());
    }

    #[test]
    fn one_past_a_range() {
        let full = full();
        for year in 0..3 {
            out_of_range_with(&full, |operator| operator.cabins[year] += 1);
        }
        out_of_range_with(&full, |operator| operator.access_points += 1);
        out_of_range_with(&full, |operator| operator.income += 1);
        for (year, figure) in figure_places() {
            out_of_range_with(&full, |operator| operator.figures[year][figure] += 1);
        }
        out_of_range(&full, |book| book.pot_rate += 1);
        out_of_range(&full, |book| book.cap_rate += 1);
    }

    #[test]
    fn indices_out_of_range() {
        for (number, value) in (0..4).flat_map(|number| [(number, 0), (number, 100_001)]) {
            out_of_range(&full(), |book| book.indices[number] = value);
        }
    }

    #[test]
    fn figures_of_an_operator_not_joined() {
        let fresh = Book::fresh();
        for (year, figure) in figure_places() {
            out_of_range_with(&fresh, |operator| operator.figures[year][figure] = 1);
        }
    }

    #[test]
    fn other_values_of_an_operator_not_joined() {
        let fresh = Book::fresh();
        for year in 0..3 {
            out_of_range_with(&fresh, |operator| operator.cabins[year] = 1);
        }
        out_of_range_with(&fresh, |operator| operator.access_points = 1);
        out_of_range_with(&fresh, |operator| operator.income = 1);
        for indicator in 0..6 {
            out_of_range_with(&fresh, |operator| operator.marks[indicator] = true);
        }
    }

    /// A gas book with every value at its greatest.
    fn full_of_gas() -> Book {
        let mut book = full().lent_to(Sector::Gas);
        for operator in &mut book.operators {
            operator.cabins = [0; 3];
            operator.marks = vec![false, false, false, false, true, true];
            for year in &mut operator.figures {
                let [no, most] = [0, 100_000_000_000];
                *year = vec![no, no, no, no, most, most, most, most, no, no, no, no, no];
            }
        }
        book
    }

    #[test]
    fn ends_of_the_ranges_of_gas() {
        let book = full_of_gas();
        assert!(book.in_range());
        // It is in range for electricity as well, but not the other way round.
        assert!(book.lent_to(Sector::Electricity).in_range());
        assert!(!full().lent_to(Sector::Gas).in_range());
        assert!(Book::fresh_in(Sector::Gas).in_range());
        assert_eq!(
            Book::fresh_in(Sector::Gas),
            Book::fresh().lent_to(Sector::Gas)
        );
        out_of_range_with(&book, |operator| operator.access_points += 1);
        out_of_range_with(&book, |operator| operator.income += 1);
        out_of_range(&book, |book| book.pot_rate += 1);
        out_of_range(&book, |book| book.cap_rate += 1);
        out_of_range(&book, |book| book.indices[3] = 0);
    }

    #[test]
    fn what_gas_has_not_must_be_0() {
        let book = full_of_gas();
        for (year, figure) in figure_places() {
            // By 1 past the most, which is 0 for those that only electricity has.
            out_of_range_with(&book, |operator| operator.figures[year][figure] += 1);
        }
        for year in 0..3 {
            out_of_range_with(&book, |operator| operator.cabins[year] = 1);
        }
        for indicator in 0..4 {
            out_of_range_with(&book, |operator| operator.marks[indicator] = true);
        }
    }

    #[test]
    fn values_of_a_gas_operator_not_joined() {
        let fresh = Book::fresh_in(Sector::Gas);
        for (year, figure) in figure_places() {
            out_of_range_with(&fresh, |operator| operator.figures[year][figure] = 1);
        }
        for setting in NUMBERED_SETTINGS {
            out_of_range_with(&fresh, |operator| operator.put_setting(setting, 1));
        }
        for indicator in 0..6 {
            out_of_range_with(&fresh, |operator| operator.marks[indicator] = true);
        }
    }

    #[test]
    fn joined_masks() {
        let mut book = Book::fresh();
        assert_eq!(book.joined_mask(), 0);
        book.put_joined_mask(0x8005);
        assert_eq!(book.joined_mask(), 0x8005);
        assert_eq!(joined(&book.operators), [0, 2, 15]);
        book.put_joined_mask(2);
        assert_eq!(book.joined_mask(), 2);
        book.put_joined_mask(u16::MAX);
        assert_eq!(book.joined_mask(), 65_535);
    }

    /// The marks at one indicator are put and taken, the others stay.
    fn mask_is_put(indicator: usize) {
        let mut book = Book::fresh();
        book.put_mark_mask(indicator, 0x8001);
        let mut expected = Book::fresh();
        expected.operators[0].marks[indicator] = true;
        expected.operators[15].marks[indicator] = true;
        assert_eq!(book, expected);
        assert_eq!(book.mark_mask(indicator), 0x8001);
        assert_eq!(book.mark_mask((indicator + 1) % 6), 0);
        book.put_mark_mask(indicator, 0);
        assert_eq!(book, Book::fresh());
    }

    #[test]
    fn mark_masks() {
        (0..6).for_each(mask_is_put);
    }
}
