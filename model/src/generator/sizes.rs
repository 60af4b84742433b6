//! Filings in which the access points decide who has a unit left over: operators of
//! different sizes with equal remainders. Points have them in many other filings;
//! contributions, returns and the sharing after the limit have them here.

use super::draft::{amount, mark, setting, Draft};
use crate::book::{figure_places, Setting, NUMBERED_SETTINGS, SETTINGS, YEARS};
use crate::filing::Field;
use std::ops::Range;

/// The pot rate of these filings: the pot is a fiftieth of all incomes.
const POT_RATE: u32 = 20_000;
const INCOMES_TO_POT: u64 = 50;
/// So many operators have whole points at D1 and D2 if all fees are equal.
const EVEN_COUNTS: [usize; 6] = [4, 5, 6, 10, 12, 15];
/// The indicators of an operator, and the size that makes its weight in the returns
/// that of the others: 20, 5 and 25 points by 5, 20 and 4.
const SIZES_AGAINST_POINTS: [(&[usize], u64); 3] = [(&[4], 5), (&[5], 20), (&[4, 5], 4)];
/// The figures that D1 and D2 read, and those of them that they divide.
const OF_FEES: Range<usize> = 4..8;
const FEES: [usize; 2] = [4, 6];

/// Whether operators of different sizes have the same remainder, other than 0, if the
/// pot is one of so many parts of the sum of all sizes.
fn has_ties(sizes: &[u64], parts: u64) -> bool {
    let is_tie = |one: u64, other: u64| {
        one != other && one % parts == other % parts && !one.is_multiple_of(parts)
    };
    sizes
        .iter()
        .any(|&one| sizes.iter().any(|&other| is_tie(one, other)))
}

impl Draft {
    /// Operators with few points for each of many access points, or with many for each
    /// of few, so that their returns have equal remainders; with nearly equal incomes
    /// and a low cap, so that their cut amounts have too.
    pub fn sizes(&mut self) {
        let count = self.random.pick(&EVEN_COUNTS);
        let mut operators = self.some_operators(count);
        let mut sorts: Vec<(&[usize], u64)> = operators
            .iter()
            .map(|_| self.random.pick(&SIZES_AGAINST_POINTS))
            .collect();
        // Mostly the higher number is the larger, so that they contradict each other.
        if !self.random.one_in(3) {
            operators.sort();
            sorts.sort_by_key(|&(_, size)| size);
        }
        let sizes = self.multiples(sorts.iter().map(|&(_, size)| size));
        self.join_sized(&operators, sizes);
        for (&operator, (indicators, _)) in operators.iter().zip(sorts) {
            let marks = indicators.iter().map(|&one| mark(operator, one, 0));
            self.file_all(marks.collect());
            self.fill_other_figures(operator);
        }
        self.file_equal_fees(&operators);
        let low = 1 + self.random.up_to(299) as u32;
        let any = self.rate();
        let cap = self.random.pick(&[low, low, low, low, any]);
        self.file(Field::Rates { pot: POT_RATE, cap });
    }

    /// The same multiple of most of these sizes.
    fn multiples(&mut self, sizes: impl Iterator<Item = u64>) -> Vec<u64> {
        let most = 1 + self.random.up_to(8);
        let mut multiples = Vec::new();
        for size in sizes {
            let other = 1 + self.random.up_to(8);
            multiples.push(size * self.random.pick(&[most, most, most, other]));
        }
        multiples
    }

    /// Joins operators of these sizes, but for the first of them, and of nearly the same
    /// income, so that the contributions have equal remainders.
    fn join_sized(&mut self, operators: &[u8], mut sizes: Vec<u64>) {
        let pot = self.pot_for(&mut sizes);
        let income = (INCOMES_TO_POT * pot).div_ceil(operators.len() as u64);
        let cabins = self.random.pick(&[1, 8, 100, 1000]);
        for (&operator, size) in operators.iter().zip(sizes) {
            // Too little to add a cent to the pot.
            let more = self.random.up_to(2);
            self.file(Field::Join { operator });
            self.file_settings(operator, [cabins, size, income + more]);
        }
    }

    /// A pot of the sum of all sizes a number of times and a few parts of it, such that
    /// contributions have equal remainders; the first size is raised to make the parts
    /// whole.
    fn pot_for(&mut self, sizes: &mut [u64]) -> u64 {
        let mut numbers = vec![2, 3, 4, 5, 8];
        numbers.retain(|&parts| has_ties(&sizes[1..], parts));
        if numbers.is_empty() {
            numbers.push(2);
        }
        let parts = self.random.pick(&numbers);
        let sum: u64 = sizes.iter().sum();
        let raised = sum.next_multiple_of(parts);
        sizes[0] += raised - sum;
        let broken = 1 + self.random.up_to(parts - 2);
        raised / parts * (parts * self.random.up_to(9999) + broken)
    }

    /// Files all settings: the cabins of every year, the access points, the income.
    fn file_settings(&mut self, operator: u8, [cabins, size, income]: [u64; 3]) {
        let value = |which: usize| match NUMBERED_SETTINGS[which] {
            Setting::Cabins(_) => cabins,
            Setting::AccessPoints => size,
            Setting::Income => income,
        };
        let settings = (0..SETTINGS).map(|which| setting(operator, which, value(which)));
        self.file_all(settings.collect());
    }

    /// Mostly files the same fees for every operator, in a year without connections.
    fn file_equal_fees(&mut self, operators: &[u8]) {
        if self.random.one_in(3) {
            return;
        }
        let place = (self.random.place(YEARS), self.random.pick(&FEES));
        let value = 1 + self.random.up_to(9999);
        let fees = operators.iter().map(|&one| amount(one, place, 0, value));
        self.file_all(fees.collect());
    }

    /// Files amounts at about half of the other figures. They move no points, because
    /// nobody is attested at A, but they are on the sheets.
    fn fill_other_figures(&mut self, operator: u8) {
        for place in figure_places().filter(|(_, figure)| !OF_FEES.contains(figure)) {
            if self.random.one_in(2) {
                let value = 1 + self.random.up_to(99);
                self.file(amount(operator, place, 0, value));
            }
        }
    }
}
