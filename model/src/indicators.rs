//! The indicators: yearly values, pools and the points of every operator.
//! Nothing here knows of money, so one set of points can be settled at many rates.

use crate::book::{joined, sizes, Book, Operator, OPERATORS, YEARS};
use crate::exponent;
use crate::sharing::share_wide;

/// The number of the index for June 2013.
const JUNE_2013: usize = 3;

/// How an indicator turns the operators' sums into weights.
#[derive(Clone, Copy, Debug, PartialEq, Eq)]
pub enum Kind {
    /// A: the exponent table, the better operators levelled.
    Interruptions,
    /// D: fees brought back to June 2013, weights on a straight line.
    Fees,
}

/// What a yearly value is divided by.
#[derive(Clone, Copy, Debug, PartialEq, Eq)]
pub enum Divisor {
    /// Those of the same year.
    Cabins,
    AccessPoints,
    /// The figure with that number, of the same year.
    Figure(usize),
}

/// One indicator; its number is its place in the list.
#[derive(Clone, Copy, Debug, PartialEq, Eq)]
pub struct Indicator {
    /// Points per year.
    pub points: u128,
    pub kind: Kind,
    /// The yearly value is factor × figure / divisor.
    pub factor: u128,
    pub figure: usize,
    pub divisor: Divisor,
}

/// The points of every operator, in hundredths.
#[derive(Clone, Debug, PartialEq, Eq)]
pub struct Points {
    /// By indicator.
    pub pools: Vec<u128>,
    /// By operator, then indicator.
    pub points: Vec<Vec<u128>>,
}

impl Points {
    pub fn zero(indicators: usize) -> Points {
        Points {
            pools: vec![0; indicators],
            points: vec![vec![0; indicators]; OPERATORS],
        }
    }

    /// The points of each operator over all indicators.
    pub fn totals(&self) -> Vec<u128> {
        self.points
            .iter()
            .map(|points| points.iter().sum())
            .collect()
    }
}

/// The list of 01, indicators 0 to 5.
/// Follows 01: "Points per year (annex 9, table 3): A1 154, A2 126, A3 66,
/// A4 54, D1 20, D2 5" and the three lines of yearly values below it.
pub fn indicators() -> Vec<Indicator> {
    vec![
        interruptions(154, 1_000_000, 0, Divisor::Cabins),
        interruptions(126, 1000, 1, Divisor::Figure(0)),
        interruptions(66, 1_000_000, 2, Divisor::AccessPoints),
        interruptions(54, 1000, 3, Divisor::Figure(2)),
        fees(20, 4, 5),
        fees(5, 6, 7),
    ]
}

fn interruptions(points: u128, factor: u128, figure: usize, divisor: Divisor) -> Indicator {
    Indicator {
        points,
        kind: Kind::Interruptions,
        factor,
        figure,
        divisor,
    }
}

fn fees(points: u128, figure: usize, divisor: usize) -> Indicator {
    Indicator {
        points,
        kind: Kind::Fees,
        factor: 10,
        figure,
        divisor: Divisor::Figure(divisor),
    }
}

/// The value of one operator in one year.
/// Follows 01: "Yearly value, rounded down; a zero divisor gives 0"; and 02, point 6:
/// "The A indicators keep their zero rule."
pub fn yearly_value(
    indicator: &Indicator,
    operator: &Operator,
    year: usize,
    indices: &[u128],
) -> u128 {
    let figures = &operator.figures[year];
    let mut dividend = indicator.factor * figures[indicator.figure];
    let mut divisor = match indicator.divisor {
        // Follows 02, point 3: "A1 divides by the year's own."
        Divisor::Cabins => operator.cabins[year],
        Divisor::AccessPoints => operator.access_points,
        Divisor::Figure(figure) => figures[figure],
    };
    // Follows 01: "10 × figure 4 × index 3 / (figure 5 × the year's index)"; and 02,
    // point 6: "For D1 and D2 a count of 0 is now taken as 1." Only the count is
    // replaced, so the year's index divides all the same.
    if indicator.kind == Kind::Fees {
        dividend *= indices[JUNE_2013];
        divisor = divisor.max(1) * indices[year];
    }
    if divisor == 0 {
        return 0;
    }
    dividend / divisor
}

/// Follows 01: "An operator's s is the sum of its three yearly values."
pub fn value_sum(indicator: &Indicator, operator: &Operator, indices: &[u128]) -> u128 {
    (0..YEARS)
        .map(|year| yearly_value(indicator, operator, year, indices))
        .sum()
}

/// The pool for `joined` operators (above 0), `unmarked` of them without a mark.
/// Follows 01: "Pool, in hundredths: 300 × points × m / n, rounded down."
pub fn pool(indicator: &Indicator, joined: u128, unmarked: u128) -> u128 {
    300 * indicator.points * unmarked / joined
}

/// Each s as parts of the largest s: k with 1000 parts, e with 100,000.
/// Follows 01: "k = 1000 × s / (largest s of the m), rounded down, or 0 if the
/// largest is 0".
pub fn parts_of_largest(parts: u128, sums: &[u128]) -> Vec<u128> {
    let largest = sums.iter().copied().max().unwrap_or(0);
    if largest == 0 {
        return vec![0; sums.len()];
    }
    sums.iter().map(|sum| parts * sum / largest).collect()
}

/// Which operators are better.
/// Follows 01: "Better operators have m × s below the sum of all s."
pub fn better(sums: &[u128]) -> Vec<bool> {
    let count = sums.len() as u128;
    let total: u128 = sums.iter().sum();
    sums.iter().map(|sum| count * sum < total).collect()
}

/// The weights after the better operators are levelled.
/// Follows 01: "With g better operators, g above 0, each of them takes the sum
/// of their weights and each other takes g times its own." With none the
/// weights stay.
pub fn levelled(weights: &[u128], better: &[bool]) -> Vec<u128> {
    let places = || weights.iter().zip(better);
    let group: Vec<u128> = places()
        .filter(|(_, &better)| better)
        .map(|(&weight, _)| weight)
        .collect();
    if group.is_empty() {
        return weights.to_vec();
    }
    let count = group.len() as u128;
    let sum: u128 = group.iter().sum();
    places()
        .map(|(weight, &better)| if better { sum } else { count * weight })
        .collect()
}

/// The weights of an A indicator from the sums of the unmarked operators.
/// Follows 01: "The weight of k stands in a table of 1001 numbers".
pub fn interruption_weights(sums: &[u128]) -> Vec<u128> {
    let table = exponent::table();
    let weights: Vec<u128> = parts_of_largest(1000, sums)
        .into_iter()
        .map(|k| table[k as usize])
        .collect();
    levelled(&weights, &better(sums))
}

/// The weights of a D indicator from the sums of the unmarked operators.
/// Follows 01: "e = 100,000 × s / (largest s), rounded down, or 0; the weight
/// is 1,000,000 - 6 × e."
pub fn fee_weights(sums: &[u128]) -> Vec<u128> {
    parts_of_largest(100_000, sums)
        .into_iter()
        .map(|e| 1_000_000 - 6 * e)
        .collect()
}

/// The weights of an indicator from the sums of the unmarked operators.
pub fn weights(indicator: &Indicator, sums: &[u128]) -> Vec<u128> {
    match indicator.kind {
        Kind::Interruptions => interruption_weights(sums),
        Kind::Fees => fee_weights(sums),
    }
}

/// The joined operators without a mark at an indicator, rising.
pub fn unmarked(book: &Book, number: usize) -> Vec<usize> {
    let mut operators = joined(&book.operators);
    operators.retain(|&k| !book.operators[k].marks[number]);
    operators
}

/// The s of each of these operators.
pub fn value_sums(book: &Book, indicator: &Indicator, operators: &[usize]) -> Vec<u128> {
    operators
        .iter()
        .map(|&k| value_sum(indicator, &book.operators[k], &book.indices))
        .collect()
}

/// Pools and points of a book with at least one joined operator, at the indicators of
/// its sector; 0 at the others.
/// Follows 01: "Marked operators get 0 and count nowhere else."
pub fn points(book: &Book, indicators: &[Indicator]) -> Points {
    let mut answer = Points::zero(indicators.len());
    for number in book.sector.indicators() {
        if let Some(indicator) = indicators.get(number) {
            put_points(&mut answer, book, number, indicator);
        }
    }
    answer
}

/// Puts the pool of one indicator and the shares of the unmarked operators.
fn put_points(answer: &mut Points, book: &Book, number: usize, indicator: &Indicator) {
    let joined = joined(&book.operators);
    let unmarked = unmarked(book, number);
    let weights = weights(indicator, &value_sums(book, indicator, &unmarked));
    let pool = pool(indicator, joined.len() as u128, unmarked.len() as u128);
    let shares = share_wide(pool, &weights, &sizes(&book.operators, &unmarked));
    answer.pools[number] = pool;
    for (k, share) in unmarked.into_iter().zip(shares) {
        answer.points[k][number] = share;
    }
}

#[cfg(test)]
mod tests {
    use super::*;
    use crate::book::{COUNTS, FIGURES, INDICATORS};

    const FRESH: [u128; 4] = [10_000; 4];

    /// The figures of a year: those that the indicators read, and counts that none
    /// of them reads.
    fn year_of(figures: [u128; 8]) -> Vec<u128> {
        [&figures[..], &[999; COUNTS]].concat()
    }

    /// A joined operator with the same cabins in every year and the given figures in
    /// year 0, all marks cleared.
    fn operator(cabins: u128, access_points: u128, figures: [u128; 8]) -> Operator {
        let mut operator = Operator::fresh();
        operator.joined = true;
        operator.cabins = [cabins; YEARS];
        operator.access_points = access_points;
        operator.figures[0] = year_of(figures);
        operator
    }

    /// The values of year 0 at all six indicators.
    fn values(operator: &Operator, indices: &[u128]) -> Vec<u128> {
        let mut values = Vec::new();
        for indicator in &indicators() {
            values.push(yearly_value(indicator, operator, 0, indices));
        }
        values
    }

    #[test]
    fn six_indicators_with_their_points() {
        let list = indicators();
        assert_eq!(list.len(), INDICATORS);
        let points: Vec<u128> = list.iter().map(|indicator| indicator.points).collect();
        assert_eq!(points, [154, 126, 66, 54, 20, 5]);
    }

    /// Whether the values of the year are others with another figure there.
    fn is_read(figure: usize) -> bool {
        let one = operator(3, 7, [2, 7, 5, 3, 11, 13, 23, 19]);
        let mut other = one.clone();
        other.figures[0][figure] += 100;
        values(&other, &FRESH) != values(&one, &FRESH)
    }

    #[test]
    fn the_counts_are_not_read() {
        let read: Vec<usize> = (0..FIGURES).filter(|&figure| is_read(figure)).collect();
        assert_eq!(read, [0, 1, 2, 3, 4, 5, 6, 7]);
    }

    #[test]
    fn yearly_values_are_rounded_down() {
        // 1000000 × 2 / 3, 1000 × 7 / 2, 1000000 × 5 / 7, 1000 × 3 / 5,
        // 10 × 11 / 13, 10 × 23 / 19.
        let one = operator(3, 7, [2, 7, 5, 3, 11, 13, 23, 19]);
        assert_eq!(
            values(&one, &FRESH),
            [666_666, 3500, 714_285, 600, 8, 12],
            "{one:?}"
        );
    }

    #[test]
    fn zero_divisors_give_zero_at_the_a_indicators() {
        // Seconds without weight; the fees are divided by 1.
        let one = operator(0, 0, [0, 7, 0, 3, 11, 0, 23, 0]);
        assert_eq!(values(&one, &FRESH), [0, 0, 0, 0, 110, 230]);
        // The most seconds, and indices that don't matter to them.
        let most = 100_000_000_000;
        let one = operator(1, 1, [0, most, 0, most, 0, 0, 0, 0]);
        assert_eq!(values(&one, &[1, 1, 1, 100_000]), [0; 6]);
        // Cabins and access points of 0 alone.
        let one = operator(0, 0, [1; 8]);
        assert_eq!(values(&one, &FRESH), [0, 1000, 0, 1000, 10, 10]);
        // A zero dividend.
        let one = operator(1, 1, [0, 0, 0, 0, 0, 1, 0, 1]);
        assert_eq!(values(&one, &FRESH), [0; 6]);
    }

    /// The values at D1 and D2 of year 0, which has the same fees and the same count
    /// at both.
    fn fee_values(fees: u128, count: u128, indices: &[u128]) -> Vec<u128> {
        let one = operator(1, 1, [0, 0, 0, 0, fees, count, fees, count]);
        values(&one, indices)[4..].to_vec()
    }

    #[test]
    fn a_count_of_0_is_taken_as_1() {
        // 10 × 25, undivided and by 2.
        assert_eq!(fee_values(25, 0, &FRESH), [250; 2]);
        assert_eq!(fee_values(25, 1, &FRESH), [250; 2]);
        assert_eq!(fee_values(25, 2, &FRESH), [125; 2]);
        // No fees weigh nothing.
        for count in [0, 1, 2] {
            assert_eq!(fee_values(0, count, &FRESH), [0; 2]);
        }
    }

    #[test]
    fn the_indices_stay_with_a_count_of_0() {
        // The year's: 10 × 25 × 10000 / 30000 = 83.33, by 2 it is 41.67.
        let dear = [30_000, 10_000, 10_000, 10_000];
        assert_eq!(fee_values(25, 0, &dear), [83; 2]);
        assert_eq!(fee_values(25, 1, &dear), [83; 2]);
        assert_eq!(fee_values(25, 2, &dear), [41; 2]);
        // That of June 2013: 10 × 25 × 3000 / 10000 = 75.
        let cheap_before = [10_000, 10_000, 10_000, 3000];
        assert_eq!(fee_values(25, 0, &cheap_before), [75; 2]);
        assert_eq!(fee_values(25, 1, &cheap_before), [75; 2]);
        assert_eq!(fee_values(25, 2, &cheap_before), [37; 2]);
        // Both: 10 × 25 × 3000 / 7000 = 107.14.
        let both = [7000, 10_000, 10_000, 3000];
        assert_eq!(fee_values(25, 0, &both), [107; 2]);
        assert_eq!(fee_values(25, 1, &both), [107; 2]);
        assert_eq!(fee_values(25, 2, &both), [53; 2]);
        // Rounded down to 0: 10 × 25 / 100000.
        assert_eq!(fee_values(25, 0, &[100_000, 1, 1, 1]), [0; 2]);
        // No fees, whatever the indices.
        assert_eq!(fee_values(0, 0, &[1, 1, 1, 100_000]), [0; 2]);
    }

    #[test]
    fn each_year_has_its_own_count_of_0() {
        // D1: 10 × 12 × 100 / 200, nothing, 10 × 12 × 100 / (3 × 400). D2: nothing,
        // 10 × 40 × 100 / 300, 10 × 40 × 100 / 400.
        let mut one = operator(1, 1, [0, 0, 0, 0, 12, 0, 0, 0]);
        one.figures[1] = year_of([0, 0, 0, 0, 0, 0, 40, 0]);
        one.figures[2] = year_of([0, 0, 0, 0, 12, 3, 40, 0]);
        let indices = [200, 300, 400, 100];
        let sums = [4, 5].map(|number| value_sum(&indicators()[number], &one, &indices));
        assert_eq!(sums, [60 + 10, 133 + 100]);
    }

    #[test]
    fn every_year_has_its_figures_and_its_index() {
        let mut one = operator(10, 10, [0; 8]);
        one.figures = vec![year_of([10; 8]), year_of([11; 8]), year_of([12; 8])];
        let indices = [100, 200, 400, 1000];
        let list = indicators();
        let of = |number: usize| -> Vec<u128> {
            (0..3)
                .map(|year| yearly_value(&list[number], &one, year, &indices))
                .collect()
        };
        assert_eq!(of(0), [1_000_000, 1_100_000, 1_200_000]);
        assert_eq!(of(1), [1000, 1000, 1000]);
        assert_eq!(of(2), [1_000_000, 1_100_000, 1_200_000]);
        assert_eq!(of(3), [1000, 1000, 1000]);
        assert_eq!(of(4), [100, 50, 25]);
        assert_eq!(of(5), [100, 50, 25]);
        let sums: Vec<u128> = list
            .iter()
            .map(|indicator| value_sum(indicator, &one, &indices))
            .collect();
        assert_eq!(sums, [3_300_000, 3000, 3_300_000, 3000, 175, 175]);
    }

    /// An operator with these cabins and MV weights by year; it has 10 access points
    /// and an LV weight of 1 in each year.
    fn network(cabins: [u128; 3], weights: [u128; 3]) -> Operator {
        let mut one = operator(1, 10, [0; 8]);
        one.cabins = cabins;
        one.figures = weights
            .map(|weight| year_of([weight, 0, 1, 0, 0, 0, 0, 0]))
            .to_vec();
        one
    }

    /// The yearly values at an indicator.
    fn by_year(number: usize, operator: &Operator) -> [u128; 3] {
        let indicator = &indicators()[number];
        [0, 1, 2].map(|year| yearly_value(indicator, operator, year, &FRESH))
    }

    #[test]
    fn a1_divides_by_the_cabins_of_its_year() {
        // 5 / 100, 9 / 200 and 40 / 400. Divided by year 0's cabins it would be
        // 50,000 + 90,000 + 400,000, with years 1 and 2 exchanged 50,000 + 22,500 +
        // 200,000, with years 0 and 2 exchanged 12,500 + 45,000 + 400,000.
        let one = network([100, 200, 400], [5, 9, 40]);
        assert_eq!(by_year(0, &one), [50_000, 45_000, 100_000]);
        assert_eq!(value_sum(&indicators()[0], &one, &FRESH), 195_000);
        // A shrinking network: 40 / 400, 9 / 200 and 5 / 100 have the same sum.
        let one = network([400, 200, 100], [40, 9, 5]);
        assert_eq!(by_year(0, &one), [100_000, 45_000, 50_000]);
        assert_eq!(value_sum(&indicators()[0], &one, &FRESH), 195_000);
        // Rounded down by year: 2 / 3, 2 / 7 and 2 / 9; 666666.67, 285714.29 and
        // 222222.22 would sum to 1174603.17.
        let one = network([3, 7, 9], [2; 3]);
        assert_eq!(by_year(0, &one), [666_666, 285_714, 222_222]);
        assert_eq!(value_sum(&indicators()[0], &one, &FRESH), 1_174_602);
    }

    #[test]
    fn a3_divides_by_the_access_points_in_every_year() {
        // 1 / 10, whatever the cabins.
        for cabins in [[1, 1, 1], [100, 200, 400], [400, 200, 100], [0, 0, 0]] {
            let one = network(cabins, [5, 9, 40]);
            assert_eq!(by_year(2, &one), [100_000; 3], "{cabins:?}");
        }
        // The weights may differ by year all the same: 1 / 10, 2 / 10, 4 / 10.
        let mut one = network([100, 200, 400], [5, 9, 40]);
        one.figures[1][2] = 2;
        one.figures[2][2] = 4;
        assert_eq!(by_year(2, &one), [100_000, 200_000, 400_000]);
        assert_eq!(by_year(0, &one), [50_000, 45_000, 100_000]);
    }

    #[test]
    fn only_a1_depends_on_the_cabins() {
        let mut one = operator(3, 7, [2, 7, 5, 3, 11, 13, 23, 19]);
        one.figures = vec![one.figures[0].clone(); 3];
        let sums = |one: &Operator| -> Vec<u128> {
            let list = indicators();
            let sums = list
                .iter()
                .map(|indicator| value_sum(indicator, one, &FRESH));
            sums.collect()
        };
        let before = sums(&one);
        for year in 0..3 {
            let mut other = one.clone();
            other.cabins[year] = 4;
            let after = sums(&other);
            // 666,666 in two years, 500,000 in one.
            assert_eq!((before[0], after[0]), (1_999_998, 1_833_332), "{year}");
            assert_eq!(after[1..], before[1..], "{year}");
        }
    }

    #[test]
    fn a_year_without_cabins_gives_zero_alone() {
        assert_eq!(
            by_year(0, &network([0, 2, 4], [1; 3])),
            [0, 500_000, 250_000]
        );
        assert_eq!(
            by_year(0, &network([1, 0, 4], [1; 3])),
            [1_000_000, 0, 250_000]
        );
        assert_eq!(
            by_year(0, &network([1, 2, 0], [1; 3])),
            [1_000_000, 500_000, 0]
        );
    }

    #[test]
    fn each_year_is_rounded_before_the_sum() {
        let mut one = operator(3, 3, [0; 8]);
        for year in 0..3 {
            one.figures[year] = year_of([1, 0, 1, 0, 1, 3, 1, 3]);
        }
        // 333333.33 and 3.33 each year.
        let list = indicators();
        assert_eq!(value_sum(&list[0], &one, &FRESH), 999_999);
        assert_eq!(value_sum(&list[2], &one, &FRESH), 999_999);
        assert_eq!(value_sum(&list[4], &one, &FRESH), 9);
        assert_eq!(value_sum(&list[5], &one, &FRESH), 9);
    }

    #[test]
    fn indices_at_their_ends() {
        let one = operator(1, 1, [0, 0, 0, 0, 50_000, 100, 123_456_789, 7]);
        // 10 × 50000 × 100000 / 100 and 10 × 123456789 × 100000 / 7.
        assert_eq!(
            values(&one, &[1, 1, 1, 100_000])[4..],
            [500_000_000, 17_636_684_142_857]
        );
        // 10 × 50000 / (100 × 100000) and 10 × 123456789 / (7 × 100000).
        assert_eq!(values(&one, &[100_000, 1, 1, 1])[4..], [0, 1763]);
        assert_eq!(
            values(&one, &[1, 100_000, 100_000, 1])[4..],
            [5000, 176_366_841]
        );
        assert_eq!(values(&one, &[100_000; 4])[4..], [5000, 176_366_841]);
    }

    #[test]
    fn largest_values() {
        let most = 100_000_000_000;
        let mut one = operator(1, 1, [most; 8]);
        assert_eq!(
            values(&one, &FRESH),
            [
                100_000_000_000_000_000,
                1000,
                100_000_000_000_000_000,
                1000,
                10,
                10
            ]
        );
        for count in [0, 1] {
            one.figures[0] = year_of([1, most, 1, most, most, count, most, count]);
            assert_eq!(
                values(&one, &[1, 1, 1, 100_000]),
                [
                    1_000_000,
                    100_000_000_000_000,
                    1_000_000,
                    100_000_000_000_000,
                    100_000_000_000_000_000,
                    100_000_000_000_000_000
                ]
            );
        }
    }

    #[test]
    fn pools() {
        let list = indicators();
        let of = |joined, unmarked| -> Vec<u128> {
            list.iter()
                .map(|indicator| pool(indicator, joined, unmarked))
                .collect()
        };
        assert_eq!(of(1, 1), [46_200, 37_800, 19_800, 16_200, 6000, 1500]);
        assert_eq!(of(16, 16), [46_200, 37_800, 19_800, 16_200, 6000, 1500]);
        assert_eq!(of(16, 0), [0; 6]);
        // One rounding, at the end: 46200 / 16 = 2887.5, 1500 / 16 = 93.75.
        assert_eq!(of(16, 1), [2887, 2362, 1237, 1012, 375, 93]);
        // 46200 × 5 / 7 is whole, 37800 × 5 / 7 too, 19800 × 5 / 7 = 14142.86.
        assert_eq!(of(7, 5), [33_000, 27_000, 14_142, 11_571, 4285, 1071]);
    }

    #[test]
    fn parts_are_rounded_down() {
        assert_eq!(parts_of_largest(1000, &[0, 1, 2, 3]), [0, 333, 666, 1000]);
        assert_eq!(parts_of_largest(1000, &[999, 1000, 1001]), [998, 999, 1000]);
        assert_eq!(parts_of_largest(1000, &[0, 0]), [0, 0]);
        assert_eq!(parts_of_largest(1000, &[5]), [1000]);
        assert_eq!(parts_of_largest(100_000, &[1, 3]), [33_333, 100_000]);
        assert_eq!(parts_of_largest(100_000, &[]), Vec::<u128>::new());
    }

    #[test]
    fn better_is_below_the_mean() {
        assert_eq!(better(&[1, 2, 3]), [true, false, false]);
        assert_eq!(better(&[1, 2, 4]), [true, true, false]);
        assert_eq!(better(&[5, 5, 5]), [false; 3]);
        assert_eq!(better(&[0, 0]), [false; 2]);
        assert_eq!(better(&[7]), [false]);
        assert_eq!(better(&[0, 1]), [true, false]);
    }

    #[test]
    fn levelling() {
        // The marked case.
        assert_eq!(levelled(&[10, 8, 4], &[true, true, false]), [18, 18, 8]);
        assert_eq!(levelled(&[4, 10, 8], &[false, true, true]), [8, 18, 18]);
        // None better: the weights stay.
        assert_eq!(levelled(&[10, 8, 4], &[false; 3]), [10, 8, 4]);
        // One better: it keeps its own, and so do the others.
        assert_eq!(levelled(&[10, 8, 4], &[true, false, false]), [10, 8, 4]);
    }

    #[test]
    fn interruption_weights_by_the_table() {
        let table = exponent::table();
        // k 0, 333, 666, 1000; the first two are below the mean of 1.5.
        let group = table[0] + table[333];
        assert_eq!(
            interruption_weights(&[0, 1, 2, 3]),
            [group, group, 2 * table[666], 2 * table[1000]]
        );
        // The better operator is the one with k = 4.
        assert_eq!(
            interruption_weights(&[4, 1000, 1000]),
            [996_005_996, table[1000], table[1000]]
        );
        assert_eq!(interruption_weights(&[0, 0]), [1_000_000_000; 2]);
        assert_eq!(interruption_weights(&[9, 9, 9]), [table[1000]; 3]);
        assert_eq!(interruption_weights(&[]), Vec::<u128>::new());
    }

    #[test]
    fn fee_weights_on_a_line() {
        assert_eq!(fee_weights(&[0, 5000]), [1_000_000, 400_000]);
        assert_eq!(fee_weights(&[1, 2, 3]), [800_002, 600_004, 400_000]);
        assert_eq!(fee_weights(&[0, 0]), [1_000_000; 2]);
        assert_eq!(fee_weights(&[3, 3]), [400_000; 2]);
        assert_eq!(fee_weights(&[]), Vec::<u128>::new());
    }

    #[test]
    fn marked_operators_count_nowhere_else() {
        // Operators 1 and 2 alone, then with a marked one of the worst values,
        // which lowers the pool but not their weights.
        let mut book = Book::fresh();
        book.operators[1] = operator(1000, 1, [1, 0, 0, 0, 0, 0, 0, 0]);
        book.operators[2] = operator(1000, 1, [4, 0, 0, 0, 0, 0, 0, 0]);
        let list = indicators();
        let alone = points(&book, &list);
        let table = exponent::table();
        assert_eq!(alone.pools[0], 46_200);
        assert_eq!(
            [alone.points[1][0], alone.points[2][0]],
            share_wide(46_200, &[table[250], table[1000]], &[1, 1])[..]
        );
        book.operators[0] = operator(1, 1, [1000; 8]);
        book.operators[0].marks[0] = true;
        let with_marked = points(&book, &list);
        assert_eq!(with_marked.pools[0], 30_800);
        let shares = share_wide(30_800, &[table[250], table[1000]], &[1, 1]);
        assert_eq!(
            [
                with_marked.points[0][0],
                with_marked.points[1][0],
                with_marked.points[2][0]
            ],
            [0, shares[0], shares[1]]
        );
        // A mark at one indicator leaves the others.
        assert!(with_marked.points[0][1] > 0);
    }

    #[test]
    fn sizes_decide_between_equal_hundredths() {
        let mut book = Book::fresh();
        for (k, size) in [2, 7, 7, 5, 7, 1, 1].into_iter().enumerate() {
            book.operators[k] = operator(1, size, [0; 8]);
        }
        let points = points(&book, &indicators());
        let of = |number: usize| [0, 1, 2, 3, 4, 5, 6].map(|k| points.points[k][number]);
        // 46200 / 7 and 37800 / 7 are whole.
        assert_eq!((of(0), of(1)), ([6600; 7], [5400; 7]));
        // 19800 = 7 × 2828 + 4: the three of 7, then that of 5.
        assert_eq!(of(2), [2828, 2829, 2829, 2829, 2829, 2828, 2828]);
        // 16200 = 7 × 2314 + 2: the lower two of the three of 7.
        assert_eq!(of(3), [2314, 2315, 2315, 2314, 2314, 2314, 2314]);
        // 6000 = 7 × 857 + 1.
        assert_eq!(of(4), [857, 858, 857, 857, 857, 857, 857]);
        // 1500 = 7 × 214 + 2.
        assert_eq!(of(5), [214, 215, 215, 214, 214, 214, 214]);
    }

    #[test]
    fn points_follow_the_list_given() {
        let mut book = Book::fresh();
        book.operators[0] = operator(1, 1, [1; 8]);
        let one = points(&book, &indicators()[..1]);
        assert_eq!(one.pools, [46_200]);
        assert_eq!(one.points[0], [46_200]);
        assert_eq!(one.points[1], [0]);
        assert_eq!(points(&book, &[]).totals(), [0; 16]);
    }
}
