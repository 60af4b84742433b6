//! The money of a settlement: pot, contributions, returns, limits and
//! adjustments, for points already given and at any rates.

use crate::book::{joined, sizes, Operator, OPERATORS};
use crate::sharing::share_wide;

const MILLIONTHS: u128 = 1_000_000;

/// All amounts in cents; the lists by operator.
#[derive(Clone, Debug, PartialEq, Eq)]
pub struct Money {
    pub pot: u128,
    pub contributions: Vec<u128>,
    pub returns: Vec<u128>,
    pub limits: Vec<u128>,
    pub adjustments: Vec<i128>,
}

impl Money {
    pub fn zero() -> Money {
        Money {
            pot: 0,
            contributions: vec![0; OPERATORS],
            returns: vec![0; OPERATORS],
            limits: vec![0; OPERATORS],
            adjustments: vec![0; OPERATORS],
        }
    }
}

/// The money of the joined operators; `points` are those of each operator over
/// all indicators.
/// Follows 01: "Pot = pot rate × (sum of incomes) / 1,000,000, rounded down.
/// Contributions share the pot by access points. Returns share it by access
/// points × points. Difference = return - contribution. Limit = cap rate ×
/// income / 1,000,000, rounded down." All of it is shared with the same sizes.
pub fn money(operators: &[Operator], points: &[u128], pot_rate: u128, cap_rate: u128) -> Money {
    // The lists are those of the joined operators, rising.
    let joined = joined(operators);
    let listed =
        |value: &dyn Fn(usize) -> u128| -> Vec<u128> { joined.iter().map(|&k| value(k)).collect() };
    let incomes = listed(&|k| operators[k].income);
    let sizes = sizes(operators, &joined);
    let return_weights = listed(&|k| operators[k].access_points * points[k]);
    let limits = listed(&|k| cap_rate * operators[k].income / MILLIONTHS);

    let pot = pot_rate * incomes.iter().sum::<u128>() / MILLIONTHS;
    // Contributions are shared by the sizes themselves.
    let contributions = share_wide(pot, &sizes, &sizes);
    let returns = share_wide(pot, &return_weights, &sizes);
    let adjustments = adjustments(&less(&returns, &contributions), &limits, &sizes);
    Money {
        pot,
        contributions: spread(&joined, &contributions),
        returns: spread(&joined, &returns),
        limits: spread(&joined, &limits),
        adjustments: spread(&joined, &adjustments),
    }
}

/// The values at the places of the joined operators, 0 at the others.
fn spread<T: Copy + Default>(joined: &[usize], values: &[T]) -> Vec<T> {
    let mut list = vec![T::default(); OPERATORS];
    for (&k, &value) in joined.iter().zip(values) {
        list[k] = value;
    }
    list
}

/// Each value of the first list less that of the second.
fn less(first: &[u128], second: &[u128]) -> Vec<i128> {
    first
        .iter()
        .zip(second)
        .map(|(&first, &second)| first as i128 - second as i128)
        .collect()
}

/// The adjustments that follow from the differences and their limits; the sizes are
/// those of the same operators.
/// Follows 01: "Each difference is cut to its limit on either side. Of the sum
/// of bonuses and the sum of maluses, the larger side is shared again to the
/// smaller sum, by its cut amounts." The sums are those of the cut amounts;
/// with equal sums both sides stay.
pub fn adjustments(differences: &[i128], limits: &[u128], sizes: &[u128]) -> Vec<i128> {
    let cuts: Vec<i128> = differences
        .iter()
        .zip(limits)
        .map(|(&difference, &limit)| cut(difference, limit))
        .collect();
    // Each place has 0 on the side it is not on.
    let mut bonuses: Vec<u128> = cuts.iter().map(|&cut| cut.max(0) as u128).collect();
    let mut maluses: Vec<u128> = cuts.iter().map(|&cut| (-cut).max(0) as u128).collect();
    let bonus_sum: u128 = bonuses.iter().sum();
    let malus_sum: u128 = maluses.iter().sum();
    if bonus_sum > malus_sum {
        bonuses = share_wide(malus_sum, &bonuses, sizes);
    }
    if malus_sum > bonus_sum {
        maluses = share_wide(bonus_sum, &maluses, sizes);
    }
    less(&bonuses, &maluses)
}

/// The difference, not beyond its limit on either side.
pub fn cut(difference: i128, limit: u128) -> i128 {
    let limit = limit as i128;
    difference.clamp(-limit, limit)
}

#[cfg(test)]
mod tests {
    use super::*;

    /// Joined operators with those access points and incomes.
    fn operators(settings: &[(u128, u128)]) -> Vec<Operator> {
        let operator = |&(access_points, income): &(u128, u128)| Operator {
            joined: true,
            cabins: [1; 3],
            access_points,
            income,
            ..Operator::fresh()
        };
        let mut operators: Vec<Operator> = settings.iter().map(operator).collect();
        operators.resize(OPERATORS, Operator::fresh());
        operators
    }

    /// Points of the first operators, 0 for the others.
    fn totals(first: &[u128]) -> Vec<u128> {
        let mut totals = first.to_vec();
        totals.resize(OPERATORS, 0);
        totals
    }

    /// The adjustments of operators of equal size.
    fn adjusted(differences: &[i128], limits: &[u128]) -> Vec<i128> {
        adjustments(differences, limits, &vec![1; limits.len()])
    }

    #[test]
    fn cuts() {
        assert_eq!(cut(5, 5), 5);
        assert_eq!(cut(6, 5), 5);
        assert_eq!(cut(4, 5), 4);
        assert_eq!(cut(-5, 5), -5);
        assert_eq!(cut(-6, 5), -5);
        assert_eq!(cut(-4, 5), -4);
        assert_eq!(cut(0, 0), 0);
        assert_eq!(cut(7, 0), 0);
        assert_eq!(cut(-7, 0), 0);
    }

    #[test]
    fn within_the_limits_the_differences_stand() {
        assert_eq!(adjusted(&[3, -2, 0, -1], &[9; 4]), [3, -2, 0, -1]);
        assert_eq!(adjusted(&[0, 0], &[9, 9]), [0, 0]);
        assert_eq!(adjusted(&[], &[]), Vec::<i128>::new());
    }

    #[test]
    fn bonus_side_larger() {
        // Cut: 30, 20, -10, -25; 35 is shared by 30 and 20.
        assert_eq!(
            adjusted(&[30, 20, -10, -40], &[100, 100, 100, 25]),
            [21, 14, -10, -25]
        );
        // Cut: 10, 10, 10, -10; the unit left over goes to the lowest.
        assert_eq!(adjusted(&[10, 10, 10, -30], &[10; 4]), [4, 3, 3, -10]);
        // The place of the malus does not matter to the bonuses.
        assert_eq!(adjusted(&[-30, 10, 10, 10], &[10; 4]), [-10, 4, 3, 3]);
    }

    #[test]
    fn malus_side_larger() {
        assert_eq!(
            adjusted(&[-30, -20, 10, 40], &[100, 100, 100, 25]),
            [-21, -14, 10, 25]
        );
        // Ties to the lower operator among the maluses too.
        assert_eq!(adjusted(&[-10, -10, 30, -10], &[10; 4]), [-4, -3, 10, -3]);
    }

    #[test]
    fn sizes_decide_between_equal_remainders() {
        // Cut: 10, 10, 10, -10; the unit left over goes to the largest of the three,
        // whatever the size of the fourth.
        let limits = [10; 4];
        let bonuses = |sizes: [u128; 4]| adjustments(&[10, 10, 10, -30], &limits, &sizes);
        assert_eq!(bonuses([1, 2, 3, 9]), [3, 3, 4, -10]);
        assert_eq!(bonuses([1, 3, 3, 9]), [3, 4, 3, -10]);
        assert_eq!(bonuses([3, 2, 3, 9]), [4, 3, 3, -10]);
        let maluses = |sizes: [u128; 4]| adjustments(&[-10, -10, 30, -10], &limits, &sizes);
        assert_eq!(maluses([1, 2, 9, 3]), [-3, -3, 10, -4]);
        assert_eq!(maluses([1, 3, 9, 3]), [-3, -4, 10, -3]);
        // Cut: 1, 3, -2; remainders 2 and 2 of 4, the larger amount is of the smaller.
        assert_eq!(adjustments(&[1, 3, -9], &[9, 9, 2], &[5, 4, 9]), [1, 1, -2]);
        assert_eq!(adjustments(&[1, 3, -9], &[9, 9, 2], &[4, 5, 9]), [0, 2, -2]);
        // Cut: 1, 2, -2; remainders 2 and 1 of 3.
        assert_eq!(adjustments(&[1, 2, -9], &[9, 9, 2], &[4, 5, 9]), [1, 1, -2]);
    }

    #[test]
    fn the_cut_amounts_are_the_weights() {
        // Cut: 10, 10, -8; by the differences 90 and 10 it would be 7 and 1.
        assert_eq!(adjusted(&[90, 10, -100], &[10, 10, 8]), [4, 4, -8]);
    }

    #[test]
    fn equal_sides_stand() {
        // Cut: 7, 5, -6, -6.
        assert_eq!(adjusted(&[7, 5, -6, -6], &[7, 5, 6, 6]), [7, 5, -6, -6]);
        assert_eq!(adjusted(&[8, 6, -7, -7], &[7, 5, 6, 6]), [7, 5, -6, -6]);
    }

    #[test]
    fn zero_limits() {
        assert_eq!(adjusted(&[30, -20, -10], &[0; 3]), [0; 3]);
        // One side without any room leaves nothing for the other.
        assert_eq!(adjusted(&[30, -20, -10], &[0, 50, 50]), [0; 3]);
        assert_eq!(adjusted(&[30, -20, -10], &[50, 0, 0]), [0; 3]);
        assert_eq!(adjusted(&[30, -20, -10], &[50, 0, 50]), [10, 0, -10]);
    }

    /// The adjustments sum to 0, and each is between 0 and its cut amount, so
    /// that it doesn't pass its limit.
    fn within_the_cut_amounts(differences: &[i128], limits: &[u128]) {
        let answers = adjusted(differences, limits);
        assert_eq!(answers.iter().sum::<i128>(), 0);
        let between = |place: usize| {
            let cut = cut(differences[place], limits[place]);
            (cut.min(0)..=cut.max(0)).contains(&answers[place])
        };
        assert!((0..answers.len()).all(between), "{differences:?}");
    }

    /// The same for three small differences of every kind.
    fn all_within_the_cut_amounts(limits: [u128; 3]) {
        for (a, b) in (-6..=6).flat_map(|a| (-6..=6).map(move |b| (a, b))) {
            within_the_cut_amounts(&[a, b, -a - b], &limits);
        }
    }

    #[test]
    fn limits_are_not_passed() {
        for limits in [[0, 1, 2], [3, 1, 4], [2, 2, 2], [5, 6, 7], [6, 0, 12]] {
            all_within_the_cut_amounts(limits);
        }
    }

    #[test]
    fn pot_and_limits_are_rounded_down() {
        // Incomes 999 and 1000: 1000 × 1999 / 1000000 is 1.999.
        let operators = operators(&[(1, 999), (1, 1000)]);
        let answer = money(&operators, &totals(&[1, 1]), 1000, 1000);
        assert_eq!(answer.pot, 1);
        assert_eq!(answer.contributions[..2], [1, 0]);
        assert_eq!(answer.returns[..2], [1, 0]);
        assert_eq!(answer.limits[..2], [0, 1]);
        assert_eq!(answer.adjustments, [0; 16]);
    }

    #[test]
    fn shares_of_the_pot() {
        // Pot 20000 × 500 / 1000000 = 10; contributions by 1, 2, 2; returns by
        // 3 × 1, 1 × 2, 0 × 2.
        let operators = operators(&[(1, 500), (2, 0), (2, 0)]);
        let answer = money(&operators, &totals(&[3, 1, 0]), 20_000, 20_000);
        assert_eq!(answer.pot, 10);
        assert_eq!(answer.contributions[..3], [2, 4, 4]);
        assert_eq!(answer.returns[..3], [6, 4, 0]);
        assert_eq!(answer.limits[..3], [10, 0, 0]);
        assert_eq!(answer.adjustments, [0; 16]);
    }

    #[test]
    fn sizes_decide_between_equal_cents() {
        // Pot 20000 × 100 / 1000000 = 2. Contributions: 2/4 and 6/4. Returns by 1 × 6
        // and 3 × 2: 2 × 6 / 12 is 1 each.
        let operators = operators(&[(1, 50), (3, 50)]);
        let answer = money(&operators, &totals(&[6, 2]), 20_000, 20_000);
        assert_eq!(answer.contributions[..2], [0, 2]);
        assert_eq!(answer.returns[..2], [1, 1]);
        assert_eq!(answer.adjustments[..2], [1, -1]);
    }

    #[test]
    fn sizes_decide_between_equal_return_weights() {
        // Pot 20000 × 150 / 1000000 = 3. Contributions: 3/4 and 9/4. Returns by 1 × 6
        // and 3 × 2: 3/2 each.
        let operators = operators(&[(1, 75), (3, 75)]);
        let answer = money(&operators, &totals(&[6, 2]), 20_000, 20_000);
        assert_eq!(answer.contributions[..2], [1, 2]);
        assert_eq!(answer.returns[..2], [1, 2]);
        assert_eq!(answer.adjustments, [0; 16]);
    }

    #[test]
    fn one_set_of_points_at_many_rates() {
        let operators = operators(&[(1000, 100_000_000), (3000, 200_000_000)]);
        let points = totals(&[65_036, 62_464]);
        let at_rates = |pot_rate: u128, cap_rate: u128| {
            let money = money(&operators, &points, pot_rate, cap_rate);
            money.adjustments[..2].to_vec()
        };
        for (pot_rate, cap_rate, first) in [
            (5000, 10_000, 11_463),
            (5000, 50, 5000),
            (5000, 0, 0),
            (0, 10_000, 0),
        ] {
            assert_eq!(at_rates(pot_rate, cap_rate), [first, -first]);
        }
    }
}
