//! Sharing an amount by weights: apportionment by largest remainders, ties by size.

use crate::product::divide_product;
use std::cmp::Reverse;

/// The shares of `t` by `weights`, in the order of the weights (rising operators);
/// `sizes` are the access points of the same operators.
/// Follows 01: "Sharing T by weights: each gets T × weight / (sum of weights)
/// rounded down; the units left over go one each to the largest remainders [...]
/// All weights 0: all get 0."
pub fn share(t: u64, weights: &[u64], sizes: &[u64]) -> Vec<u128> {
    assert_eq!(sizes.len(), weights.len(), "a size for each weight");
    let sum: u128 = weights.iter().map(|&weight| u128::from(weight)).sum();
    if sum == 0 {
        return vec![0; weights.len()];
    }
    let (mut shares, remainders): (Vec<u128>, Vec<u128>) = weights
        .iter()
        .map(|&weight| divide_product(t, weight, sum))
        .unzip();
    // The units left over are fewer than the places.
    let left_over = u128::from(t) - shares.iter().sum::<u128>();
    for &place in &in_order_of_service(&remainders, sizes)[..left_over as usize] {
        shares[place] += 1;
    }
    shares
}

/// The places in the order in which they get a unit left over.
/// Follows 02, point 7: "When two remainders are equal, the spare hundredth or cent
/// now goes to the operator with more access points, and only then to the lower
/// number."
fn in_order_of_service(remainders: &[u128], sizes: &[u64]) -> Vec<usize> {
    let mut places: Vec<usize> = (0..remainders.len()).collect();
    // Where both are equal the lower place stays first: the sort is stable.
    places.sort_by_key(|&place| Reverse((remainders[place], sizes[place])));
    places
}

/// The same sharing of whole numbers that are held wider; each is below 2^64.
pub fn share_wide(t: u128, weights: &[u128], sizes: &[u128]) -> Vec<u128> {
    let t = u64::try_from(t).expect("an amount past 64 bits");
    share(t, &narrow(weights), &narrow(sizes))
}

fn narrow(numbers: &[u128]) -> Vec<u64> {
    numbers
        .iter()
        .map(|&number| u64::try_from(number).expect("a weight or size past 64 bits"))
        .collect()
}

/// Answer to one line `T w0 .. wk m0 .. mk` of the subcommand `share`: the shares.
/// Follows 01: "Sharing T by weights", the weights being those of rising operators;
/// the sizes after them, as many, are those of the same operators.
pub fn answer(numbers: &[u64]) -> Result<Vec<u128>, String> {
    match numbers {
        [t, lists @ ..] if !lists.is_empty() && lists.len().is_multiple_of(2) => {
            let (weights, sizes) = lists.split_at(lists.len() / 2);
            Ok(share(*t, weights, sizes))
        }
        _ => Err("expected an amount, at least one weight and as many sizes".to_string()),
    }
}

#[cfg(test)]
mod tests {
    use super::*;

    const MAX: u64 = u64::MAX;

    /// The shares of operators of equal size.
    fn share_alike(t: u64, weights: &[u64]) -> Vec<u128> {
        share(t, weights, &vec![1; weights.len()])
    }

    /// One place of a sharing.
    struct Place {
        number: usize,
        size: u64,
        floor: u128,
        remainder: u128,
        share: u128,
    }

    /// The places of a sharing, worked out by the words of 01.
    fn places(t: u64, weights: &[u64], sizes: &[u64]) -> Vec<Place> {
        let sum: u128 = weights.iter().map(|&weight| u128::from(weight)).sum();
        let shares = share(t, weights, sizes);
        assert_eq!(shares.len(), weights.len());
        let place = |number: usize| {
            let product = u128::from(t) * u128::from(weights[number]);
            Place {
                number,
                size: sizes[number],
                floor: product / sum,
                remainder: product % sum,
                share: shares[number],
            }
        };
        (0..weights.len()).map(place).collect()
    }

    /// A place with a spare unit comes before every place without one.
    fn comes_before(with: &Place, without: &Place) -> bool {
        if with.remainder != without.remainder {
            return with.remainder > without.remainder;
        }
        with.size > without.size || (with.size == without.size && with.number < without.number)
    }

    /// Checks a sharing by weights that are not all 0, without making it again.
    fn check(t: u64, weights: &[u64], sizes: &[u64]) {
        let places = places(t, weights, sizes);
        let total: u128 = places.iter().map(|place| place.share).sum();
        assert_eq!(total, u128::from(t), "{t} by {weights:?}");
        let (with, without): (Vec<Place>, Vec<Place>) = places
            .into_iter()
            .partition(|place| place.share > place.floor);
        assert!(with.iter().all(|place| place.share == place.floor + 1));
        assert!(without.iter().all(|place| place.share == place.floor));
        let before_all = |with: &Place| without.iter().all(|other| comes_before(with, other));
        assert!(
            with.iter().all(before_all),
            "{t} by {weights:?} of {sizes:?}"
        );
    }

    #[test]
    fn marked_case() {
        // Follows 02, point 7: it "stands for equal access points".
        for size in [0, 1, 7, 4_000_000, MAX] {
            assert_eq!(share(10, &[1, 1, 1], &[size; 3]), [4, 3, 3], "{size}");
        }
    }

    #[test]
    fn wide_numbers_are_shared_alike() {
        assert_eq!(share_wide(10, &[1, 1, 1], &[1, 1, 1]), [4, 3, 3]);
        assert_eq!(share_wide(10, &[1, 1, 1], &[1, 1, 2]), [3, 3, 4]);
        let max = u128::from(MAX);
        assert_eq!(
            share_wide(max, &[max, 1], &[max, 0]),
            share(MAX, &[MAX, 1], &[MAX, 0])
        );
        assert_eq!(share_wide(0, &[], &[]), vec![]);
    }

    #[test]
    fn all_weights_zero() {
        assert_eq!(share(10, &[0], &[3]), [0]);
        assert_eq!(share(10, &[0, 0, 0], &[1, 2, 3]), [0, 0, 0]);
        assert_eq!(share_alike(MAX, &[0, 0]), [0, 0]);
        assert_eq!(share_alike(0, &[0, 0]), [0, 0]);
        assert_eq!(share_alike(10, &[]), vec![]);
    }

    #[test]
    fn nothing_to_share() {
        assert_eq!(share(0, &[1, 2, 3], &[1, 2, 3]), [0, 0, 0]);
    }

    #[test]
    fn one_place_takes_all() {
        assert_eq!(share(10, &[7], &[0]), [10]);
        assert_eq!(share(10, &[0, 7, 0], &[9, 1, 9]), [0, 10, 0]);
    }

    #[test]
    fn equal_remainders_are_served_by_size() {
        // 10/3 each: one unit left over, the largest is last.
        assert_eq!(share(10, &[1, 1, 1], &[1, 1, 2]), [3, 3, 4]);
        assert_eq!(share(10, &[1, 1, 1], &[1, 2, 2]), [3, 4, 3]);
        // 11/3 each: two units left over, the smallest is first.
        assert_eq!(share(11, &[1, 1, 1], &[1, 3, 2]), [3, 4, 4]);
        assert_eq!(share(11, &[1, 1, 1], &[2, 2, 3]), [4, 3, 4]);
        // A size of 0 is one like others.
        assert_eq!(share(1, &[1, 1], &[0, 1]), [0, 1]);
        // 2/4 and 6/4: remainders 2 and 2 of 4, though the weights differ.
        assert_eq!(share(2, &[1, 3], &[1, 3]), [0, 2]);
        assert_eq!(share(2, &[1, 3], &[3, 1]), [1, 1]);
        assert_eq!(share(2, &[1, 3], &[2, 2]), [1, 1]);
    }

    #[test]
    fn the_remainder_comes_before_the_size() {
        // Remainders 2, 4, 4 of 5: the first has no spare unit, though larger.
        assert_eq!(share(2, &[1, 2, 2], &[9, 1, 1]), [0, 1, 1]);
        // Remainders 1, 2, 2 of 5: the last has the only one.
        assert_eq!(share(1, &[1, 2, 2], &[9, 1, 2]), [0, 0, 1]);
    }

    #[test]
    fn equal_sizes_are_served_by_number() {
        assert_eq!(share_alike(1, &[1, 1]), [1, 0]);
        assert_eq!(share_alike(11, &[1, 1, 1]), [4, 4, 3]);
        assert_eq!(share_alike(1, &[0, 1, 1]), [0, 1, 0]);
        // Remainders 2, 4, 4 of 5: the first has no spare unit, though lower.
        assert_eq!(share_alike(2, &[1, 2, 2]), [0, 1, 1]);
        // Remainders 1, 2, 2 of 5: one unit, two equal largest remainders.
        assert_eq!(share_alike(1, &[1, 2, 2]), [0, 1, 0]);
    }

    #[test]
    fn spare_units_go_to_the_largest_remainders() {
        // 10/6, 20/6, 30/6: floors 1, 3, 5 and remainders 4, 2, 0.
        assert_eq!(share(10, &[1, 2, 3], &[1, 2, 3]), [2, 3, 5]);
        // 3/10, 9/10, 18/10: floors 0, 0, 1 and remainders 3, 9, 8.
        assert_eq!(share(3, &[1, 3, 6], &[3, 2, 1]), [0, 1, 2]);
    }

    #[test]
    fn sixteen_places() {
        // 100 = 16 × 6 + 4.
        let mut expected = vec![7; 4];
        expected.extend(vec![6; 12]);
        assert_eq!(share_alike(100, &[1; 16]), expected);
        let rising: Vec<u64> = (0..16).collect();
        expected.reverse();
        assert_eq!(share(100, &[1; 16], &rising), expected);
    }

    #[test]
    fn every_small_case() {
        // An amount of 0 to 12, three weights of 0 to 4, not all 0, and three sizes
        // of 0 to 2.
        let sizes = |case: u64| [case / 9, case / 3 % 3, case % 3];
        for case in (0..13 * 125).filter(|case| case % 125 != 0) {
            let weights = [case / 25 % 5, case / 5 % 5, case % 5];
            (0..27).for_each(|of_size| check(case / 125, &weights, &sizes(of_size)));
        }
    }

    #[test]
    fn large_cases() {
        let max = u128::from(MAX);
        // 2^64 - 1 is three times 6148914691236517205.
        let third = 6148914691236517205;
        assert_eq!(share_alike(MAX, &[MAX, MAX, MAX]), [third; 3]);
        let two_left_over = [third, third, third - 1];
        assert_eq!(share_alike(MAX - 1, &[MAX, MAX, MAX]), two_left_over);
        // The sum of weights is 2^64; remainders 1 and 2^64 - 1.
        assert_eq!(share_alike(MAX, &[MAX, 1]), [max - 1, 1]);
        assert_eq!(share_alike(MAX, &[1, MAX]), [1, max - 1]);
        // An odd amount, equal weights.
        let (half, less) = (9223372036854775808, 9223372036854775807);
        assert_eq!(share(MAX, &[MAX, MAX], &[MAX, MAX]), [half, less]);
        assert_eq!(share(MAX, &[MAX, MAX], &[MAX - 1, MAX]), [less, half]);
        check(MAX, &[MAX; 16], &[MAX; 16]);
        check(MAX - 1, &[MAX, MAX - 1, MAX - 2, 1, 0], &[0, 1, 2, 3, MAX]);
        check(MAX, &[3, MAX, 0, MAX / 2, MAX / 3, 7], &[1, 1, 2, 2, 3, 3]);
        check(
            10_000_000_000_000_000_000,
            &[9_999_999_999_999_999_999, 2],
            &[1, 2],
        );
    }

    #[test]
    #[should_panic(expected = "a size for each weight")]
    fn a_size_for_each_weight() {
        share(10, &[1, 1, 1], &[1, 1]);
    }

    #[test]
    fn malformed_lines() {
        assert!(answer(&[]).is_err());
        assert!(answer(&[10]).is_err());
        assert!(answer(&[10, 1]).is_err());
        assert!(answer(&[10, 1, 1, 1]).is_err());
        assert_eq!(answer(&[10, 1, 7]), Ok(vec![10]));
        assert_eq!(answer(&[10, 1, 1, 1, 7, 7, 7]), Ok(vec![4, 3, 3]));
        assert_eq!(answer(&[10, 1, 1, 1, 7, 7, 8]), Ok(vec![3, 3, 4]));
        // The weights come first.
        assert_eq!(answer(&[2, 1, 3, 9, 1]), Ok(vec![1, 1]));
    }
}
