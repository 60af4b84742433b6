//! The exponent weights: the table that turns k, 0 to 1000, into a weight.

/// The weights of k = 0 to 1000, in order.
/// Follows 01: "The weight of k stands in a table of 1001 numbers: the first is
/// 1,000,000,000, each next is 999/1000 of the one before, rounded down."
pub fn table() -> Vec<u128> {
    let mut weights = vec![1_000_000_000];
    for k in 0..1000 {
        weights.push(weights[k] * 999 / 1000);
    }
    weights
}

#[cfg(test)]
mod tests {
    use super::*;

    #[test]
    fn marked_cases() {
        let weights = table();
        assert_eq!(weights[0], 1_000_000_000);
        assert_eq!(weights[4], 996_005_996);
    }

    #[test]
    fn first_weights() {
        let first = [
            1_000_000_000,
            999_000_000,
            998_001_000,
            997_002_999,
            996_005_996,
        ];
        assert_eq!(table()[..5], first);
    }

    #[test]
    fn table_has_1001_weights() {
        assert_eq!(table().len(), 1001);
    }

    #[test]
    fn each_next_is_rounded_down() {
        // next is the floor: 1000 * next <= 999 * before < 1000 * (next + 1)
        let is_floor = |pair: &[u128]| {
            let exact = 999 * pair[0];
            (1000 * pair[1]..1000 * (pair[1] + 1)).contains(&exact)
        };
        assert!(table().windows(2).all(is_floor));
    }

    #[test]
    fn weights_fall_and_stay_above_zero() {
        let weights = table();
        assert!(weights.windows(2).all(|pair| pair[1] < pair[0]));
        assert!(weights[1000] > 0);
    }
}
