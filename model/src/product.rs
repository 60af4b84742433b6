//! The exact quotient and remainder of a product of two 64-bit numbers.
//! Both operands are below 2^64, so the product always fits in 128 bits.

/// Quotient and remainder of `t * w` by `s`; `s` must not be 0.
/// Follows 01: "Some products pass 64 bits; the answer is exact all the same."
pub fn divide_product(t: u64, w: u64, s: u128) -> (u128, u128) {
    let product = u128::from(t) * u128::from(w);
    (product / s, product % s)
}

/// Answer to one line `t w s` of the subcommand `product`: quotient, remainder.
/// Follows 01: "T × weight / (sum of weights) rounded down", with the remainder.
pub fn answer(numbers: &[u64]) -> Result<Vec<u128>, String> {
    if numbers.len() != 3 {
        return Err(format!("expected 3 numbers, found {}", numbers.len()));
    }
    if numbers[2] == 0 {
        return Err("the divisor is 0".to_string());
    }
    let (quotient, remainder) = divide_product(numbers[0], numbers[1], u128::from(numbers[2]));
    Ok(vec![quotient, remainder])
}

#[cfg(test)]
mod tests {
    use super::*;

    const MAX: u64 = u64::MAX;

    #[test]
    fn small_products() {
        assert_eq!(divide_product(10, 1, 3), (3, 1));
        assert_eq!(divide_product(0, 7, 5), (0, 0));
        assert_eq!(divide_product(7, 0, 5), (0, 0));
        assert_eq!(divide_product(6, 7, 1), (42, 0));
        assert_eq!(divide_product(6, 7, 43), (0, 42));
    }

    fn rebuilds_the_product(t: u64, w: u64, s: u128) {
        let (quotient, remainder) = divide_product(t, w, s);
        assert!(remainder < s);
        assert_eq!(quotient * s + remainder, u128::from(t * w));
    }

    #[test]
    fn quotient_and_remainder_rebuild_the_product() {
        // Factors of 0 to 20 and divisors of 1 to 25.
        for case in 0..21 * 21 * 25 {
            rebuilds_the_product(case / 525, case / 25 % 21, u128::from(case % 25 + 1));
        }
    }

    #[test]
    fn products_past_64_bits() {
        let max = u128::from(MAX);
        assert_eq!(divide_product(MAX, MAX, max), (max, 0));
        // (2^64 - 1)^2 = 2^128 - 2^65 + 1
        assert_eq!(
            divide_product(MAX, MAX, 1),
            (340282366920938463426481119284349108225, 0)
        );
        // (2^64 - 1)^2 = (2^64 - 2) * 2^64 + 1
        assert_eq!(divide_product(MAX, MAX, 1 << 64), (max - 1, 1));
        // (2^64 - 1)^2 = 2^64 * (2^64 - 2) + 1
        assert_eq!(divide_product(MAX, MAX, max - 1), (max + 1, 1));
    }

    #[test]
    fn malformed_lines() {
        assert!(answer(&[]).is_err());
        assert!(answer(&[1, 2]).is_err());
        assert!(answer(&[1, 2, 3, 4]).is_err());
        assert!(answer(&[1, 2, 0]).is_err());
        assert_eq!(answer(&[10, 1, 3]), Ok(vec![3, 1]));
    }
}
