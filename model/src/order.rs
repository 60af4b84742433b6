//! The order in which the numbers of the table of answers are looked at, and which of
//! several that apply is given.

/// All numbers of the table, the one looked at first before the others.
/// Follows 01's table of answers, in which they rise; and 02, point 8: "Start after end
/// is 14, a time outside the period 15, in the order 4, 5, 14, 15, 6."
const ORDER: [u8; 15] = [1, 2, 3, 4, 5, 14, 15, 6, 7, 8, 9, 10, 11, 12, 13];

/// The place of a number in the order.
fn rank(number: u8) -> usize {
    ORDER
        .iter()
        .position(|&one| one == number)
        .expect("a number of the table of answers")
}

/// The number that is given, if any. Each number comes with whether it applies.
/// Follows 01: "The lowest number that applies is given."; and 02, point 8: "Where the
/// table of answers and the history say the lowest, the first in this order is now
/// meant."
pub fn first_that_applies(conditions: &[(u8, bool)]) -> Option<u8> {
    conditions
        .iter()
        .filter(|(_, applies)| *applies)
        .map(|(number, _)| *number)
        .min_by_key(|&number| rank(number))
}

#[cfg(test)]
mod tests {
    use super::*;

    /// Of the two numbers the first is given, whichever is named first.
    fn comes_before(one: u8, other: u8) {
        let both = [(one, true), (other, true)];
        assert_eq!(first_that_applies(&both), Some(one), "{both:?}");
        let turned = [(other, true), (one, true)];
        assert_eq!(first_that_applies(&turned), Some(one), "{turned:?}");
    }

    #[test]
    fn every_number_has_one_place() {
        let mut numbers = ORDER;
        numbers.sort();
        assert_eq!(numbers.to_vec(), (1..=15).collect::<Vec<u8>>());
    }

    fn stands_between_5_and_6(number: u8) {
        (1..=5).for_each(|earlier| comes_before(earlier, number));
        (6..=13).for_each(|later| comes_before(number, later));
    }

    #[test]
    fn times_stand_between_5_and_6() {
        stands_between_5_and_6(14);
        stands_between_5_and_6(15);
        comes_before(14, 15);
    }

    #[test]
    fn the_others_rise() {
        // Each before the next, so each before all after it.
        (1..13).for_each(|number| comes_before(number, number + 1));
    }

    #[test]
    fn only_numbers_that_apply_are_given() {
        assert_eq!(first_that_applies(&[]), None);
        assert_eq!(first_that_applies(&[(5, false), (14, false)]), None);
        let conditions = [(5, false), (7, true), (14, false), (15, true)];
        assert_eq!(first_that_applies(&conditions), Some(15));
        assert_eq!(first_that_applies(&[(14, false), (13, true)]), Some(13));
    }

    #[test]
    #[should_panic(expected = "a number of the table of answers")]
    fn a_number_outside_the_table_is_a_mistake() {
        first_that_applies(&[(0, true), (5, true)]);
    }
}
