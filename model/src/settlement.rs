//! Settling a book: the refusals, then points, then money.

#[cfg(test)]
pub mod served;
#[cfg(test)]
mod ties;

use crate::book::{Book, Operator, Setting, INDICATORS, NUMBERED_SETTINGS};
use crate::calls::Answer;
use crate::indicators::{indicators, points, Points};
use crate::money::{money, Money};
use crate::order::first_that_applies;

/// Follows 01: "The settlement holds all points, pools, pot, limits,
/// contributions, returns and adjustments".
#[derive(Clone, Debug, PartialEq, Eq)]
pub struct Settlement {
    pub points: Points,
    pub money: Money,
}

impl Settlement {
    pub fn zero() -> Settlement {
        Settlement {
            points: Points::zero(INDICATORS),
            money: Money::zero(),
        }
    }
}

/// Settles a book, which is unchanged.
/// Follows 01: "it is all 0 on refusal and for operators not joined."
pub fn settle(book: &Book) -> (Answer, Settlement) {
    if let Some(number) = refusal(book) {
        return (Answer::Refused(number), Settlement::zero());
    }
    let points = points(book, &indicators());
    let money = money(
        &book.operators,
        &points.totals(),
        book.pot_rate,
        book.cap_rate,
    );
    (Answer::Yes, Settlement { points, money })
}

/// The number by which settling is refused, if any.
/// Follows 01's table of answers, numbers 5, 10, 11 and 12; and for the cabins 02,
/// point 3: "Refusal 11 is given if any of the three is 0." Marks don't matter to it.
/// For gas it follows 02, point 4: "Refusal 11 looks at access points alone, and
/// refusal 12 at the two gas indicators."
pub fn refusal(book: &Book) -> Option<u8> {
    let joined: Vec<&Operator> = book
        .operators
        .iter()
        .filter(|operator| operator.joined)
        .collect();
    let sector = book.sector;
    let mut sizes = NUMBERED_SETTINGS.to_vec();
    sizes.retain(|&setting| sector.has_setting(setting) && setting != Setting::Income);
    let without_size =
        |operator: &&Operator| sizes.iter().any(|&setting| operator.setting(setting) == 0);
    let all_marked =
        |operator: &&Operator| sector.indicators().all(|number| operator.marks[number]);
    first_that_applies(&[
        (5, !book.in_range()),
        (10, joined.is_empty()),
        (11, joined.iter().any(without_size)),
        (12, joined.iter().all(all_marked)),
    ])
}
