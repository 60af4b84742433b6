//! The fees of D1 and D2 and the connections they are divided by: years with fees and
//! no connections, from the start or by a withdrawal.

use super::draft::{Draft, MOST};
use crate::book::{Operator, YEARS};

/// The figures that D1 reads, and those that D2 reads: the fees, and the count of
/// connections or reconnections.
const FEES_AND_COUNTS: [(usize, usize); 2] = [(4, 5), (6, 7)];

/// Every year with the fees and the count of each of the two.
fn fee_places() -> impl Iterator<Item = (usize, usize, usize)> {
    (0..YEARS).flat_map(|year| FEES_AND_COUNTS.map(|(fees, count)| (year, fees, count)))
}

impl Draft {
    /// Leaves about half of the years without connections, a quarter with few, and
    /// brings the fees near each other by connection, so that the points hang on every
    /// count and index. A year without connections has the fees of one.
    pub fn suit_fees(&mut self, values: &mut Operator) {
        for (year, fees, count) in fee_places() {
            let figures = &mut values.figures[year];
            match self.random.up_to(3) {
                0 | 1 => figures[count] = 0,
                2 => figures[count] = u128::from(1 + self.random.up_to(2)),
                _ => {}
            }
            let of_one = u128::from(1 + self.random.up_to(9999));
            figures[fees] = (figures[count].max(1) * of_one).min(u128::from(MOST));
        }
    }

    /// Withdraws all connections of an operator in a year with fees, if it has such a
    /// year.
    pub fn withdraw_connections(&mut self) {
        let operator = self.joined_operator();
        let mut places: Vec<(usize, usize, usize)> = fee_places().collect();
        places.retain(|&(year, fees, count)| {
            self.figure(operator, (year, fees)) > 0 && self.figure(operator, (year, count)) > 0
        });
        if places.is_empty() {
            return;
        }
        let (year, _, count) = self.random.pick(&places);
        self.bring_to(operator, (year, count), 0);
    }
}
