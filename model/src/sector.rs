//! The two sectors, electricity and gas: which settings, figures, indicators and
//! fields each has. All that differs between their calls follows from this.

use crate::book::{Setting, FIGURES, INDICATORS, NUMBERED_SETTINGS};
use std::ops::Range;

/// The sector that a call is of.
#[derive(Clone, Copy, Debug, PartialEq, Eq)]
pub enum Sector {
    Electricity,
    Gas,
}

/// The numbers of D1 and D2, the indicators of gas.
const D1: usize = 4;
const D2: usize = 5;
/// The last indicator that a gas join marks.
#[cfg(not(feature = "slip"))]
const LAST_MARKED: usize = D2;
#[cfg(feature = "slip")]
const LAST_MARKED: usize = D1;

impl Sector {
    /// The numbers of its indicators.
    /// Follows 02, point 4: "The gas side settles on D1 and D2 only".
    pub fn indicators(self) -> Range<usize> {
        match self {
            Sector::Electricity => 0..INDICATORS,
            Sector::Gas => D1..D2 + 1,
        }
    }

    /// The numbers of its figures.
    /// Follows 02, point 4: "figures 0 to 3 and 8 to 12 [...] are refused by 5".
    pub fn figures(self) -> Range<usize> {
        match self {
            Sector::Electricity => 0..FIGURES,
            Sector::Gas => 4..8,
        }
    }

    /// The numbers of its settings.
    pub fn settings(self) -> Vec<usize> {
        (0..NUMBERED_SETTINGS.len())
            .filter(|&which| self.has_setting(NUMBERED_SETTINGS[which]))
            .collect()
    }

    pub fn has_indicator(self, indicator: usize) -> bool {
        self.indicators().contains(&indicator)
    }

    pub fn has_figure(self, figure: usize) -> bool {
        self.figures().contains(&figure)
    }

    /// Follows 02, point 4: "every cabin setting [is] refused by 5".
    pub fn has_setting(self, setting: Setting) -> bool {
        match self {
            Sector::Electricity => true,
            Sector::Gas => !matches!(setting, Setting::Cabins(_)),
        }
    }

    /// The most of a setting in a book.
    /// Follows 02, point 4: "A lent gas book in which one of these isn't 0 gets 5 like
    /// any value out of range."
    pub fn most_setting(self, setting: Setting) -> u128 {
        if self.has_setting(setting) {
            setting.most()
        } else {
            0
        }
    }

    /// Follows 02, point 4: "an interruption field is refused by 2".
    pub fn has_interruptions(self) -> bool {
        self == Sector::Electricity
    }

    /// The marks of an operator after its join, by indicator.
    /// Follows 02, point 1: "A join therefore sets all six marks of the operator";
    /// and point 4: "A gas join marks those two".
    pub fn marks_of_a_join(self) -> Vec<bool> {
        let marked = match self {
            Sector::Electricity => 0..INDICATORS,
            Sector::Gas => D1..LAST_MARKED + 1,
        };
        (0..INDICATORS)
            .map(|indicator| marked.contains(&indicator))
            .collect()
    }
}

#[cfg(test)]
mod tests {
    use super::*;
    use crate::indicators::{indicators, Divisor, Kind};

    #[test]
    fn what_electricity_has() {
        let sector = Sector::Electricity;
        assert_eq!(sector.indicators(), 0..6);
        assert_eq!(sector.figures(), 0..13);
        assert_eq!(sector.settings(), [0, 1, 2, 3, 4]);
        assert!(sector.has_interruptions());
        assert_eq!(sector.marks_of_a_join(), [true; 6]);
    }

    #[test]
    fn what_gas_has() {
        let sector = Sector::Gas;
        assert_eq!(sector.indicators(), 4..6);
        assert_eq!(sector.figures(), 4..8);
        assert_eq!(sector.settings(), [1, 2]);
        assert!(!sector.has_interruptions());
        let marks = [false, false, false, false, true, true];
        assert_eq!(sector.marks_of_a_join(), marks);
    }

    /// The figures that an indicator reads.
    fn read(number: usize) -> Vec<usize> {
        let indicator = &indicators()[number];
        match indicator.divisor {
            Divisor::Figure(divisor) => vec![indicator.figure, divisor],
            _ => vec![indicator.figure],
        }
    }

    /// Gas has just the figures that its indicators read, and these need nothing
    /// that it has not.
    #[test]
    fn gas_has_what_its_indicators_need() {
        let figures: Vec<usize> = Sector::Gas.indicators().flat_map(read).collect();
        assert_eq!(figures, Sector::Gas.figures().collect::<Vec<_>>());
        let of_gas = &indicators()[Sector::Gas.indicators()];
        assert!(of_gas.iter().all(|one| one.kind == Kind::Fees));
        // Follows 02, point 4: "25 points a year".
        assert_eq!(of_gas.iter().map(|one| one.points).sum::<u128>(), 25);
    }
}
