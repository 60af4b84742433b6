//! The cabins by year: networks that grow and shrink, filings without a setting that
//! every operator needs, and settings that are refused.

use super::draft::{least_setting, mark, most_setting, setting, six_marks, Draft, Style};
use crate::book::{Operator, MOST_ACCESS_POINTS, MOST_CABINS, MOST_INCOME};
use crate::book::{INDICATORS, OPERATORS, SETTINGS, YEARS};
use crate::filing::Field;

/// The number of A1, the indicator that is divided by the cabins.
const A1: usize = 0;
/// The figure that A1 divides.
const WEIGHT: usize = 0;

/// The most of each sort of setting, and one past it.
fn limits() -> Vec<u64> {
    [MOST_CABINS, MOST_ACCESS_POINTS, MOST_INCOME]
        .map(|most| [most as u64, most as u64 + 1])
        .concat()
}

impl Draft {
    // Networks.

    /// The cabins of one operator in each year, none of them 0.
    pub fn cabins_by_year(&mut self, style: Style) -> [u128; YEARS] {
        let most = MOST_CABINS as u64;
        let mut cabins = [(); YEARS].map(|()| self.value(style, 1, most));
        match self.random.up_to(6) {
            0 | 1 => cabins = [cabins[0]; YEARS],
            // Growing.
            2 => cabins.sort(),
            // Shrinking.
            3 => cabins.sort_by(|one, other| other.cmp(one)),
            // As far from each other as can be.
            4 => {
                cabins = [1, cabins[0], most];
                self.random.shuffle(&mut cabins);
            }
            // One or two more or less in the next year.
            5 => {
                let middle = cabins[0].clamp(2, most - 1);
                cabins = [middle - 1, middle, middle + 1];
                self.random.shuffle(&mut cabins);
            }
            _ => {}
        }
        cabins.map(u128::from)
    }

    /// Brings the MV weight of each year near its cabins, so that the sums of the
    /// operators at A1 are near each other and their points hang on every divisor.
    pub fn suit_weights(&mut self, values: &mut Operator) {
        let way = self.random.up_to(3);
        let of_each_cabin = u128::from(1 + self.random.up_to(2));
        let of_each_year = self.weight_near(values.cabins[0]);
        for year in 0..YEARS {
            let cabins = values.cabins[year];
            values.figures[year][WEIGHT] = match way {
                0 => cabins * of_each_cabin,
                1 => of_each_year,
                2 if self.random.one_in(2) => 0,
                _ => self.weight_near(cabins),
            };
        }
    }

    /// Up to three times the cabins, but not 0.
    fn weight_near(&mut self, cabins: u128) -> u128 {
        let thousandths = u128::from(1 + self.random.up_to(2999));
        (cabins * thousandths).div_ceil(1000)
    }

    /// The values of each year become those of another: sums of A stay as they are.
    pub fn turn_years(&mut self, values: &mut Operator) {
        let by = 1 + self.random.place(YEARS - 1);
        values.cabins.rotate_left(by);
        values.figures.rotate_left(by);
    }

    // Number 11.

    /// The numbers of the settings without which a book is refused by 11.
    pub fn size_settings(&self) -> Vec<usize> {
        let mut settings = self.book.sector.settings();
        settings.retain(|&which| least_setting(which) > 0);
        settings
    }

    /// A filing in which one setting that every operator needs is missing; now and
    /// then more of them are, or it is filed again.
    pub fn without_size(&mut self) {
        let mut plan = self.small_plan();
        plan.operators = plan.operators.min(OPERATORS - 1);
        match self.random.up_to(9) {
            0 | 1 => {
                self.make(&plan);
                self.take_size();
            }
            2 | 3 => {
                self.make(&plan);
                let operator = self.joined_operator();
                self.mark_at_a1_alone(operator);
                self.take_size_of(operator);
            }
            4..=6 => {
                self.make(&plan);
                self.join_without_one_setting();
            }
            7 | 8 => {
                plan.later_cabins_missing = self.random.pick(&[100, 100, 50]);
                // These may set the cabins.
                plan.corrections = 0;
                self.make(&plan);
            }
            _ => {
                self.make(&plan);
                let operator = self.joined_operator();
                let which = self.take_size_of(operator);
                self.file(setting(operator, which, 1));
            }
        }
    }

    /// Takes the cabins of a year or the access points from an operator.
    pub fn take_size(&mut self) {
        let operator = self.joined_operator();
        self.take_size_of(operator);
    }

    /// The same for that operator; answers the setting.
    fn take_size_of(&mut self, operator: u8) -> usize {
        let which = self.random.pick(&self.size_settings());
        self.file(setting(operator, which, 0));
        which
    }

    /// The operator has points to get, but none at A1.
    fn mark_at_a1_alone(&mut self, operator: u8) {
        let cleared = (0..INDICATORS).map(|indicator| mark(operator, indicator, 0));
        self.file_all(cleared.collect());
        self.file(mark(operator, A1, 1));
    }

    /// A join with all the settings it needs but one, which is never filed.
    fn join_without_one_setting(&mut self) {
        let operator = self.other_operator();
        self.file(Field::Join { operator });
        let mut sizes = self.size_settings();
        sizes.remove(self.random.place(sizes.len()));
        for which in sizes {
            let value = self.value(Style::Digits, 1, most_setting(which));
            self.file(setting(operator, which, value));
        }
        if self.random.one_in(2) {
            self.mark_at_a1_alone(operator);
        } else {
            self.file_all(six_marks(operator, 0));
        }
    }

    // Number 5.

    /// A sound filing, then a setting that is refused, then others. Before it there
    /// may be settings at a limit, their own or that of another one.
    pub fn refused_setting(&mut self) {
        let plan = self.small_plan();
        self.make(&plan);
        let taken = self.random.up_to(3);
        self.repeat(taken, Draft::file_setting_at_a_limit);
        let operator = self.joined_operator();
        let field = if self.random.one_in(3) {
            let value = self.value(Style::Small, 0, 9);
            setting(operator, self.past(SETTINGS as u64), value)
        } else {
            self.setting_past_a_limit(operator)
        };
        self.add(field);
        let others = self.random.up_to(4);
        self.repeat(others, Draft::add_correction);
    }

    /// Files a setting with a limit as its value if the book takes it.
    fn file_setting_at_a_limit(&mut self) {
        let operator = self.joined_operator();
        let which = self.setting_number();
        let value = self.random.pick(&limits());
        self.file(setting(operator, which, value));
    }

    /// A setting past its own limit: by 1, or with a larger limit as its value.
    fn setting_past_a_limit(&mut self, operator: u8) -> Field {
        let which = self.setting_number();
        let most = most_setting(which);
        let mut past = limits();
        past.retain(|&value| value > most);
        let other = self.random.pick(&past);
        setting(operator, which, self.random.pick(&[most + 1, other]))
    }
}
