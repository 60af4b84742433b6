//! Filings with a field that gets 4 to 9, 14 or 15.

use super::draft::{amount, mark, most_setting, setting, Draft, Style, MOST};
use crate::book::{FIGURES, FIRST_COUNT, INDICES, OPERATORS, SETTINGS};
use crate::calls::{Interruption, EARLIEST_START, LATEST_END, YEAR_SECONDS};
use crate::filing::Field;

const MOST_U32: u64 = u32::MAX as u64;
const MOST_I64: u64 = i64::MAX as u64;
/// The ways in which an interruption is out of range and its times are not.
pub const NOT_BY_TIMES: [u64; 6] = [4, 5, 6, 12, 13, 14];

/// An interruption of 181 seconds and weight 1 within a year.
fn just_counted(operator: u8, year: usize, level: u8) -> Interruption {
    let end = year as i64 * YEAR_SECONDS + 500;
    Interruption {
        operator,
        sign: 0,
        level,
        cause: 0,
        start: end - 181,
        end,
        weight: 1,
    }
}

impl Draft {
    /// A sound filing, then a field that gets 4 to 9, 14 or 15, then others.
    pub fn refused(&mut self) {
        let mut plan = self.small_plan();
        plan.operators = plan.operators.min(OPERATORS - 1);
        let number = self.random.up_to(6) + 4;
        if number == 10 {
            let fields = 1 + self.random.up_to(40);
            self.repeat(fields, Draft::add_loose);
            return;
        }
        // Numbers 5 and 7 may come first of all.
        if number == 6 || number >= 8 || !self.random.one_in(5) {
            self.make(&plan);
        }
        self.add_refused(number);
        let others = self.random.up_to(4);
        self.repeat(others, Draft::add_correction);
    }

    /// A field of one of four operators, whatever the book says.
    fn add_loose(&mut self) {
        let operator = self.random.place(4) as u8;
        let field = match self.random.up_to(5) {
            0 | 1 => Field::Join { operator },
            2 if self.random.one_in(10) => self.out_of_range(operator),
            _ => self.field_of(operator),
        };
        self.add(field);
    }

    /// Adds a field that gets that number; instead of 5 it may be 14 or 15.
    fn add_refused(&mut self, number: u64) {
        match number {
            4 => self.above_15(),
            5 => {
                let operator = if self.random.one_in(4) {
                    self.random.place(OPERATORS) as u8
                } else {
                    self.joined_operator()
                };
                let field = self.out_of_range(operator);
                self.add(field);
            }
            6 => {
                let operator = self.joined_operator();
                self.add(Field::Join { operator });
            }
            7 => {
                let operator = self.other_operator();
                let field = self.field_of(operator);
                self.add(field);
            }
            8 => self.past_most(),
            _ => self.below_zero(),
        }
    }

    /// A setting, interruption, amount or mark of the operator; an amount of
    /// any size, the other values in range.
    fn field_of(&mut self, operator: u8) -> Field {
        match self.random.up_to(3) {
            0 => {
                let which = self.setting_number();
                let style = self.random.pick(&[Style::Ends, Style::Digits]);
                setting(operator, which, self.value(style, 0, most_setting(which)))
            }
            1 => self.interruption_of(operator),
            2 => {
                let value = match self.random.up_to(5) {
                    0 => self.random.any(),
                    1 => self.random.edge(MOST, u64::MAX),
                    _ => self.value(Style::Digits, 0, MOST),
                };
                let place = self.figure_place();
                amount(operator, place, u8::from(self.random.one_in(4)), value)
            }
            _ => {
                let indicator = self.indicator();
                mark(operator, indicator, self.random.place(2) as u8)
            }
        }
    }

    // Number 4.

    /// A field of an operator above 15, the other values in range or not.
    fn above_15(&mut self) {
        let operator = self.random.edge(16, 255) as u8;
        let field = match self.random.up_to(3) {
            0 => Field::Join { operator },
            1 => self.operator_field_out_of_range(operator),
            _ => self.field_of(operator),
        };
        self.add(field);
    }

    /// Neither rates nor an index, which have no operator.
    fn operator_field_out_of_range(&mut self, operator: u8) -> Field {
        let mut field = self.out_of_range(operator);
        while matches!(field, Field::Rates { .. } | Field::Index { .. }) {
            field = self.out_of_range(operator);
        }
        field
    }

    // Numbers 5, 14 and 15.

    /// A field with one value other than the operator out of its range.
    fn out_of_range(&mut self, operator: u8) -> Field {
        let interruption = Interruption {
            operator,
            ..self.interruption()
        };
        let (year, figure) = self.figure_place();
        let sign = self.random.place(2) as u8;
        let value = self.value(Style::Digits, 0, MOST);
        let indicator = self.indicator();
        let index = self.random.place(INDICES) as u8;
        match self.random.up_to(23) {
            0 => {
                let value = self.value(Style::Small, 0, 9);
                setting(operator, self.past(SETTINGS as u64), value)
            }
            1..=3 => self.setting_past_most(operator),
            way @ 4..=14 => self.interruption_out_of_range(way, interruption),
            15 => amount(operator, (self.past(3), figure), sign, value),
            16 => amount(operator, (year, self.past(FIGURES as u64)), sign, value),
            17 => amount(operator, (year, figure), self.past(2) as u8, value),
            18 => mark(operator, self.past(6), sign),
            19 => mark(operator, indicator, self.past(2) as u8),
            20 => Field::Rates {
                pot: self.random.edge(20_001, MOST_U32) as u32,
                cap: self.rate(),
            },
            21 => Field::Rates {
                pot: self.rate(),
                cap: self.random.edge(20_001, MOST_U32) as u32,
            },
            22 => Field::Index {
                number: self.past(4) as u8,
                value: 10_000,
            },
            _ => self.index_out_of_range(index),
        }
    }

    /// The value of a byte, from that one on.
    pub fn past(&mut self, least: u64) -> usize {
        self.random.edge(least, 255) as usize
    }

    fn setting_past_most(&mut self, operator: u8) -> Field {
        let which = self.setting_number();
        let value = self.random.edge(most_setting(which) + 1, u64::MAX);
        setting(operator, which, value)
    }

    fn index_out_of_range(&mut self, number: u8) -> Field {
        let past = self.random.edge(100_001, MOST_U32);
        Field::Index {
            number,
            value: self.random.pick(&[0, past]) as u32,
        }
    }

    /// The same interruption with a value out of its range: by ways 7 to 11 a time, by those
    /// of `NOT_BY_TIMES` another one.
    pub fn interruption_out_of_range(&mut self, way: u64, mut filed: Interruption) -> Field {
        match way {
            4 => filed.sign = self.past(2) as u8,
            5 => filed.level = self.past(2) as u8,
            6 => filed.cause = self.past(5) as u8,
            7 => filed.end = self.random.edge(LATEST_END as u64 + 1, MOST_I64) as i64,
            8 => {
                filed.end = -(self.random.edge(1, YEAR_SECONDS as u64) as i64);
                filed.start = filed.start.min(filed.end);
            }
            9 => {
                let before = self
                    .random
                    .edge(EARLIEST_START.unsigned_abs() + 1, MOST_I64);
                filed.start = -(before as i64);
            }
            10 => filed.start = filed.end + self.random.edge(1, 100_000) as i64,
            11 => {
                filed.start = i64::MIN;
                filed.end = self.random.pick(&[0, -1, i64::MIN, i64::MAX]);
            }
            12 => filed.weight = 0,
            13 => {
                filed.level = 0;
                filed.weight = self.random.edge(100_001, MOST_U32) as u32;
            }
            _ => {
                filed.level = 1;
                filed.weight = self.random.edge(2, MOST_U32) as u32;
            }
        }
        Field::Interruption(filed)
    }

    /// One of the ways up to that one, or of those after it, so many, which take
    /// interruptions.
    fn way(&mut self, last: u64, by_interruptions: u64) -> u64 {
        if self.book.sector.has_interruptions() {
            self.random.up_to(last + by_interruptions)
        } else {
            self.random.up_to(last)
        }
    }

    // Number 8.

    /// A figure would pass 10^11.
    fn past_most(&mut self) {
        let operator = self.joined_operator();
        let place = self.figure_place();
        match self.way(2, 2) {
            0 => {
                let room = MOST - self.figure(operator, place);
                self.add(amount(operator, place, 0, room + 1));
            }
            1 => self.sum_past_64_bits(operator, place),
            2 => {
                let value = self.random.edge(MOST + 1, u64::MAX);
                self.add(amount(operator, place, 0, value));
            }
            3 => self.weighted_seconds_past_most(operator),
            _ => self.interruption_past_most_by_1(operator, place.0),
        }
    }

    /// The sum is 2^64 or just above it.
    fn sum_past_64_bits(&mut self, operator: u8, place: (usize, usize)) {
        let first = 1 + self.random.up_to(9);
        self.file(amount(operator, place, 0, first));
        let total = self.figure(operator, place);
        let above = self.random.up_to(total - 1);
        self.add(amount(operator, place, 0, above.wrapping_sub(total)));
    }

    /// The weighted seconds of one interruption pass it.
    fn weighted_seconds_past_most(&mut self, operator: u8) {
        let seconds = self.random.edge(1_000_001, YEAR_SECONDS as u64) as i64;
        let cause = self.random.pick(&[0, 4]);
        let end = 2 * YEAR_SECONDS - 1;
        self.add(Field::Interruption(Interruption {
            operator,
            sign: 0,
            level: 0,
            cause,
            start: end - seconds,
            end,
            weight: 100_000,
        }));
    }

    /// The weight, the weighted seconds or the count passes it by 1.
    fn interruption_past_most_by_1(&mut self, operator: u8, year: usize) {
        let level = self.random.place(2);
        let weight = 2 * level;
        let (figure, added) = self
            .random
            .pick(&[(weight, 1), (weight + 1, 181), (FIRST_COUNT, 1)]);
        let place = (year, figure);
        let room = MOST - self.figure(operator, place);
        self.file(amount(operator, place, 0, room.saturating_sub(added - 1)));
        let filed = just_counted(operator, year, level as u8);
        self.add(Field::Interruption(filed));
    }

    // Number 9.

    /// A figure would fall below 0.
    fn below_zero(&mut self) {
        let operator = self.joined_operator();
        let place = self.figure_place();
        let total = self.figure(operator, place);
        match self.way(1, 2) {
            0 => self.add(amount(operator, place, 1, total + 1)),
            1 => {
                let value = self.random.edge(total + 1, u64::MAX);
                self.add(amount(operator, place, 1, value));
            }
            2 => self.withdrawn_twice(),
            _ => self.interruption_below_zero_by_1(operator, place.0),
        }
    }

    /// Withdrawn twice, or in another year, level or operator.
    fn withdrawn_twice(&mut self) {
        let mut filed = self.interruption();
        filed.sign = 0;
        self.file_interruption(filed);
        filed.sign = 1;
        self.file(Field::Interruption(filed));
        match self.random.up_to(2) {
            0 => filed.end = (filed.end + YEAR_SECONDS) % (LATEST_END + 1),
            1 => filed.operator = self.joined_operator(),
            _ => {}
        }
        self.add(Field::Interruption(filed));
    }

    /// Enough of all but one of weight, weighted seconds and count.
    fn interruption_below_zero_by_1(&mut self, operator: u8, year: usize) {
        let level = self.random.place(2);
        let [weight, seconds, count] = self.random.pick(&[[0, 181, 1], [1, 180, 1], [1, 181, 0]]);
        self.bring_to(operator, (year, 2 * level), weight);
        self.bring_to(operator, (year, 2 * level + 1), seconds);
        self.bring_to(operator, (year, FIRST_COUNT), count);
        self.add(Field::Interruption(Interruption {
            sign: 1,
            cause: 4,
            ..just_counted(operator, year, level as u8)
        }));
    }
}
