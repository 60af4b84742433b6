//! Filings about the times of an interruption: at the ends of the period, outside it and
//! in the wrong order, alone or with another reason for a refusal. They get 14 and 15
//! above all.

use super::draft::Draft;
use super::refused::NOT_BY_TIMES;
use crate::calls::{Interruption, EARLIEST_START, LATEST_END};
use crate::filing::Field;

/// The first end that is too late, and the last start that is too early.
const LATE_END: i64 = LATEST_END + 1;
const EARLY_START: i64 = EARLIEST_START - 1;
/// The ends of the numbers that a time is filed in.
const WIDEST: [i64; 2] = [i64::MIN, i64::MAX];

impl Draft {
    /// A sound filing, interruptions at the ends of the period, mostly one with wrong
    /// times, then others.
    pub fn times(&mut self) {
        self.start();
        let right = self.random.up_to(4);
        self.repeat(right, Draft::file_at_the_ends);
        if !self.random.one_in(8) {
            let operator = self.operator_or_none();
            let field = self.interruption_with_wrong_times(operator);
            self.add(field);
        }
        self.go_on();
    }

    /// Files an interruption with times that are just right, if the book takes it.
    fn file_at_the_ends(&mut self) {
        let end = self.end_at_the_ends();
        let starts = [EARLIEST_START, EARLIEST_START + 1, end - 181, end - 1, end];
        let filed = Interruption {
            start: self.random.pick(&starts),
            end,
            ..self.interruption()
        };
        self.file_interruption(filed);
    }

    /// An interruption with times out of range, now and then with another value out of its
    /// own.
    pub fn interruption_with_wrong_times(&mut self, operator: u8) -> Field {
        let (start, end) = self.wrong_times();
        let filed = Interruption {
            operator,
            start,
            end,
            ..self.interruption()
        };
        if self.random.one_in(4) {
            let way = self.random.pick(&NOT_BY_TIMES);
            return self.interruption_out_of_range(way, filed);
        }
        Field::Interruption(filed)
    }

    /// Start and end of an interruption that gets 14 or 15 for them.
    fn wrong_times(&mut self) -> (i64, i64) {
        let end = self.end_at_the_ends();
        match self.random.up_to(9) {
            0 | 1 => (self.start_after(end), end),
            2..=4 => self.times_with_a_wrong_end(),
            5 => (self.start_too_early(), end),
            6 => {
                let end = self.random.pick(&[LATE_END, -1, EARLY_START, i64::MAX]);
                (self.start_too_early(), end)
            }
            // Both 14 and 15.
            7 | 8 => {
                let ends = [LATE_END, -1, EARLY_START, i64::MIN, i64::MAX - 1];
                let end = self.random.pick(&ends);
                (self.start_after(end), end)
            }
            _ => (self.random.pick(&WIDEST), self.random.pick(&WIDEST)),
        }
    }

    /// An end in the three years, often the first or the last.
    fn end_at_the_ends(&mut self) -> i64 {
        let any = self.end();
        self.random.pick(&[0, LATEST_END, any])
    }

    /// Often by one second, now and then as late as can be.
    fn start_after(&mut self, end: i64) -> i64 {
        end.saturating_add(self.random.pick(&[1, 1, 181, i64::MAX]))
    }

    fn start_too_early(&mut self) -> i64 {
        self.random.pick(&[EARLY_START, EARLY_START, i64::MIN])
    }

    /// An end outside the three years, after a start that is right.
    fn times_with_a_wrong_end(&mut self) -> (i64, i64) {
        let ends = [LATE_END, LATE_END, -1, -1, i64::MAX];
        let end = self.random.pick(&ends);
        let starts = [EARLIEST_START, end - 181, end - 1, end];
        (self.random.pick(&starts), end)
    }
}
