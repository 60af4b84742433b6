//! The five counts: interruptions of every outcome filed and withdrawn, amounts on
//! the counts, and the fields that are refused because of a count.

use super::draft::{amount, Draft, Style, MOST};
use crate::book::{COUNTS, FIGURES, FIRST_COUNT, YEARS};
use crate::calls::{Interruption, YEAR_SECONDS};
use crate::filing::Field;

/// The count of those left out as short.
const SHORT: usize = FIRST_COUNT + 1;

impl Draft {
    // Places and interruptions.

    /// Any year and count.
    fn count_place(&mut self) -> (usize, usize) {
        let figure = FIRST_COUNT + self.random.place(COUNTS);
        (self.random.place(YEARS), figure)
    }

    /// A place where the operator has a count above 0, or any if it has none.
    fn filed_count_place(&mut self, operator: u8) -> (usize, usize) {
        let filed: Vec<(usize, usize)> = (0..YEARS)
            .flat_map(|year| (FIRST_COUNT..FIGURES).map(move |figure| (year, figure)))
            .filter(|&place| self.figure(operator, place) > 0)
            .collect();
        if filed.is_empty() {
            return self.count_place();
        }
        self.random.pick(&filed)
    }

    /// An interruption, filed, that moves the count at that place and no other.
    fn interruption_at(&mut self, operator: u8, (year, figure): (usize, usize)) -> Interruption {
        let within = self.random.edge(0, YEAR_SECONDS as u64 - 1) as i64;
        let end = year as i64 * YEAR_SECONDS + within;
        let seconds = self.seconds_at(figure);
        let level = self.random.place(2) as u8;
        Interruption {
            operator,
            sign: 0,
            level,
            cause: self.cause_at(figure),
            start: end - seconds,
            end,
            weight: self.weight(level),
        }
    }

    /// The length of an interruption that moves that count.
    fn seconds_at(&mut self, figure: usize) -> i64 {
        if figure == SHORT {
            let any = self.random.between(0, 180);
            self.random.pick(&[180, 179, 0, any])
        } else {
            let any = self.random.between(181, 1000);
            self.random.pick(&[181, 182, any])
        }
    }

    /// The cause of an interruption that moves that count; a short one has any.
    fn cause_at(&mut self, figure: usize) -> u8 {
        match figure {
            FIRST_COUNT => self.random.pick(&[0, 4]),
            SHORT => self.random.place(5) as u8,
            _ => (figure - SHORT) as u8,
        }
    }

    // Sound steps.

    /// Files or withdraws an interruption of any outcome, or an amount on a count.
    pub fn move_count(&mut self) {
        let operator = self.joined_operator();
        match self.random.up_to(9) {
            0..=4 => {
                let place = self.count_place();
                let filed = self.interruption_at(operator, place);
                self.file_interruption(filed);
            }
            5 | 6 => {
                let place = self.filed_count_place(operator);
                let field = self.withdrawn_at(operator, place);
                self.file(field);
            }
            7 => {
                let place = self.count_place();
                let style = self.random.pick(&[Style::Small, Style::Digits]);
                let value = self.value(style, 0, MOST);
                self.file(amount(operator, place, 0, value));
            }
            8 => {
                let place = self.filed_count_place(operator);
                let total = self.figure(operator, place);
                let part = self.random.up_to(total);
                let value = self.random.pick(&[total, total.min(1), part]);
                self.file(amount(operator, place, 1, value));
            }
            _ => {
                let place = self.count_place();
                let wanted = self.random.pick(&[0, 1, MOST - 1, MOST]);
                self.bring_to(operator, place, wanted);
            }
        }
    }

    /// The withdrawal of an interruption that moves the count at that place.
    fn withdrawn_at(&mut self, operator: u8, place: (usize, usize)) -> Field {
        Field::Interruption(Interruption {
            sign: 1,
            ..self.interruption_at(operator, place)
        })
    }

    // Numbers 5, 8 and 9.

    /// A sound filing, then a field that is refused because of a count, then others.
    pub fn refused_by_count(&mut self) {
        let plan = self.small_plan();
        self.make(&plan);
        let operator = self.joined_operator();
        let place = self.count_place();
        match self.random.up_to(7) {
            0 | 1 => self.count_past_most(operator, place),
            2 | 3 => self.count_below_zero(operator, place),
            4 | 5 => self.count_taken_by_amount(operator, place),
            _ => self.amount_refused(operator, place),
        }
        let others = self.random.up_to(4);
        self.repeat(others, Draft::add_correction);
    }

    /// Brings weights and weighted seconds of a year to their middle, so that they
    /// refuse none of these interruptions.
    fn level_weights(&mut self, operator: u8, year: usize) {
        for figure in 0..4 {
            self.bring_to(operator, (year, figure), MOST / 2);
        }
    }

    /// The last of a few interruptions passes 10^11 in its count, which an amount
    /// has brought near it.
    fn count_past_most(&mut self, operator: u8, place: (usize, usize)) {
        self.level_weights(operator, place.0);
        let room = self.random.up_to(3);
        self.bring_to(operator, place, MOST - room);
        for _ in 0..=room {
            let filed = self.interruption_at(operator, place);
            self.add(Field::Interruption(filed));
        }
    }

    /// One interruption more is withdrawn than were filed.
    fn count_below_zero(&mut self, operator: u8, place: (usize, usize)) {
        self.level_weights(operator, place.0);
        self.bring_to(operator, place, 0);
        let times = self.random.up_to(3);
        for _ in 0..times {
            let filed = self.interruption_at(operator, place);
            self.file_interruption(filed);
        }
        for _ in 0..=times {
            let field = self.withdrawn_at(operator, place);
            self.add(field);
        }
    }

    /// An interruption is filed, its count is withdrawn by an amount, and then the
    /// interruption itself is withdrawn, for which there is weight enough.
    fn count_taken_by_amount(&mut self, operator: u8, place: (usize, usize)) {
        self.level_weights(operator, place.0);
        // Room for the one that is filed.
        self.bring_to(operator, place, 0);
        let filed = self.interruption_at(operator, place);
        self.file_interruption(filed);
        self.bring_to(operator, place, 0);
        let twin = Interruption { sign: 1, ..filed };
        self.add(Field::Interruption(twin));
    }

    /// An amount that a count refuses, or one past the last count.
    fn amount_refused(&mut self, operator: u8, place: (usize, usize)) {
        let total = self.figure(operator, place);
        let sign = self.random.place(2) as u8;
        let field = match self.random.up_to(2) {
            0 => amount(operator, place, 0, MOST - total + 1),
            1 => amount(operator, place, 1, total + 1),
            _ => amount(operator, (place.0, FIGURES), sign, self.random.up_to(total)),
        };
        self.add(field);
    }
}
