//! What only gas filings are made for: the settings, figures, indicators and
//! interruptions that electricity has and gas refuses, and filings of electricity.

use super::draft::{amount, mark, setting, Draft, Style, MOST};
use super::Kind;
use crate::book::{FIGURES, INDICATORS, SETTINGS, YEARS};
use crate::calls::Interruption;
use crate::filing::{encode, Field};

/// The kinds of gas filings by turns. Their count has no divisor in common with that
/// of electricity's turns, so that its filings are of all of its kinds.
pub const TURNS: [Kind; 24] = [
    Kind::Small,
    Kind::Wide,
    Kind::Ends,
    Kind::Ties,
    Kind::Marked,
    Kind::OnlyElectricity,
    Kind::Digits,
    Kind::Withdrawals,
    Kind::Damaged,
    Kind::Mean,
    Kind::Interrupted,
    Kind::Small,
    Kind::Incomplete,
    Kind::Ends,
    Kind::Refused,
    Kind::Sizes,
    Kind::NearlyAllMarked,
    Kind::Incomplete,
    Kind::Foreign,
    Kind::Digits,
    Kind::RefusedSetting,
    Kind::Refused,
    Kind::Damaged,
    Kind::Small,
];

impl Draft {
    // Numbers 4 and 5.

    /// A setting, an amount or a mark that only electricity has, after a sound filing
    /// and before others.
    pub fn only_electricity(&mut self) {
        self.start();
        let operator = self.operator_or_none();
        let field = self.field_of_electricity(operator);
        self.add(field);
        self.go_on();
    }

    /// Often with a value of 0, or with a sign or a mark that there is not.
    fn field_of_electricity(&mut self, operator: u8) -> Field {
        let sector = self.book.sector;
        let value = self.value(Style::Digits, 0, MOST);
        let value = self.random.pick(&[0, 1, value]);
        match self.random.up_to(3) {
            0 => {
                let mut others: Vec<usize> = (0..SETTINGS).collect();
                others.retain(|which| !sector.settings().contains(which));
                setting(operator, self.random.pick(&others), value)
            }
            1 | 2 => {
                let mut others: Vec<usize> = (0..FIGURES).collect();
                others.retain(|&figure| !sector.has_figure(figure));
                let place = (self.random.place(YEARS), self.random.pick(&others));
                amount(operator, place, self.random.pick(&[0, 1, 1, 2]), value)
            }
            _ => {
                let mut others: Vec<usize> = (0..INDICATORS).collect();
                others.retain(|&indicator| !sector.has_indicator(indicator));
                let indicator = self.random.pick(&others);
                mark(operator, indicator, self.random.pick(&[0, 0, 1, 2]))
            }
        }
    }

    // Numbers 1 and 2.

    /// An interruption after a sound filing and before others; now and then with
    /// another length, or cut short.
    pub fn interrupted(&mut self) {
        self.start();
        let operator = self.operator_or_none();
        match self.random.up_to(5) {
            0 => self.interruption_of_other_length(operator),
            1 => {
                let field = self.interruption_of(operator);
                let bytes = encode(&field);
                let left = 1 + self.random.place(bytes.len() - 1);
                self.bytes.extend(&bytes[..left]);
                return;
            }
            _ => {
                let field = self.any_interruption_of(operator);
                self.add(field);
            }
        }
        self.go_on();
    }

    /// In range, or with a value that is not.
    fn any_interruption_of(&mut self, operator: u8) -> Field {
        let filed = Interruption {
            operator,
            ..self.interruption()
        };
        match self.random.up_to(3) {
            0 => {
                let way = 4 + self.random.up_to(10);
                self.interruption_out_of_range(way, filed)
            }
            1 => self.interruption_with_wrong_times(operator),
            _ => Field::Interruption(filed),
        }
    }

    /// Its tag with a content that is too long or too short.
    fn interruption_of_other_length(&mut self, operator: u8) {
        let mut bytes = encode(&self.interruption_of(operator));
        let length = self.random.pick(&[0, 1, 12, 23, 25]);
        bytes.resize(3 + length, 0);
        bytes[2] = length as u8;
        self.bytes.extend(bytes);
    }
}
