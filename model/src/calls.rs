//! The seven filing calls on the book, with the answer to each.
//! Every call first judges the book, then its own values, then alters the book.

use crate::book::{
    Book, FIRST_COUNT, INDICES, LEAST_INDEX, MOST_FIGURE, MOST_INDEX, MOST_RATE, NUMBERED_SETTINGS,
    OPERATORS, YEARS,
};
use crate::order::first_that_applies;

#[cfg(test)]
mod tests;

/// The seconds of one year.
pub const YEAR_SECONDS: i64 = 31_536_000;
/// Seconds from the start of 2017.
pub const EARLIEST_START: i64 = -31_536_000;
pub const LATEST_END: i64 = 94_607_999;
/// The longest interruption that is left out as short, in seconds.
#[cfg(not(feature = "slip"))]
const LONGEST_SHORT: i64 = 180;
#[cfg(feature = "slip")]
const LONGEST_SHORT: i64 = 179;
/// The greatest weight of one MV interruption.
pub const MOST_WEIGHT: u32 = 100_000;

/// Why an interruption is left out.
#[derive(Clone, Copy, Debug, PartialEq, Eq)]
pub enum Reason {
    Short,
    Planned,
    Coupled,
    /// Exceptional with outside attestation.
    Exceptional,
}

/// The answer to a filing call, to settling or to the call for a sheet.
#[derive(Clone, Copy, Debug, PartialEq, Eq)]
pub enum Answer {
    Yes,
    Counted {
        year: usize,
    },
    LeftOut(Reason),
    /// With the number in the table of answers.
    Refused(u8),
}

/// The content of an interruption field, values as filed.
#[derive(Clone, Copy, Debug, PartialEq, Eq)]
pub struct Interruption {
    pub operator: u8,
    /// 0 file, 1 withdraw.
    pub sign: u8,
    /// 0 MV, 1 LV.
    pub level: u8,
    pub cause: u8,
    pub start: i64,
    pub end: i64,
    pub weight: u32,
}

/// Adds an operator to the joined ones, all marks of the sector set.
/// Follows 01: "join of one already joined" gives 6.
pub fn join(book: &mut Book, operator: u8) -> Answer {
    let already = is_joined(book, operator);
    if let Some(number) = refusal(book, &[(4, above_15(operator)), (6, already)]) {
        return Answer::Refused(number);
    }
    let marks = book.sector.marks_of_a_join();
    let operator = &mut book.operators[usize::from(operator)];
    operator.joined = true;
    operator.marks = marks;
    Answer::Yes
}

/// Sets cabins of year 0 (`which` 0), active access points (1), income (2) or
/// cabins of years 1 and 2 (3 and 4).
/// Follows 01: "the latest accepted value stands".
pub fn setting(book: &mut Book, operator: u8, which: u8, value: u64) -> Answer {
    let which = usize::from(which);
    let value = u128::from(value);
    let sector = book.sector;
    let named = NUMBERED_SETTINGS.get(which);
    let in_range =
        named.is_some_and(|&setting| sector.has_setting(setting) && value <= setting.most());
    if let Some(number) = operator_refusal(book, operator, in_range) {
        return Answer::Refused(number);
    }
    book.operators[usize::from(operator)].put_setting(NUMBERED_SETTINGS[which], value);
    Answer::Yes
}

/// Files or withdraws an interruption.
/// Follows 01: "The year is that of the end; each has 31,536,000 seconds."
pub fn interruption(book: &mut Book, filed: &Interruption) -> Answer {
    if let Some(number) = interruption_refusal(book, filed) {
        return Answer::Refused(number);
    }
    let year = (filed.end / YEAR_SECONDS) as usize;
    let (outcome, entries) = match left_out(filed) {
        Some(reason) => (Answer::LeftOut(reason), vec![(count_of(reason), 1)]),
        None => (Answer::Counted { year }, counted_entries(filed)),
    };
    let figures = &mut book.operators[usize::from(filed.operator)].figures[year];
    match change(figures, filed.sign, &entries) {
        Some(number) => Answer::Refused(number),
        None => outcome,
    }
}

/// The refusal of an interruption, but for 8 and 9, which only values in range can get.
/// In gas there is no such field: by 02, point 4, it "is refused by 2", whatever its
/// values; a book out of range gets 5 even before that.
fn interruption_refusal(book: &Book, filed: &Interruption) -> Option<u8> {
    let conditions = [
        (2, !book.sector.has_interruptions()),
        (4, above_15(filed.operator)),
        (5, !other_values_in_range(filed)),
        (14, filed.start > filed.end),
        (15, is_outside_the_period(filed)),
        (7, !is_joined(book, filed.operator)),
    ];
    refusal(book, &conditions)
}

/// Why an interruption in range is left out, if it is.
/// Follows 01: "An interruption of 180 seconds or less is left out as short;
/// else cause 1, 2 or 3 is left out under that cause; else it counts."
fn left_out(filed: &Interruption) -> Option<Reason> {
    if filed.end - filed.start <= LONGEST_SHORT {
        return Some(Reason::Short);
    }
    match filed.cause {
        1 => Some(Reason::Planned),
        2 => Some(Reason::Coupled),
        3 => Some(Reason::Exceptional),
        _ => None,
    }
}

/// The count of those left out for that reason.
/// Follows 02, point 2: "how many were left out as short, planned, coupled or
/// exceptional. Five count figures, 8 to 12 in that order"; the first of the five
/// counts the interruptions that count.
fn count_of(reason: Reason) -> usize {
    match reason {
        Reason::Short => 9,
        Reason::Planned => 10,
        Reason::Coupled => 11,
        Reason::Exceptional => 12,
    }
}

/// What an interruption that counts brings into the figures of its year.
/// Follows 01: "Counted: weight, and weight times seconds, are added or
/// subtracted."; and 02, point 2: "Every accepted interruption adds or subtracts 1
/// in one of them", whatever its weight.
fn counted_entries(filed: &Interruption) -> Vec<(usize, i128)> {
    let weight_figure = if filed.level == 0 { 0 } else { 2 };
    let weight = i128::from(filed.weight);
    let seconds = i128::from(filed.end - filed.start);
    vec![
        (weight_figure, weight),
        (weight_figure + 1, weight * seconds),
        (FIRST_COUNT, 1),
    ]
}

/// Adds an amount to a figure, or with sign 1 subtracts it.
/// Follows 01: "Tag 4's u64 may be any number; 8 and 9 judge it."
pub fn amount(book: &mut Book, operator: u8, year: u8, figure: u8, sign: u8, value: u64) -> Answer {
    let year = usize::from(year);
    let figure = usize::from(figure);
    let in_range = year < YEARS && book.sector.has_figure(figure) && sign <= 1;
    if let Some(number) = operator_refusal(book, operator, in_range) {
        return Answer::Refused(number);
    }
    let figures = &mut book.operators[usize::from(operator)].figures[year];
    match change(figures, sign, &[(figure, i128::from(value))]) {
        Some(number) => Answer::Refused(number),
        None => Answer::Yes,
    }
}

/// Sets (1 = unreliable) or clears (0) the mark of an operator at an indicator.
/// Follows 02, point 1: "Staff clear each mark when the attestation is in."
pub fn mark(book: &mut Book, operator: u8, indicator: u8, mark: u8) -> Answer {
    let indicator = usize::from(indicator);
    let in_range = book.sector.has_indicator(indicator) && mark <= 1;
    if let Some(number) = operator_refusal(book, operator, in_range) {
        return Answer::Refused(number);
    }
    book.operators[usize::from(operator)].marks[indicator] = mark == 1;
    Answer::Yes
}

/// Sets pot rate and cap rate, in millionths.
pub fn rates(book: &mut Book, pot: u32, cap: u32) -> Answer {
    let pot = u128::from(pot);
    let cap = u128::from(cap);
    let in_range = pot <= MOST_RATE && cap <= MOST_RATE;
    if let Some(number) = refusal(book, &[(5, !in_range)]) {
        return Answer::Refused(number);
    }
    book.pot_rate = pot;
    book.cap_rate = cap;
    Answer::Yes
}

/// Sets an index, in hundredths.
pub fn index(book: &mut Book, number: u8, value: u32) -> Answer {
    let place = usize::from(number);
    let value = u128::from(value);
    let in_range = place < INDICES && (LEAST_INDEX..=MOST_INDEX).contains(&value);
    if let Some(number) = refusal(book, &[(5, !in_range)]) {
        return Answer::Refused(number);
    }
    book.indices[place] = value;
    Answer::Yes
}

/// The refusal of a call: 5 for a book out of range "before any other check",
/// else by the conditions.
fn refusal(book: &Book, conditions: &[(u8, bool)]) -> Option<u8> {
    if !book.in_range() {
        return Some(5);
    }
    first_that_applies(conditions)
}

/// The refusal of a call of a joined operator, all other values of which are in
/// range or not.
pub fn operator_refusal(book: &Book, operator: u8, in_range: bool) -> Option<u8> {
    let conditions = [
        (4, above_15(operator)),
        (5, !in_range),
        (7, !is_joined(book, operator)),
    ];
    refusal(book, &conditions)
}

fn above_15(operator: u8) -> bool {
    usize::from(operator) >= OPERATORS
}

/// An operator above 15 is never joined.
fn is_joined(book: &Book, operator: u8) -> bool {
    !above_15(operator) && book.operators[usize::from(operator)].joined
}

/// All values of an interruption but its operator and its times.
/// Follows 01: "Weight is the number of cabins, 1 to 100,000, for MV and 1 for LV."
fn other_values_in_range(filed: &Interruption) -> bool {
    let level_and_weight_in_range = match filed.level {
        0 => (1..=MOST_WEIGHT).contains(&filed.weight),
        1 => filed.weight == 1,
        _ => false,
    };
    level_and_weight_in_range && filed.sign <= 1 && filed.cause <= 4
}

/// Whether the end or the start is outside the period. How late a start may be follows
/// from the end alone.
/// Follows 01: "End is 0 to 94,607,999, start at least -31,536,000"; and 02, point 8:
/// "one that ends outside the three years or starts too early".
fn is_outside_the_period(filed: &Interruption) -> bool {
    !(0..=LATEST_END).contains(&filed.end) || filed.start < EARLIEST_START
}

/// Adds each value to the figure beside it (sign 0) or subtracts it (sign 1).
/// If a figure would leave its range all stay, and the refusal is answered.
fn change(figures: &mut [u128], sign: u8, values: &[(usize, i128)]) -> Option<u8> {
    let factor = if sign == 0 { 1 } else { -1 };
    let changed: Vec<(usize, i128)> = values
        .iter()
        .map(|&(figure, value)| (figure, figures[figure] as i128 + factor * value))
        .collect();
    let any = |is_out: fn(i128) -> bool| changed.iter().any(|&(_, total)| is_out(total));
    let refusal = first_that_applies(&[
        (8, any(|total| total > MOST_FIGURE as i128)),
        (9, any(|total| total < 0)),
    ]);
    if refusal.is_none() {
        for (figure, total) in changed {
            figures[figure] = total as u128;
        }
    }
    refusal
}
