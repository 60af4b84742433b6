//! The sheet that is asked for when a filing is compared.

use super::filing;
use crate::book::{joined, Book, OPERATORS, YEARS};
use crate::filing::read;
use crate::random::Random;

/// The operator and the year of the sheet that is asked of the filing with that
/// number. Mostly the operator has joined; now and then there is no such operator,
/// or no such year.
pub fn asked_sheet(seed: u64, number: u64) -> (u8, u8) {
    // Draws other than those of the filing.
    let mut random = Random::new(!seed, number);
    let operator = match random.up_to(7) {
        0 => random.pick(&[16, 255]),
        1 => random.place(OPERATORS) as u8,
        _ => joined_operator(&mut random, &filing(seed, number)),
    };
    let year = match random.up_to(7) {
        0 => random.pick(&[3, 255]),
        _ => random.place(YEARS) as u8,
    };
    (operator, year)
}

/// An operator that the filing joins, or any if it joins none.
fn joined_operator(random: &mut Random, filing: &[u8]) -> u8 {
    let mut book = Book::fresh();
    read(&mut book, filing);
    let joined = joined(&book.operators);
    if joined.is_empty() {
        return random.place(OPERATORS) as u8;
    }
    random.pick(&joined) as u8
}
