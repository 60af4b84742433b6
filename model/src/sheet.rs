//! The yearly sheet of an operator: how many of its interruptions counted, and how
//! many were left out as short, planned, coupled or exceptional.

use crate::book::{Book, COUNTS, FIRST_COUNT, YEARS};
use crate::calls::{operator_refusal, Answer};
use crate::sector::Sector;

/// The counts of a sheet in their order, in words.
pub const NAMES: [&str; COUNTS] = ["counted", "short", "planned", "coupled", "exceptional"];

/// The five counts of an operator in a year. The book is unchanged.
/// Follows 02, point 2: "the call for it gives 4, 5 or 7 as an amount field with
/// that operator and year would, and five zeros with it"; and 01, by which a book
/// out of range gets 5 "from every call, before any other check". The call is
/// electricity's, whatever those before it were.
pub fn sheet(book: &Book, operator: u8, year: u8) -> (Answer, [u128; COUNTS]) {
    let year = usize::from(year);
    let lent = book.lent_to(Sector::Electricity);
    if let Some(number) = operator_refusal(&lent, operator, year < YEARS) {
        return (Answer::Refused(number), [0; COUNTS]);
    }
    let figures = &book.operators[usize::from(operator)].figures[year];
    let mut counts = [0; COUNTS];
    counts.copy_from_slice(&figures[FIRST_COUNT..]);
    (Answer::Yes, counts)
}

#[cfg(test)]
mod tests {
    use super::*;
    use crate::book::{figure_places, Operator};
    use crate::calls::{amount, join};

    /// The sheet is refused by that number, with zeros.
    fn refuses(book: &Book, number: u8, operator: u8, year: u8) {
        let refused = (Answer::Refused(number), [0; 5]);
        assert_eq!(sheet(book, operator, year), refused, "{operator} {year}");
    }

    /// All operators joined, every figure other than every other.
    fn full() -> Book {
        let mut book = Book::fresh();
        for (k, operator) in (0..).zip(&mut book.operators) {
            operator.joined = true;
            for (year, figure) in figure_places() {
                operator.figures[year][figure] = 1 + k * 1000 + year as u128 * 100 + figure as u128;
            }
        }
        book
    }

    /// The sheet has figures 8 to 12 of its operator and year.
    fn has_its_figures(operator: u8, year: u8) {
        let first = 1 + u128::from(operator) * 1000 + u128::from(year) * 100 + 8;
        let counts = [first, first + 1, first + 2, first + 3, first + 4];
        assert_eq!(sheet(&full(), operator, year), (Answer::Yes, counts));
    }

    #[test]
    fn every_operator_and_year_has_a_sheet() {
        assert!(full().in_range());
        for operator in 0..16 {
            (0..3).for_each(|year| has_its_figures(operator, year));
        }
    }

    #[test]
    fn figures_at_their_most() {
        let mut book = full();
        book.operators[5].figures[1] = vec![100_000_000_000; 13];
        assert_eq!(sheet(&book, 5, 1), (Answer::Yes, [100_000_000_000; 5]));
    }

    #[test]
    fn a_joined_operator_without_interruptions() {
        let mut book = Book::fresh();
        assert_eq!(join(&mut book, 7), Answer::Yes);
        for year in 0..3 {
            assert_eq!(sheet(&book, 7, year), (Answer::Yes, [0; 5]));
        }
    }

    #[test]
    fn order_of_refusals() {
        let mut book = Book::fresh();
        assert_eq!(join(&mut book, 3), Answer::Yes);
        // 4 before 5 and 7.
        for year in [0, 2, 3, 255] {
            refuses(&book, 4, 16, year);
            refuses(&book, 4, 255, year);
        }
        // 5 before 7.
        for year in 3..=255 {
            refuses(&book, 5, 3, year);
            refuses(&book, 5, 4, year);
        }
        for year in 0..3 {
            refuses(&book, 7, 4, year);
            refuses(&Book::fresh(), 7, 3, year);
        }
    }

    /// Every sheet of the book is refused by 5.
    fn refuses_every_sheet(book: &Book) {
        for (operator, year) in [0, 1, 15, 16, 255]
            .into_iter()
            .flat_map(|operator| [0, 2, 3, 255].map(|year| (operator, year)))
        {
            refuses(book, 5, operator, year);
        }
    }

    #[test]
    fn book_out_of_range() {
        let mut past = full();
        past.operators[15].figures[2][12] = 100_000_000_001;
        refuses_every_sheet(&past);
        let mut rate = Book::fresh();
        rate.cap_rate = 20_001;
        refuses_every_sheet(&rate);
        let mut not_joined = full();
        not_joined.operators[15] = Operator::fresh();
        assert_eq!(sheet(&not_joined, 0, 0).0, Answer::Yes);
        not_joined.operators[15].figures[0][8] = 1;
        refuses_every_sheet(&not_joined);
    }

    /// The refusals are those of an amount field with that operator and year.
    #[test]
    fn refused_as_an_amount_is() {
        let mut book = Book::fresh();
        assert_eq!(join(&mut book, 3), Answer::Yes);
        for (operator, year) in
            (0..=255).flat_map(|operator| [0, 1, 2, 3, 4, 255].map(|y| (operator, y)))
        {
            let answer = amount(&mut book, operator, year, 8, 0, 0);
            assert_eq!(sheet(&book, operator, year), (answer, [0; 5]));
        }
    }
}
