//! The filing calls of gas: what they take and refuse, in which order, and books that
//! are out of range for gas alone.

use super::*;
use crate::sector::Sector;

/// A gas book in which only the given operators are joined, both marks set.
fn gas(operators: &[u8]) -> Book {
    let mut book = Book::fresh_in(Sector::Gas);
    for &operator in operators {
        assert_eq!(join(&mut book, operator), Answer::Yes);
    }
    book
}

#[test]
fn a_gas_join_marks_d1_and_d2() {
    let book = gas(&[3, 15]);
    for (indicator, mask) in (0..6).zip([0, 0, 0, 0, 0x8008, 0x8008]) {
        assert_eq!(book.mark_mask(indicator), mask);
    }
    let mut expected = Book::fresh_in(Sector::Gas);
    for k in [3, 15] {
        expected.operators[k].joined = true;
        expected.operators[k].marks = vec![false, false, false, false, true, true];
    }
    assert_eq!(book, expected);
    refuses(&book, 6, |book| join(book, 3));
    refuses(&book, 4, |book| join(book, 16));
}

#[test]
fn cabins_are_refused() {
    let book = gas(&[0]);
    for which in [0, 3, 4, 5, 255] {
        for value in [0, 1, 100_000, 100_001, u64::MAX] {
            refuses(&book, 5, |book| setting(book, 0, which, value));
            // 5 before 7, and 4 before 5.
            refuses(&book, 5, |book| setting(book, 1, which, value));
            refuses(&book, 4, |book| setting(book, 16, which, value));
        }
    }
}

/// The setting is taken up to that value.
fn takes_setting(which: u8, most: u64) {
    let mut book = gas(&[0]);
    for value in [1, most, 0] {
        assert_eq!(setting(&mut book, 0, which, value), Answer::Yes);
        let mut expected = gas(&[0]);
        expected.operators[0].put_setting(NUMBERED_SETTINGS[usize::from(which)], u128::from(value));
        assert_eq!(book, expected);
    }
    refuses(&book, 5, |book| setting(book, 0, which, most + 1));
    refuses(&book, 7, |book| setting(book, 1, which, most));
    refuses(&book, 5, |book| setting(book, 1, which, most + 1));
}

#[test]
fn access_points_and_income_are_taken() {
    takes_setting(1, 4_000_000);
    takes_setting(2, MOST);
}

#[test]
fn figures_of_electricity_are_refused() {
    let book = gas(&[0]);
    for figure in (0..=3).chain(8..=255) {
        for (year, sign, value) in [(0, 0, 0), (1, 1, 0), (2, 0, 1), (0, 1, 1), (1, 0, u64::MAX)] {
            refuses(&book, 5, |book| amount(book, 0, year, figure, sign, value));
            refuses(&book, 5, |book| amount(book, 1, year, figure, sign, value));
            refuses(&book, 4, |book| amount(book, 16, year, figure, sign, value));
        }
    }
}

/// The figure goes up to 10^11 and back to 0, and no farther.
fn takes_figure(year: u8, figure: u8) {
    let mut book = gas(&[0]);
    let move_it =
        |book: &mut Book, sign: u8, value: u64| amount(book, 0, year, figure, sign, value);
    refuses(&book, 9, |book| move_it(book, 1, 1));
    refuses(&book, 8, |book| move_it(book, 0, MOST + 1));
    assert_eq!(move_it(&mut book, 0, MOST), Answer::Yes);
    let mut expected = gas(&[0]);
    expected.operators[0].figures[usize::from(year)][usize::from(figure)] = u128::from(MOST);
    assert_eq!(book, expected);
    refuses(&book, 8, |book| move_it(book, 0, 1));
    refuses(&book, 9, |book| move_it(book, 1, MOST + 1));
    assert_eq!(move_it(&mut book, 1, MOST), Answer::Yes);
    assert_eq!(book, gas(&[0]));
}

#[test]
fn figures_4_to_7_are_taken() {
    for (year, figure) in (0..3).flat_map(|year| (4..8).map(move |figure| (year, figure))) {
        takes_figure(year, figure);
    }
    let book = gas(&[0]);
    refuses(&book, 5, |book| amount(book, 0, 3, 4, 0, 1));
    refuses(&book, 5, |book| amount(book, 0, 0, 4, 2, 1));
    refuses(&book, 7, |book| amount(book, 1, 0, 4, 0, 1));
}

#[test]
fn marks_of_d1_and_d2_alone_are_taken() {
    let book = gas(&[0]);
    for (indicator, value) in
        (0..=255).flat_map(|indicator| [0, 1, 2].map(|mark| (indicator, mark)))
    {
        let in_range = [4, 5].contains(&indicator) && value <= 1;
        if in_range {
            let mut marked = book.clone();
            assert_eq!(mark(&mut marked, 0, indicator, value), Answer::Yes);
            let mut expected = book.clone();
            expected.operators[0].marks[usize::from(indicator)] = value == 1;
            assert_eq!(marked, expected);
            refuses(&book, 7, |book| mark(book, 1, indicator, value));
        } else {
            refuses(&book, 5, |book| mark(book, 0, indicator, value));
            refuses(&book, 5, |book| mark(book, 1, indicator, value));
        }
        refuses(&book, 4, |book| mark(book, 16, indicator, value));
    }
}

#[test]
fn rates_and_indices_are_those_of_electricity() {
    let mut book = gas(&[]);
    assert_eq!(rates(&mut book, 20_000, 20_000), Answer::Yes);
    refuses(&book, 5, |book| rates(book, 20_001, 0));
    refuses(&book, 5, |book| rates(book, 0, 20_001));
    for number in 0..4 {
        assert_eq!(index(&mut book, number, 1), Answer::Yes);
        assert_eq!(index(&mut book, number, 100_000), Answer::Yes);
        refuses(&book, 5, |book| index(book, number, 0));
        refuses(&book, 5, |book| index(book, number, 100_001));
    }
    refuses(&book, 5, |book| index(book, 4, 1));
}

/// Interruptions that electricity counts, leaves out, and refuses by 4, 5, 7, 9, 14 and
/// 15.
fn interruptions() -> [Interruption; 12] {
    let long = mv(0, 181);
    [
        long,
        mv(0, 180),
        long.cause(1),
        long.of(16),
        long.cause(5),
        long.of(1),
        long.withdrawn(),
        mv(1, 0),
        mv(0, 94_608_000),
        mv(-31_536_001, 0),
        mv(i64::MAX, i64::MIN).of(1),
        mv(1, 0).of(255).sign(2).level(2).cause(5).weight(0),
    ]
}

/// In range: before 4, 5, 7, 14 and 15.
#[test]
fn interruptions_are_refused_by_2() {
    for filed in interruptions() {
        refuses_filed(&gas(&[]), 2, filed);
        refuses_filed(&gas(&[0]), 2, filed);
    }
    let long = mv(0, 181);
    for operator in 0..=255 {
        refuses_filed(&gas(&[0]), 2, long.of(operator));
        refuses_filed(&gas(&[0]), 2, long.of(operator).cause(5));
    }
}

/// Any interruption is refused by 5 once a sound gas book is altered so.
fn interruptions_refused_by_5(alter: impl Fn(&mut Book)) {
    let mut book = gas(&[0]);
    alter(&mut book);
    for filed in interruptions() {
        refuses_filed(&book, 5, filed);
    }
}

/// Follows 01: "gets 5 from every call, before any other check", so before 2 too.
#[test]
fn interruptions_on_a_gas_book_out_of_range() {
    // Past ranges that both sectors have.
    interruptions_refused_by_5(|book| book.pot_rate = 20_001);
    interruptions_refused_by_5(|book| book.cap_rate = 20_001);
    interruptions_refused_by_5(|book| book.indices[0] = 0);
    interruptions_refused_by_5(|book| book.indices[3] = 100_001);
    interruptions_refused_by_5(|book| book.operators[0].access_points = 4_000_001);
    interruptions_refused_by_5(|book| book.operators[0].income = 100_000_000_001);
    interruptions_refused_by_5(|book| book.operators[0].figures[2][7] = 100_000_000_001);
    // Values of operators not joined.
    interruptions_refused_by_5(|book| book.operators[1].access_points = 1);
    interruptions_refused_by_5(|book| book.operators[15].marks[4] = true);
    interruptions_refused_by_5(|book| book.operators[1].figures[0][4] = 1);
    interruptions_refused_by_5(|book| book.put_joined_mask(0));
    // What only electricity has.
    interruptions_refused_by_5(|book| book.operators[0].cabins[1] = 1);
    interruptions_refused_by_5(|book| book.operators[0].marks[3] = true);
    interruptions_refused_by_5(|book| book.operators[0].figures[0][0] = 1);
    interruptions_refused_by_5(|book| book.operators[0].figures[0][12] = 1);
}

/// Every call is refused by 5 once a sound gas book is altered so, which electricity
/// takes.
fn refused_by_gas_alone(alter: impl Fn(&mut Operator)) {
    let mut book = gas(&[0, 1]);
    alter(&mut book.operators[0]);
    refuses(&book, 5, |book| join(book, 2));
    refuses(&book, 5, |book| join(book, 16));
    refuses(&book, 5, |book| setting(book, 0, 1, 1));
    refuses(&book, 5, |book| amount(book, 1, 0, 4, 0, 1));
    refuses(&book, 5, |book| mark(book, 1, 4, 0));
    refuses(&book, 5, |book| rates(book, 0, 0));
    refuses(&book, 5, |book| index(book, 0, 1));
    refuses_filed(&book, 5, mv(0, 181));
    refuses_filed(&book, 5, mv(0, 181).of(16));
    let mut lent = book.lent_to(Sector::Electricity);
    assert_eq!(join(&mut lent, 2), Answer::Yes);
}

#[test]
fn lent_books_with_what_gas_has_not() {
    for which in [0, 3, 4] {
        refused_by_gas_alone(|operator| operator.put_setting(NUMBERED_SETTINGS[which], 1));
    }
    for indicator in 0..4 {
        refused_by_gas_alone(|operator| operator.marks[indicator] = true);
    }
    let others = figure_places().filter(|&(_, figure)| !(4..8).contains(&figure));
    for (year, figure) in others {
        refused_by_gas_alone(|operator| operator.figures[year][figure] = 1);
    }
}

#[test]
fn books_lent_to_the_other_sector() {
    // A join of electricity sets marks that gas has not.
    let mut book = with(&[0]).lent_to(Sector::Gas);
    refuses(&book, 5, |book| rates(book, 1, 1));
    // With these cleared it is a gas book.
    book.operators[0].marks[..4].fill(false);
    assert_eq!(book, gas(&[0]));
    assert_eq!(rates(&mut book, 1, 1), Answer::Yes);
    // A gas book is in range for electricity, which sets six marks in the next join.
    let mut book = gas(&[0]).lent_to(Sector::Electricity);
    assert_eq!(join(&mut book, 1), Answer::Yes);
    let mut expected = with(&[0, 1]);
    expected.operators[0].marks[..4].fill(false);
    assert_eq!(book, expected);
}
