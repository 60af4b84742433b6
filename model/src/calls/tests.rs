//! The seven filing calls: the marked cases, the ranges, the order of the
//! refusals, and books out of range.

mod counts;
mod gas;
mod times;

use super::*;
use crate::book::{figure_places, Operator};
use std::ops::RangeInclusive;

const MOST: u64 = 100_000_000_000;

/// A book in which only the given operators are joined, all marks set.
fn with(operators: &[u8]) -> Book {
    let mut book = Book::fresh();
    for &operator in operators {
        assert_eq!(join(&mut book, operator), Answer::Yes);
    }
    book
}

/// A book in which all are joined.
fn with_all() -> Book {
    with(&(0..16).collect::<Vec<u8>>())
}

/// A book in which operator 0 is joined and has these figures.
fn with_amounts(amounts: &[(u8, u8, u64)]) -> Book {
    let mut book = with(&[0]);
    for &(year, figure, value) in amounts {
        assert_eq!(amount(&mut book, 0, year, figure, 0, value), Answer::Yes);
    }
    book
}

/// An own-network MV interruption of operator 0, weight 1, filed.
fn mv(start: i64, end: i64) -> Interruption {
    Interruption {
        operator: 0,
        sign: 0,
        level: 0,
        cause: 0,
        start,
        end,
        weight: 1,
    }
}

/// The same interruption with another value.
impl Interruption {
    fn of(self, operator: u8) -> Interruption {
        Interruption { operator, ..self }
    }

    fn sign(self, sign: u8) -> Interruption {
        Interruption { sign, ..self }
    }

    fn withdrawn(self) -> Interruption {
        self.sign(1)
    }

    fn level(self, level: u8) -> Interruption {
        Interruption { level, ..self }
    }

    fn lv(self) -> Interruption {
        self.level(1)
    }

    fn cause(self, cause: u8) -> Interruption {
        Interruption { cause, ..self }
    }

    fn weight(self, weight: u32) -> Interruption {
        Interruption { weight, ..self }
    }
}

/// Makes the call and checks that it is refused and leaves the book.
fn refuses(book: &Book, number: u8, call: impl Fn(&mut Book) -> Answer) {
    let mut after = book.clone();
    assert_eq!(call(&mut after), Answer::Refused(number));
    assert_eq!(after, *book);
}

/// The same for the call with each of these values.
fn refuses_each(
    book: &Book,
    number: u8,
    values: RangeInclusive<u8>,
    call: impl Fn(&mut Book, u8) -> Answer,
) {
    for value in values {
        refuses(book, number, |book| call(book, value));
    }
}

/// The same for an interruption.
fn refuses_filed(book: &Book, number: u8, filed: Interruption) {
    refuses(book, number, |book| interruption(book, &filed));
}

/// The count that an interruption left out for that reason moves.
fn count_figure(reason: Reason) -> usize {
    match reason {
        Reason::Short => 9,
        Reason::Planned => 10,
        Reason::Coupled => 11,
        Reason::Exceptional => 12,
    }
}

/// Brings the figure up or down by so much.
fn moved(figure: &mut u128, by: i128) {
    *figure = (*figure as i128 + by) as u128;
}

/// 1 if the interruption is filed, -1 if it is withdrawn.
fn one(filed: &Interruption) -> i128 {
    [1, -1][usize::from(filed.sign)]
}

/// Files the interruption and checks that it is left out, and that it moves the
/// count of its reason in that year by 1 and nothing else.
fn leaves_out(book: &Book, year: usize, reason: Reason, filed: Interruption) {
    let mut after = book.clone();
    let answer = interruption(&mut after, &filed);
    assert_eq!(answer, Answer::LeftOut(reason), "{filed:?}");
    let mut expected = book.clone();
    let figures = &mut expected.operators[usize::from(filed.operator)].figures[year];
    moved(&mut figures[count_figure(reason)], one(&filed));
    assert_eq!(after, expected, "{filed:?}");
}

/// The same for the interruption of year 0 filed and then withdrawn, which without
/// any in its count is refused.
fn leaves_out_both(book: &Book, reason: Reason, filed: Interruption) {
    leaves_out(book, 0, reason, filed);
    refuses_filed(book, 9, filed.withdrawn());
    let mut with_one = book.clone();
    interruption(&mut with_one, &filed);
    leaves_out(&with_one, 0, reason, filed.withdrawn());
    interruption(&mut with_one, &filed.withdrawn());
    assert_eq!(with_one, *book);
}

/// Files the interruption and checks that it counts, in that year only, in those
/// two figures by so much, by 1 in the count, and in no other figure.
fn counts(book: &Book, year: usize, figure: usize, by: (i128, i128), filed: Interruption) {
    let mut after = book.clone();
    let answer = interruption(&mut after, &filed);
    assert_eq!(answer, Answer::Counted { year }, "{filed:?}");
    let mut expected = book.clone();
    let figures = &mut expected.operators[usize::from(filed.operator)].figures[year];
    moved(&mut figures[figure], by.0);
    moved(&mut figures[figure + 1], by.1);
    moved(&mut figures[8], one(&filed));
    assert_eq!(after, expected, "{filed:?}");
}

// The marked cases.

#[test]
fn seconds_180_are_short_and_181_count() {
    let book = with(&[0]);
    leaves_out(&book, 0, Reason::Short, mv(0, 180));
    counts(&book, 0, 0, (1, 181), mv(0, 181));
    leaves_out(&book, 0, Reason::Short, mv(1_000_000, 1_000_180));
    counts(&book, 0, 0, (1, 181), mv(1_000_000, 1_000_181));
}

#[test]
fn year_of_the_end() {
    let book = with(&[0]);
    let whole = 31_535_999;
    counts(&book, 0, 0, (1, whole), mv(0, 31_535_999));
    counts(&book, 1, 0, (1, 31_536_000), mv(0, 31_536_000));
    counts(&book, 1, 0, (1, 1000), mv(31_535_500, 31_536_500));
    counts(&book, 1, 0, (1, whole), mv(31_536_000, 63_071_999));
    counts(&book, 2, 0, (1, 31_536_000), mv(31_536_000, 63_072_000));
    counts(&book, 2, 0, (1, whole), mv(63_072_000, 94_607_999));
    // One that began before 2017.
    counts(&book, 0, 0, (1, 181), mv(-181, 0));
    counts(&book, 0, 0, (1, 181), mv(-180, 1));
}

#[test]
fn end_past_the_last_year() {
    let book = with(&[0]);
    // Follows 02, point 8: "the marked end of 94,608,000 now gets 15".
    refuses_filed(&book, 15, mv(94_607_000, 94_608_000));
    counts(&book, 2, 0, (1, 999), mv(94_607_000, 94_607_999));
}

fn takes_exactly_ten_to_the_eleventh(year: u8, figure: u8) {
    let mut book = with_amounts(&[(year, figure, MOST)]);
    let mut expected = with(&[0]);
    expected.operators[0].figures[usize::from(year)][usize::from(figure)] = 100_000_000_000;
    assert_eq!(book, expected);
    refuses(&book, 8, |book| amount(book, 0, year, figure, 0, 1));
    assert_eq!(amount(&mut book, 0, year, figure, 0, 0), Answer::Yes);
    assert_eq!(book, expected);
    assert_eq!(amount(&mut book, 0, year, figure, 1, MOST), Answer::Yes);
    assert_eq!(book, with(&[0]));
}

#[test]
fn figure_of_exactly_ten_to_the_eleventh() {
    for (year, figure) in figure_places() {
        takes_exactly_ten_to_the_eleventh(year as u8, figure as u8);
    }
}

// The example column of the table of answers.

#[test]
fn examples_of_the_table() {
    let fresh = Book::fresh();
    refuses(&fresh, 4, |book| join(book, 16));
    refuses(&fresh, 5, |book| mark(book, 0, 6, 1));
    refuses(&with(&[0]), 6, |book| join(book, 0));
    refuses(&fresh, 7, |book| mark(book, 0, 0, 1));
    refuses(&with(&[0]), 8, |book| amount(book, 0, 0, 0, 0, MOST + 1));
    refuses(&with(&[0]), 9, |book| amount(book, 0, 0, 0, 1, 1));
}

// Join.

/// A join sets the six marks of its operator, and alters nothing else.
fn joins_once(operator: u8) {
    let mut expected = Book::fresh();
    expected.operators[usize::from(operator)].joined = true;
    expected.operators[usize::from(operator)].marks = vec![true; 6];
    assert_eq!(with(&[operator]), expected);
    refuses(&expected, 6, |book| join(book, operator));
}

#[test]
fn joins() {
    (0..16).for_each(joins_once);
    assert_eq!(with_all().joined_mask(), 65_535);
    for indicator in 0..6 {
        assert_eq!(with_all().mark_mask(indicator), 65_535);
    }
    refuses_each(&with_all(), 4, 16..=255, join);
    refuses_each(&Book::fresh(), 4, 16..=255, join);
}

#[test]
fn a_join_leaves_the_marks_of_the_others() {
    let mut book = with(&[0]);
    assert_eq!(mark(&mut book, 0, 2, 0), Answer::Yes);
    assert_eq!(join(&mut book, 9), Answer::Yes);
    let mut expected = with(&[0, 9]);
    expected.operators[0].marks[2] = false;
    assert_eq!(book, expected);
    // A refused join doesn't set a mark again.
    refuses(&book, 6, |book| join(book, 0));
}

// Settings.

#[test]
fn settings_are_replaced() {
    let mut book = with(&[3]);
    assert_eq!(setting(&mut book, 3, 0, 100), Answer::Yes);
    assert_eq!(setting(&mut book, 3, 1, 1000), Answer::Yes);
    assert_eq!(setting(&mut book, 3, 2, 100_000_000), Answer::Yes);
    assert_eq!(setting(&mut book, 3, 3, 200), Answer::Yes);
    assert_eq!(setting(&mut book, 3, 4, 400), Answer::Yes);
    assert_eq!(setting(&mut book, 3, 0, 99), Answer::Yes);
    assert_eq!(setting(&mut book, 3, 3, 199), Answer::Yes);
    let mut expected = with(&[3]);
    expected.operators[3].cabins = [99, 199, 400];
    expected.operators[3].access_points = 1000;
    expected.operators[3].income = 100_000_000;
    assert_eq!(book, expected);
    for which in 0..5 {
        assert_eq!(setting(&mut book, 3, which, 0), Answer::Yes);
    }
    assert_eq!(book, with(&[3]));
}

/// A setting alters the value that its number names, and nothing else.
fn sets_only(which: u8, expected: impl Fn(&mut Operator)) {
    let mut book = with(&[3, 9]);
    assert_eq!(setting(&mut book, 9, which, 7), Answer::Yes);
    let mut altered = with(&[3, 9]);
    expected(&mut altered.operators[9]);
    assert_eq!(book, altered, "{which}");
}

#[test]
fn each_setting_has_its_number() {
    sets_only(0, |operator| operator.cabins = [7, 0, 0]);
    sets_only(1, |operator| operator.access_points = 7);
    sets_only(2, |operator| operator.income = 7);
    sets_only(3, |operator| operator.cabins = [0, 7, 0]);
    sets_only(4, |operator| operator.cabins = [0, 0, 7]);
}

fn setting_has_range(which: u8, most: u64) {
    let book = with(&[0]);
    let answer = setting(&mut book.clone(), 0, which, most);
    assert_eq!(answer, Answer::Yes, "{which}");
    refuses(&book, 5, |book| setting(book, 0, which, most + 1));
    refuses(&book, 5, |book| setting(book, 0, which, u64::MAX));
    refuses(&book, 5, |book| setting(book, 1, which, most + 1));
    refuses(&book, 4, |book| setting(book, 16, which, most + 1));
    refuses(&book, 4, |book| setting(book, 16, which, most));
    refuses(&book, 7, |book| setting(book, 1, which, most));
}

#[test]
fn settings_have_ranges() {
    setting_has_range(0, 100_000);
    setting_has_range(1, 4_000_000);
    setting_has_range(2, MOST);
    setting_has_range(3, 100_000);
    setting_has_range(4, 100_000);
}

#[test]
fn cabins_have_no_other_range() {
    // The limits of the access points and of the income.
    let book = with(&[0]);
    for value in [4_000_000, 4_000_001, MOST, MOST + 1] {
        for which in [0, 3, 4] {
            refuses(&book, 5, |book| setting(book, 0, which, value));
        }
    }
}

#[test]
fn unknown_settings() {
    let book = with(&[0]);
    refuses_each(&book, 5, 5..=255, |book, which| setting(book, 0, which, 0));
    refuses_each(&book, 5, 5..=255, |book, which| setting(book, 1, which, 0));
    refuses_each(&book, 4, 5..=255, |book, which| {
        setting(book, 255, which, 0)
    });
}

// Interruptions.

/// An interruption of that level is judged by its cause.
fn has_causes(filed: Interruption) {
    let book = with(&[0]);
    let figure = 2 * usize::from(filed.level);
    counts(&book, 0, figure, (1, 181), filed.cause(0));
    counts(&book, 0, figure, (1, 181), filed.cause(4));
    leaves_out_both(&book, Reason::Planned, filed.cause(1));
    leaves_out_both(&book, Reason::Coupled, filed.cause(2));
    leaves_out_both(&book, Reason::Exceptional, filed.cause(3));
    refuses_each(&book, 5, 5..=255, |book, cause| {
        interruption(book, &filed.cause(cause))
    });
}

#[test]
fn causes() {
    has_causes(mv(0, 181));
    has_causes(mv(0, 181).lv());
}

#[test]
fn short_comes_before_the_cause() {
    let book = with(&[0]);
    let lengths = [0, 1, 179, 180];
    for (cause, seconds) in (0..5).flat_map(|cause| lengths.map(|seconds| (cause, seconds))) {
        leaves_out_both(&book, Reason::Short, mv(5000, 5000 + seconds).cause(cause));
    }
    // A value out of its range comes before being short.
    refuses_filed(&book, 5, mv(0, 180).cause(5));
    refuses_filed(&book, 5, mv(0, 180).weight(0));
}

#[test]
fn signs_and_levels_out_of_range() {
    let book = with(&[0]);
    let counted = mv(0, 1000);
    counts(&book, 0, 0, (1, 1000), counted);
    refuses_each(&book, 5, 2..=255, |book, sign| {
        interruption(book, &counted.sign(sign))
    });
    refuses_each(&book, 5, 2..=255, |book, level| {
        interruption(book, &counted.level(level))
    });
}

#[test]
fn weights() {
    let book = with(&[0]);
    let filed = mv(0, 1000);
    refuses_filed(&book, 5, filed.weight(0));
    counts(&book, 0, 0, (1, 1000), filed.weight(1));
    counts(&book, 0, 0, (2, 2000), filed.weight(2));
    counts(&book, 0, 0, (100_000, 100_000_000), filed.weight(100_000));
    refuses_filed(&book, 5, filed.weight(100_001));
    refuses_filed(&book, 5, filed.weight(u32::MAX));
    counts(&book, 0, 2, (1, 1000), filed.lv());
    for weight in [0, 2, 100_000, 100_001, u32::MAX] {
        refuses_filed(&book, 5, filed.lv().weight(weight));
    }
    // The weight may pass the cabins the operator has filed.
    let mut book = with(&[0]);
    assert_eq!(setting(&mut book, 0, 0, 5), Answer::Yes);
    counts(&book, 0, 0, (6, 6000), filed.weight(6));
}

#[test]
fn interruptions_add_up() {
    let mut book = with(&[0, 7]);
    for (year, filed) in [
        (0, mv(0, 200).of(7).weight(10)),
        (0, mv(1000, 2000).of(7).weight(3)),
        (0, mv(0, 500).of(7).lv()),
        (0, mv(0, 181).of(7).lv()),
        (2, mv(63_072_000, 63_073_000).of(7).weight(2)),
        (0, mv(0, 300)),
    ] {
        assert_eq!(interruption(&mut book, &filed), Answer::Counted { year });
    }
    let mut expected = with(&[0, 7]);
    expected.operators[7].figures[0] = vec![13, 5000, 2, 681, 0, 0, 0, 0, 4, 0, 0, 0, 0];
    expected.operators[7].figures[2] = vec![2, 2000, 0, 0, 0, 0, 0, 0, 1, 0, 0, 0, 0];
    expected.operators[0].figures[0] = vec![1, 300, 0, 0, 0, 0, 0, 0, 1, 0, 0, 0, 0];
    assert_eq!(book, expected);
}

#[test]
fn interruptions_are_withdrawn() {
    let mut book = with(&[0, 1]);
    let filed = mv(0, 1000).weight(10);
    refuses_filed(&book, 9, filed.withdrawn());
    assert_eq!(interruption(&mut book, &filed), Answer::Counted { year: 0 });
    // No earlier twin is needed, only enough in the three figures.
    let other = mv(0, 2500).weight(4).withdrawn();
    counts(&book, 0, 0, (-4, -10_000), other);
    // Too little weight, too few weighted seconds.
    refuses_filed(&book, 9, mv(0, 200).weight(11).withdrawn());
    refuses_filed(&book, 9, mv(0, 10_001).withdrawn());
    // Enough, but in another year, at another level, for another operator.
    refuses_filed(&book, 9, mv(31_536_000, 31_537_000).withdrawn());
    refuses_filed(&book, 9, mv(0, 1000).lv().withdrawn());
    refuses_filed(&book, 9, mv(0, 1000).of(1).withdrawn());
    // All of it.
    let answer = interruption(&mut book, &filed.withdrawn());
    assert_eq!(answer, Answer::Counted { year: 0 });
    assert_eq!(book, with(&[0, 1]));
}

#[test]
fn interruptions_and_amounts_share_the_figures() {
    let book = with_amounts(&[(1, 2, 1), (1, 3, 500), (1, 8, 1)]);
    let withdrawn = mv(31_536_000, 31_536_500).lv().withdrawn();
    counts(&book, 1, 2, (-1, -500), withdrawn);
    let book = with_amounts(&[(1, 11, 1)]);
    leaves_out(&book, 1, Reason::Coupled, withdrawn.cause(2));
    // The count of another year, or of another outcome.
    for amount in [(0, 8, 1), (2, 8, 1), (1, 9, 1), (1, 12, 1)] {
        let book = with_amounts(&[(1, 2, 1), (1, 3, 500), amount]);
        refuses_filed(&book, 9, withdrawn);
    }
}

#[test]
fn one_interruption_past_ten_to_the_eleventh() {
    let book = with(&[0]);
    // 100,000 x 1,000,000 seconds is exactly 10^11.
    let exact = mv(0, 1_000_000).weight(100_000);
    counts(&book, 0, 0, (100_000, 100_000_000_000), exact);
    // The product itself passes 10^11: 8, though every value is in range.
    refuses_filed(&book, 8, mv(0, 1_000_001).weight(100_000));
    let longest = mv(-31_536_000, 94_607_999).weight(100_000);
    refuses_filed(&book, 8, longest);
    refuses_filed(&book, 9, longest.withdrawn());
}

#[test]
fn sums_of_interruptions_past_ten_to_the_eleventh() {
    // By the weighted seconds alone.
    let near = with_amounts(&[(0, 1, MOST - 1000)]);
    counts(&near, 0, 0, (1, 1000), mv(0, 1000));
    refuses_filed(&near, 8, mv(0, 1001));
    // By the weight alone.
    let near = with_amounts(&[(0, 0, MOST - 1)]);
    counts(&near, 0, 0, (1, 1000), mv(0, 1000));
    refuses_filed(&near, 8, mv(0, 1000).weight(2));
    // The same at LV.
    let near = with_amounts(&[(0, 3, MOST - 999)]);
    refuses_filed(&near, 8, mv(0, 1000).lv());
    let near = with_amounts(&[(0, 2, MOST)]);
    refuses_filed(&near, 8, mv(0, 1000).lv());
    counts(&near, 0, 0, (1, 1000), mv(0, 1000));
}

#[test]
fn order_of_refusals_of_an_interruption() {
    let book = with(&[0]);
    let bad_weight = mv(0, 1000).weight(0);
    let past_most = mv(0, 1_000_001).weight(100_000);
    // 4 before 5 and 7.
    refuses_filed(&book, 4, bad_weight.of(16));
    refuses_filed(&book, 4, bad_weight.of(255));
    refuses_filed(&book, 4, mv(0, 100).of(16));
    refuses_filed(&book, 4, mv(0, 100).of(255));
    // 5 before 7.
    refuses_filed(&book, 5, bad_weight.of(1));
    // 7 before 8 and 9, and before being left out.
    refuses_filed(&book, 7, past_most.of(1));
    refuses_filed(&book, 7, mv(0, 1000).of(1).withdrawn());
    refuses_filed(&book, 7, mv(0, 100).of(1));
    refuses_filed(&book, 7, mv(0, 1000).of(1).cause(1));
    // 5 before 8 and 9.
    refuses_filed(&book, 5, past_most.weight(100_001));
    refuses_filed(&book, 5, past_most.weight(100_001).withdrawn());
}

// Amounts.

#[test]
fn amounts_add_and_subtract() {
    let mut book = with(&[15]);
    assert_eq!(amount(&mut book, 15, 2, 4, 0, 50_000), Answer::Yes);
    assert_eq!(amount(&mut book, 15, 2, 4, 0, 1), Answer::Yes);
    assert_eq!(amount(&mut book, 15, 0, 5, 0, 0), Answer::Yes);
    assert_eq!(amount(&mut book, 15, 2, 4, 1, 20_000), Answer::Yes);
    let mut expected = with(&[15]);
    expected.operators[15].figures[2][4] = 30_001;
    assert_eq!(book, expected);
    refuses(&book, 9, |book| amount(book, 15, 2, 4, 1, 30_002));
    refuses(&book, 9, |book| amount(book, 15, 2, 5, 1, 1));
    refuses(&book, 9, |book| amount(book, 15, 1, 4, 1, 1));
    assert_eq!(amount(&mut book, 15, 2, 4, 1, 30_001), Answer::Yes);
    assert_eq!(amount(&mut book, 15, 2, 4, 1, 0), Answer::Yes);
    assert_eq!(book, with(&[15]));
}

#[test]
fn amounts_of_any_size_are_judged_by_8_and_9() {
    let filed = |sign: u8, value: u64| move |book: &mut Book| amount(book, 0, 0, 0, sign, value);
    let book = with(&[0]);
    refuses(&book, 8, filed(0, MOST + 1));
    refuses(&book, 9, filed(1, MOST + 1));
    refuses(&book, 8, filed(0, 1 << 63));
    refuses(&book, 9, filed(1, 1 << 63));
    refuses(&book, 8, filed(0, u64::MAX));
    refuses(&book, 9, filed(1, u64::MAX));
    let book = with_amounts(&[(0, 0, 1)]);
    refuses(&book, 8, filed(0, MOST));
    refuses(&book, 8, filed(0, u64::MAX));
    refuses(&book, 9, filed(1, u64::MAX));
    let book = with_amounts(&[(0, 0, 1), (0, 0, MOST - 1)]);
    refuses(&book, 9, filed(1, MOST + 1));
}

/// A value out of range gets 5, unless the operator is above 15, and also if it
/// has not joined.
fn is_out_of_range(values: RangeInclusive<u8>, call: impl Fn(&mut Book, u8, u8) -> Answer) {
    let book = with(&[0]);
    refuses_each(&book, 5, values.clone(), |book, value| call(book, 0, value));
    refuses_each(&book, 5, values.clone(), |book, value| call(book, 1, value));
    refuses_each(&book, 4, values, |book, value| call(book, 16, value));
}

#[test]
fn order_of_refusals_of_an_amount() {
    is_out_of_range(2..=255, |book, operator, sign| {
        amount(book, operator, 0, 0, sign, u64::MAX)
    });
    is_out_of_range(3..=255, |book, operator, year| {
        amount(book, operator, year, 0, 0, u64::MAX)
    });
    is_out_of_range(13..=255, |book, operator, figure| {
        amount(book, operator, 0, figure, 1, 1)
    });
    let book = with(&[0]);
    refuses(&book, 5, |book| amount(book, 0, 0, 0, 2, 0));
    refuses(&book, 4, |book| amount(book, 16, 0, 0, 0, u64::MAX));
    refuses(&book, 7, |book| amount(book, 1, 0, 0, 0, u64::MAX));
    refuses(&book, 7, |book| amount(book, 1, 0, 0, 1, 1));
    refuses(&book, 7, |book| amount(book, 1, 0, 0, 0, 0));
}

// Marks.

/// Each mark is given twice: the second leaves the book.
fn is_cleared_and_set_again(indicator: u8) {
    let mut book = with(&[0, 9]);
    let mut cleared = with(&[0, 9]);
    cleared.operators[9].marks[usize::from(indicator)] = false;
    assert_eq!(mark(&mut book, 9, indicator, 0), Answer::Yes);
    assert_eq!(book, cleared);
    assert_eq!(mark(&mut book, 9, indicator, 0), Answer::Yes);
    assert_eq!(book, cleared);
    assert_eq!(mark(&mut book, 9, indicator, 1), Answer::Yes);
    assert_eq!(book, with(&[0, 9]));
    assert_eq!(mark(&mut book, 9, indicator, 1), Answer::Yes);
    assert_eq!(book, with(&[0, 9]));
}

#[test]
fn marks() {
    (0..6).for_each(is_cleared_and_set_again);
    is_out_of_range(2..=255, |book, operator, value| {
        mark(book, operator, 0, value)
    });
    is_out_of_range(6..=255, |book, operator, indicator| {
        mark(book, operator, indicator, 1)
    });
    let book = with(&[0]);
    refuses(&book, 7, |book| mark(book, 1, 5, 0));
    refuses(&book, 4, |book| mark(book, 16, 0, 1));
}

// Rates and indices.

#[test]
fn rates_are_replaced() {
    let mut book = Book::fresh();
    assert_eq!(rates(&mut book, 5000, 10_000), Answer::Yes);
    assert_eq!((book.pot_rate, book.cap_rate), (5000, 10_000));
    assert_eq!(rates(&mut book, 20_000, 20_000), Answer::Yes);
    assert_eq!((book.pot_rate, book.cap_rate), (20_000, 20_000));
    refuses(&book, 5, |book| rates(book, 20_001, 0));
    refuses(&book, 5, |book| rates(book, 0, 20_001));
    refuses(&book, 5, |book| rates(book, u32::MAX, u32::MAX));
    assert_eq!(rates(&mut book, 0, 0), Answer::Yes);
    assert_eq!(book, Book::fresh());
}

fn replaces(number: u8, value: u32) {
    let mut book = Book::fresh();
    assert_eq!(index(&mut book, number, 777), Answer::Yes);
    assert_eq!(index(&mut book, number, value), Answer::Yes);
    let mut expected = Book::fresh();
    expected.indices[usize::from(number)] = u128::from(value);
    assert_eq!(book, expected);
}

#[test]
fn indices_are_replaced() {
    for (number, value) in (0..4).flat_map(|number| [1, 100_000, 9_999].map(|v| (number, v))) {
        replaces(number, value);
    }
}

#[test]
fn indices_have_ranges() {
    let fresh = Book::fresh();
    for value in [0, 100_001, u32::MAX] {
        refuses_each(&fresh, 5, 0..=3, |book, number| index(book, number, value));
    }
    refuses_each(&fresh, 5, 4..=255, |book, number| {
        index(book, number, 10_000)
    });
    refuses_each(&fresh, 5, 4..=255, |book, number| index(book, number, 0));
}

// A book out of range.

/// Every call, with values that a sound book with operator 0 joined takes, and
/// with values that it refuses by other numbers.
fn refused_by_every_call(book: &Book) {
    for operator in [0, 1, 5, 16, 255] {
        refused_by_every_call_of(book, operator);
    }
    refuses(book, 5, |book| rates(book, 0, 0));
    refuses_each(book, 5, 0..=3, |book, number| index(book, number, 10_000));
}

fn refused_by_every_call_of(book: &Book, operator: u8) {
    refuses(book, 5, |book| join(book, operator));
    refuses_each(book, 5, 0..=4, |book, which| {
        setting(book, operator, which, 1)
    });
    refuses(book, 5, |book| amount(book, operator, 0, 0, 0, 0));
    refuses_each(book, 5, 0..=1, |book, sign| {
        amount(book, operator, 0, 0, sign, 1)
    });
    refuses_each(book, 5, 0..=1, |book, value| mark(book, operator, 0, value));
    let counted = mv(0, 1000).of(operator);
    let short = mv(0, 100).of(operator);
    let backwards = mv(1, 0).of(operator);
    let late = mv(0, 94_608_000).of(operator);
    let early = mv(-31_536_001, 0).of(operator);
    for filed in [counted, short, backwards, late, early] {
        refuses_filed(book, 5, filed);
        refuses_filed(book, 5, filed.withdrawn());
    }
}

/// Every call is refused by the book altered so.
fn refused_with(book: &Book, alter: impl Fn(&mut Book)) {
    let mut altered = book.clone();
    alter(&mut altered);
    refused_by_every_call(&altered);
}

/// The same with each operator altered so.
fn refused_with_operator(book: &Book, alter: impl Fn(&mut Operator)) {
    for k in 0..16 {
        refused_with(book, |book| alter(&mut book.operators[k]));
    }
}

/// Every value of an operator past its range.
fn refused_with_operator_past(cabins: u128, access_points: u128, most: u128) {
    let book = with_all();
    for year in 0..3 {
        refused_with_operator(&book, |operator| operator.cabins[year] = cabins);
    }
    refused_with_operator(&book, |operator| operator.access_points = access_points);
    refused_with_operator(&book, |operator| operator.income = most);
    for (year, figure) in figure_places() {
        refused_with_operator(&book, |operator| operator.figures[year][figure] = most);
    }
}

#[test]
fn book_with_an_operator_out_of_range() {
    refused_with_operator_past(100_001, 4_000_001, u128::from(MOST) + 1);
    let widest = u128::from(u64::MAX);
    refused_with_operator_past(widest, widest, widest);
}

fn refused_with_rate(rate: u128) {
    refused_with(&with(&[0]), |book| book.pot_rate = rate);
    refused_with(&with(&[0]), |book| book.cap_rate = rate);
    refused_with(&Book::fresh(), |book| book.pot_rate = rate);
    refused_with(&Book::fresh(), |book| book.cap_rate = rate);
}

fn refused_with_index(number: usize, index: u128) {
    refused_with(&with(&[0]), |book| book.indices[number] = index);
    refused_with(&Book::fresh(), |book| book.indices[number] = index);
}

#[test]
fn book_with_a_rate_or_index_out_of_range() {
    let widest = u128::from(u32::MAX);
    refused_with_rate(20_001);
    refused_with_rate(widest);
    let values = [0, 100_001, widest];
    for (number, index) in (0..4).flat_map(|number| values.map(|index| (number, index))) {
        refused_with_index(number, index);
    }
}

/// Refused with each operator not joined but altered so, all others joined or
/// none.
fn refused_with_not_joined(alter: impl Fn(&mut Operator)) {
    let mut operator = Operator::fresh();
    alter(&mut operator);
    refused_with_operator(&with_all(), |other| *other = operator.clone());
    refused_with_operator(&Book::fresh(), |other| *other = operator.clone());
}

#[test]
fn book_with_values_of_an_operator_not_joined() {
    for year in 0..3 {
        refused_with_not_joined(|operator| operator.cabins[year] = 1);
    }
    refused_with_not_joined(|operator| operator.access_points = 1);
    refused_with_not_joined(|operator| operator.income = 1);
    for indicator in 0..6 {
        refused_with_not_joined(|operator| operator.marks[indicator] = true);
    }
    // What is left of a join.
    refused_with_not_joined(|operator| operator.marks = vec![true; 6]);
}

#[test]
fn book_with_figures_of_an_operator_not_joined() {
    for (year, figure) in figure_places() {
        refused_with_not_joined(|operator| operator.figures[year][figure] = 1);
    }
}
