//! The times of an interruption: which are taken, which get 14 and which 15, and where
//! these two stand among the other refusals.

use super::*;

/// With operator 0 joined, those times get that number.
fn refuses_times(number: u8, start: i64, end: i64) {
    refuses_filed(&with(&[0]), number, mv(start, end));
    refuses_filed(&with(&[0]), number, mv(start, end).lv());
}

/// They are taken, as short.
fn takes_as_short(year: usize, start: i64, end: i64) {
    leaves_out(&with(&[0]), year, Reason::Short, mv(start, end));
}

#[test]
fn start_after_end_gets_14() {
    // By one second, in each year and at both ends of the period.
    for end in [0, 5000, 31_535_999, 31_536_000, 63_072_000, 94_607_999] {
        refuses_times(14, end + 1, end);
    }
    // A start has no latest second of its own: this is 14 alone.
    refuses_times(14, 94_608_000, 94_607_999);
    refuses_times(14, 94_607_999, 0);
    refuses_times(14, i64::MAX, 0);
    refuses_times(14, i64::MAX, 94_607_999);
}

#[test]
fn start_at_end_is_taken() {
    takes_as_short(0, 0, 0);
    takes_as_short(0, 5000, 5000);
    takes_as_short(1, 31_536_000, 31_536_000);
    takes_as_short(2, 94_607_999, 94_607_999);
    takes_as_short(0, 4999, 5000);
}

#[test]
fn end_after_the_three_years_gets_15() {
    // With a start in the period, or at the end.
    for start in [-31_536_000, 0, 94_607_000, 94_607_999, 94_608_000] {
        refuses_times(15, start, 94_608_000);
        refuses_times(15, start, i64::MAX);
    }
    // The last end that is taken.
    counts(&with(&[0]), 2, 0, (1, 999), mv(94_607_000, 94_607_999));
}

#[test]
fn end_before_the_three_years_gets_15() {
    // 2016 is in the period of a start, not in that of an end.
    for start in [-31_536_000, -1000, -181, -1] {
        refuses_times(15, start, -1);
    }
    refuses_times(15, -31_536_000, -31_536_000);
    // The first end that is taken.
    counts(&with(&[0]), 0, 0, (1, 181), mv(-181, 0));
    takes_as_short(0, -1, 0);
}

#[test]
fn start_too_early_gets_15() {
    for end in [0, 5000, 31_536_000, 94_607_999] {
        refuses_times(15, -31_536_001, end);
        refuses_times(15, i64::MIN, end);
    }
    // The first start that is taken, a year before 2017.
    let book = with(&[0]);
    counts(&book, 0, 0, (1, 31_536_000), mv(-31_536_000, 0));
    counts(&book, 2, 0, (1, 126_143_999), mv(-31_536_000, 94_607_999));
}

#[test]
fn start_and_end_outside_the_period_get_15() {
    refuses_times(15, -31_536_001, 94_608_000);
    refuses_times(15, -31_536_001, -1);
    refuses_times(15, -31_536_001, -31_536_001);
    refuses_times(15, -31_536_002, -31_536_001);
}

#[test]
fn where_both_apply_14_is_given() {
    // The end is too late.
    refuses_times(14, 94_608_001, 94_608_000);
    refuses_times(14, i64::MAX, 94_608_000);
    // The end is before 2017, the start is in the period.
    refuses_times(14, 0, -1);
    refuses_times(14, 94_607_999, -1);
    refuses_times(14, -31_536_000, -31_536_001);
    // Start and end are too early.
    refuses_times(14, -31_536_001, -31_536_002);
}

/// The least and the greatest numbers of 64 bits, and 0. The difference of some of them is
/// past 64 bits.
const WIDEST: [i64; 5] = [i64::MIN, i64::MIN + 1, 0, i64::MAX - 1, i64::MAX];

/// An interruption that begins then gets these numbers, one for each end; 0 stands for the
/// one that is taken.
fn refuses_by_end(start: i64, numbers: [u8; 5]) {
    for (end, number) in WIDEST.into_iter().zip(numbers) {
        match number {
            0 => takes_as_short(0, start, end),
            _ => refuses_times(number, start, end),
        }
    }
}

#[test]
fn widest_times() {
    let by_start = [
        [15, 15, 15, 15, 15],
        [14, 15, 15, 15, 15],
        [14, 14, 0, 15, 15],
        [14, 14, 14, 15, 15],
        [14, 14, 14, 14, 15],
    ];
    for (start, numbers) in WIDEST.into_iter().zip(by_start) {
        refuses_by_end(start, numbers);
    }
}

/// Times that get 14, 15, and 14 where both apply.
const WRONG_TIMES: [(u8, i64, i64); 6] = [
    (14, 5001, 5000),
    (15, 94_607_000, 94_608_000),
    (15, -1000, -1),
    (15, -31_536_001, 0),
    (14, 94_608_001, 94_608_000),
    (14, i64::MAX, i64::MIN),
];

/// The interruption with each other value out of its range.
fn with_another_value_out_of_range(filed: Interruption) -> [Interruption; 8] {
    [
        filed.sign(2),
        filed.sign(255),
        filed.level(2),
        filed.cause(5),
        filed.cause(255),
        filed.weight(0),
        filed.weight(100_001),
        filed.lv().weight(2),
    ]
}

/// 4 and 5 come before its times, whatever these are.
fn other_values_come_first(filed: Interruption) {
    let book = with(&[0]);
    refuses_filed(&book, 4, filed.of(16));
    refuses_filed(&book, 4, filed.of(255));
    for other in with_another_value_out_of_range(filed) {
        refuses_filed(&book, 5, other);
        refuses_filed(&book, 5, other.of(1));
        refuses_filed(&book, 4, other.of(16));
    }
}

#[test]
fn other_values_come_before_the_times() {
    for (_, start, end) in WRONG_TIMES {
        other_values_come_first(mv(start, end));
    }
}

#[test]
fn times_come_before_a_missing_join() {
    for (number, start, end) in WRONG_TIMES {
        refuses_filed(&with(&[0]), number, mv(start, end).of(1));
        refuses_filed(&Book::fresh(), number, mv(start, end));
        refuses_filed(&Book::fresh(), number, mv(start, end).withdrawn());
    }
    // Right times: 7, also at the ends of the period.
    refuses_filed(&Book::fresh(), 7, mv(5000, 5000));
    refuses_filed(&Book::fresh(), 7, mv(-31_536_000, 94_607_999));
}

#[test]
fn times_come_before_the_figures() {
    let full: Vec<(u8, u8, u64)> = (0..3)
        .flat_map(|year| (0..13).map(move |figure| (year, figure, MOST)))
        .collect();
    for (number, start, end) in WRONG_TIMES {
        refuses_filed(&with_amounts(&full), number, mv(start, end));
        refuses_filed(&with(&[0]), number, mv(start, end).withdrawn());
    }
    // 31,536,001 seconds of this weight would pass 10^11, and so would a second less.
    refuses_filed(&with(&[0]), 15, mv(-31_536_001, 0).weight(100_000));
    refuses_filed(&with(&[0]), 8, mv(-31_536_000, 0).weight(100_000));
}
