//! The counts that every accepted interruption moves: which one, by how much, in
//! which year, and the refusals that come of it.

use super::*;

#[test]
fn every_outcome_has_its_count() {
    let book = with(&[0]);
    // A planned one of exactly 180 seconds is short, cause 4 of 181 counts.
    leaves_out(&book, 0, Reason::Short, mv(0, 180).cause(1));
    leaves_out(&book, 0, Reason::Planned, mv(0, 181).cause(1));
    leaves_out(&book, 0, Reason::Coupled, mv(0, 181).cause(2));
    leaves_out(&book, 0, Reason::Exceptional, mv(0, 181).cause(3));
    counts(&book, 0, 0, (1, 181), mv(0, 181).cause(4));
    counts(&book, 0, 0, (1, 181), mv(0, 181));
}

#[test]
fn counts_stand_in_the_figures_8_to_12() {
    let mut book = with(&[0]);
    let long = mv(0, 181);
    let outcomes = [
        long,
        mv(0, 180),
        long.cause(1),
        long.cause(2),
        long.cause(3),
    ];
    for (times, filed) in (1..).zip(outcomes) {
        for _ in 0..times {
            interruption(&mut book, &filed);
        }
    }
    let figures = &book.operators[0].figures;
    assert_eq!(figures[0], [1, 181, 0, 0, 0, 0, 0, 0, 1, 2, 3, 4, 5]);
    assert_eq!(figures[1..], [[0; 13]; 2]);
}

#[test]
fn the_weight_does_not_count() {
    let book = with(&[0]);
    for weight in [1, 2, 100_000] {
        let long = mv(0, 181).weight(weight);
        let weight = i128::from(weight);
        counts(&book, 0, 0, (weight, weight * 181), long);
        leaves_out(&book, 0, Reason::Short, mv(0, 180).weight(weight as u32));
        leaves_out(&book, 0, Reason::Planned, long.cause(1));
    }
    // LV and MV share the counts.
    counts(&book, 0, 2, (1, 181), mv(0, 181).lv());
    leaves_out(&book, 0, Reason::Short, mv(0, 180).lv());
    leaves_out(&book, 0, Reason::Planned, mv(0, 181).lv().cause(1));
}

/// Each outcome counts in the year of the end, whenever it began.
fn counts_in_year(year: usize, end: i64) {
    let book = with(&[0]);
    let long = mv(end - 1000, end);
    counts(&book, year, 0, (1, 1000), long);
    leaves_out(&book, year, Reason::Short, mv(end - 180, end));
    leaves_out(&book, year, Reason::Planned, long.cause(1));
    leaves_out(&book, year, Reason::Coupled, long.cause(2));
    leaves_out(&book, year, Reason::Exceptional, long.cause(3));
}

#[test]
fn counts_are_those_of_the_year_of_the_end() {
    for (year, end) in [
        (0, 0),
        (0, 31_535_999),
        (1, 31_536_000),
        (1, 31_536_100),
        (1, 63_071_999),
        (2, 63_072_000),
        (2, 94_607_999),
    ] {
        counts_in_year(year, end);
    }
}

#[test]
fn a_count_without_room_stops_all_three_figures() {
    let full = with_amounts(&[(0, 8, MOST)]);
    for filed in [mv(0, 181), mv(0, 181).lv(), mv(0, 181).weight(100_000)] {
        refuses_filed(&full, 8, filed);
        refuses_filed(&full, 8, filed.cause(4));
    }
    // Only in its own year.
    counts(&full, 1, 0, (1, 1000), mv(31_536_000, 31_537_000));
    let nearly = with_amounts(&[(0, 8, MOST - 1)]);
    counts(&nearly, 0, 0, (1, 181), mv(0, 181));
    // Neither weight nor weighted seconds may pass with room in the count.
    refuses_filed(&with_amounts(&[(0, 0, MOST)]), 8, mv(0, 181));
    refuses_filed(&with_amounts(&[(0, 1, MOST)]), 8, mv(0, 181));
}

#[test]
fn a_withdrawal_needs_its_count() {
    // Enough weight and weighted seconds, but no count.
    let book = with_amounts(&[(0, 0, 5), (0, 1, 5000)]);
    refuses_filed(&book, 9, mv(0, 1000).withdrawn());
    // Its count was withdrawn by an amount.
    let mut book = with(&[0]);
    let filed = mv(0, 1000).weight(5);
    interruption(&mut book, &filed);
    assert_eq!(amount(&mut book, 0, 0, 8, 1, 1), Answer::Yes);
    refuses_filed(&book, 9, filed.withdrawn());
    assert_eq!(amount(&mut book, 0, 0, 8, 0, 1), Answer::Yes);
    counts(&book, 0, 0, (-5, -5000), filed.withdrawn());
    // A count, but too little weight or too few weighted seconds.
    refuses_filed(
        &with_amounts(&[(0, 8, 1), (0, 0, 1)]),
        9,
        mv(0, 1000).withdrawn(),
    );
    refuses_filed(
        &with_amounts(&[(0, 8, 1), (0, 1, 1000)]),
        9,
        mv(0, 1000).withdrawn(),
    );
}

#[test]
fn order_of_refusals_of_one_left_out() {
    let book = with(&[0]);
    let planned = mv(0, 181).cause(1).withdrawn();
    refuses_filed(&book, 9, planned);
    refuses_filed(&book, 4, planned.of(16));
    refuses_filed(&book, 7, planned.of(1));
    refuses_filed(&book, 5, planned.weight(0));
    refuses_filed(&book, 5, planned.weight(0).of(1));
    let full = with_amounts(&[(0, 10, MOST)]);
    refuses_filed(&full, 8, mv(0, 181).cause(1));
    refuses_filed(&full, 5, mv(0, 181).cause(1).lv().weight(2));
}

/// A book in which operator 0 has that value at each of these figures of year 0.
fn with_figures(figures: impl IntoIterator<Item = usize>, value: u64) -> Book {
    let amounts: Vec<(u8, u8, u64)> = figures
        .into_iter()
        .map(|figure| (0, figure as u8, value))
        .collect();
    with_amounts(&amounts)
}

/// It needs room in its own count only, and something in it to be withdrawn.
fn needs_its_own_count(reason: Reason, filed: Interruption) {
    let own = count_figure(reason);
    let others = || (0..13).filter(|&figure| figure != own);
    leaves_out(&with_figures(others(), MOST), 0, reason, filed);
    refuses_filed(&with_figures(others(), MOST), 9, filed.withdrawn());
    refuses_filed(&with_figures([own], MOST), 8, filed);
    leaves_out(&with_figures([own], MOST), 0, reason, filed.withdrawn());
    leaves_out(&with_figures([own], MOST - 1), 0, reason, filed);
    leaves_out(&with_figures([own], 1), 0, reason, filed.withdrawn());
}

#[test]
fn left_out_needs_its_own_count() {
    for filed in [mv(0, 181).weight(100_000), mv(0, 181).lv()] {
        needs_its_own_count(Reason::Planned, filed.cause(1));
        needs_its_own_count(Reason::Coupled, filed.cause(2));
        needs_its_own_count(Reason::Exceptional, filed.cause(3));
    }
    for cause in 0..5 {
        needs_its_own_count(Reason::Short, mv(0, 180).cause(cause));
    }
}
