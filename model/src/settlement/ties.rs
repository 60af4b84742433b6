//! Settlements worked out by hand in which the access points decide who has a unit left
//! over, each in one of the four sharings. Every mistake about it gives another one.

use super::served::{mistakes, Served, Sharing, RIGHT};
use super::{settle, Settlement};
use crate::book::{Book, Operator};
use crate::calls::Answer;
use crate::sector::Sector;

const A1: usize = 0;
const D1: usize = 4;
const D2: usize = 5;
/// The figure that D1 reads.
const FEES: usize = 4;
const BOTH: [Sector; 2] = [Sector::Electricity, Sector::Gas];
/// The operators of the cases, so that none is at the place of its number.
const NUMBERS: [usize; 6] = [1, 2, 5, 9, 12, 15];

/// Access points, income, and the indicators at which there is no mark.
type Attested = (u128, u128, &'static [usize]);

fn operator(sector: Sector, (access_points, income, unmarked): Attested) -> Operator {
    let mut operator = Operator {
        joined: true,
        access_points,
        income,
        marks: sector.marks_of_a_join(),
        ..Operator::fresh()
    };
    if sector == Sector::Electricity {
        operator.cabins = [1000; 3];
    }
    for &indicator in unmarked {
        operator.marks[indicator] = false;
    }
    operator
}

/// A book with these operators and rates.
fn book(sector: Sector, operators: &[Attested], [pot_rate, cap_rate]: [u128; 2]) -> Book {
    let mut book = Book::fresh_in(sector);
    for (&k, &attested) in NUMBERS.iter().zip(operators) {
        book.operators[k] = operator(sector, attested);
    }
    book.pot_rate = pot_rate;
    book.cap_rate = cap_rate;
    book
}

/// The settlement of a book in which the sizes decide in that sharing: every mistake
/// there shows, and in the others the order of equal remainders doesn't matter.
fn settled(book: &Book, sharing: Sharing) -> Settlement {
    let (answer, settlement) = settle(book);
    assert_eq!(answer, Answer::Yes);
    let served = Served::new(book);
    assert_eq!(served.settled(sharing, RIGHT), settlement);
    for (mistake, one) in mistakes() {
        let same = served.settled(one, mistake.order) == settlement;
        let is_free = one != sharing && mistake.name != "size before remainder";
        assert!(one != sharing || !same, "{one:?}: {}", mistake.name);
        assert!(!is_free || same, "{one:?}: {}", mistake.name);
    }
    settlement
}

/// The values of the operators of a case.
fn of_case<const COUNT: usize, T: Copy>(list: &[T]) -> [T; COUNT] {
    std::array::from_fn(|place| list[NUMBERS[place]])
}

#[test]
fn points_of_better_operators() {
    // A1: s is 0, 4000, 4000 and 1000000, k is 0, 4, 4 and 1000. The first three are
    // better: each takes 1000000000 + 2 × 996005996 = 2992011992, the last takes
    // 3 × 367695116 = 1103085348. The pool of 46200 gives 13714.58 and 5056.25: two
    // are left over for the first three, of sizes 2, 2 and 5.
    let operators: [Attested; 4] = [
        (2, 100, &[A1]),
        (2, 300, &[A1]),
        (5, 200, &[A1]),
        (9, 100, &[A1]),
    ];
    let mut book = book(Sector::Electricity, &operators, [0, 0]);
    book.operators[NUMBERS[1]].figures[0][0] = 4;
    book.operators[NUMBERS[2]].figures[1][0] = 4;
    book.operators[NUMBERS[3]].figures[2][0] = 1000;
    let settlement = settled(&book, Sharing::Points);
    assert_eq!(settlement.points.pools[A1], 46_200);
    let totals = settlement.points.totals();
    assert_eq!(of_case(&totals), [13_715, 13_714, 13_715, 5056]);
    // By number 13715, 13715, 13714; by income and the higher of equals 13714, 13715,
    // 13715; the size before the remainder gives 5057 to the last.
}

#[test]
fn points_at_d1() {
    // The first is marked, so that the pool is 6000 × 5 / 6 = 5000. Weights 10, 10, 10,
    // 10 and 4: 1136.36 each and 454.55. Two are left over: one for the last, which is
    // the smallest, and one for the four of sizes 2, 5, 5 and 2.
    let operators: [Attested; 6] = [
        (50, 500, &[]),
        (2, 100, &[D1]),
        (5, 100, &[D1]),
        (5, 100, &[D1]),
        (2, 300, &[D1]),
        (1, 100, &[D1]),
    ];
    for sector in BOTH {
        let mut book = book(sector, &operators, [0, 0]);
        book.operators[NUMBERS[5]].figures[0][FEES] = 100;
        let settlement = settled(&book, Sharing::Points);
        assert_eq!(settlement.points.pools[D1], 5000);
        let totals = settlement.points.totals();
        assert_eq!(of_case(&totals), [0, 1136, 1137, 1136, 1136, 455]);
    }
}

#[test]
fn contributions() {
    // Pot 20000 × 400 / 1000000 = 8, by sizes that sum to 16: a half of each size, 0.5,
    // 2, 2.5, 1.5 and 1.5. Two are left over for the sizes 1, 5, 3 and 3.
    let operators: [Attested; 5] = [
        (1, 200, &[]),
        (4, 50, &[D2]),
        (5, 50, &[]),
        (3, 50, &[]),
        (3, 50, &[]),
    ];
    for sector in BOTH {
        let settlement = settled(
            &book(sector, &operators, [20_000, 0]),
            Sharing::Contributions,
        );
        let money = &settlement.money;
        assert_eq!(money.pot, 8);
        // By number 1, 2, 3, 1, 1; fewer first 1, 2, 2, 2, 1; the higher of equals 0, 2,
        // 3, 1, 2; the size before the remainder 0, 3, 3, 1, 1.
        assert_eq!(of_case(&money.contributions), [0, 2, 3, 2, 1]);
        // One operator has all points; nobody has a limit.
        assert_eq!(of_case(&settlement.points.totals()), [0, 300, 0, 0, 0]);
        assert_eq!(of_case(&money.returns), [0, 8, 0, 0, 0]);
        assert_eq!(money.adjustments, [0; 16]);
    }
}

#[test]
fn returns() {
    // Points: 6000 × 1 / 5 + 1500 / 5 = 1500 and 300 each. Pot 20000 × 600 / 1000000 =
    // 12. Weights 1 × 1500, 3 × 300, 8 × 300, 3 × 300 and 5 × 300 sum to 7200: 2.5, 1.5,
    // 4, 1.5 and 2.5. Two are left over for the sizes 1, 3, 3 and 5, whose weights are
    // 1500, 900, 900 and 1500.
    let operators: [Attested; 5] = [
        (1, 100, &[D1, D2]),
        (3, 100, &[D2]),
        (8, 100, &[D2]),
        (3, 200, &[D2]),
        (5, 100, &[D2]),
    ];
    for sector in BOTH {
        let book = book(sector, &operators, [20_000, 20_000]);
        let settlement = settled(&book, Sharing::Returns);
        let money = &settlement.money;
        let totals = settlement.points.totals();
        assert_eq!(of_case(&totals), [1500, 300, 300, 300, 300]);
        assert_eq!(money.pot, 12);
        // 0.6, 1.8, 4.8, 1.8 and 3: three are left over for three.
        assert_eq!(of_case(&money.contributions), [0, 2, 5, 2, 3]);
        // By weight 3, 1, 4, 1, 3; by number and fewer first 3, 2, 4, 1, 2; the higher
        // of equals 2, 1, 4, 2, 3; the size before the remainder 2, 1, 5, 1, 3.
        assert_eq!(of_case(&money.returns), [2, 2, 4, 1, 3]);
        // Within the limits of 2, 2, 2, 4 and 2.
        assert_eq!(of_case(&money.adjustments), [2, 0, -1, -1, 0]);
    }
}

/// Five operators against the last one, with the points on one side. Pot 16000 × 7500 /
/// 1000000 = 120, by sizes that sum to 40: three times each size. The limits are 2000 ×
/// income / 1000000: 3, 1, 1, 3, 2 and 5, which are the cut amounts.
fn cut_amounts(sector: Sector, points_of_five: bool) -> Settlement {
    let [five, last]: [&'static [usize]; 2] = if points_of_five {
        [&[D2], &[]]
    } else {
        [&[], &[D2]]
    };
    let operators: [Attested; 6] = [
        (1, 1500, five),
        (3, 500, five),
        (3, 500, five),
        (5, 1500, five),
        (8, 1000, five),
        (20, 2500, last),
    ];
    let settlement = settled(
        &book(sector, &operators, [16_000, 2000]),
        Sharing::AfterLimit,
    );
    assert_eq!(settlement.money.pot, 120);
    let contributions = of_case(&settlement.money.contributions);
    assert_eq!(contributions, [3, 9, 9, 15, 24, 60]);
    assert_eq!(of_case(&settlement.money.limits), [3, 1, 1, 3, 2, 5]);
    settlement
}

#[test]
fn bonuses_after_the_limit() {
    // 5 is shared by 3, 1, 1, 3 and 2: a half of each, 1.5, 0.5, 0.5, 1.5 and 1. Two are
    // left over for the sizes 1, 3, 3 and 5.
    for sector in BOTH {
        let settlement = cut_amounts(sector, true);
        let totals = settlement.points.totals();
        assert_eq!(of_case(&totals), [250, 250, 250, 250, 250, 0]);
        // Six times each size.
        assert_eq!(of_case(&settlement.money.returns), [6, 18, 18, 30, 48, 0]);
        // By cut amount 2, 0, 0, 2, 1; by number and fewer first 2, 1, 0, 1, 1; the
        // higher of equals 1, 0, 1, 2, 1; the size before the remainder gives one to
        // the last.
        let adjustments = of_case(&settlement.money.adjustments);
        assert_eq!(adjustments, [1, 1, 0, 2, 1, -5]);
    }
}

#[test]
fn maluses_after_the_limit() {
    // The same on the other side.
    for sector in BOTH {
        let settlement = cut_amounts(sector, false);
        assert_eq!(of_case(&settlement.points.totals()), [0, 0, 0, 0, 0, 250]);
        assert_eq!(of_case(&settlement.money.returns), [0, 0, 0, 0, 0, 120]);
        let adjustments = of_case(&settlement.money.adjustments);
        assert_eq!(adjustments, [-1, -1, 0, -2, -1, 5]);
    }
}
