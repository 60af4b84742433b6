//! Whole settlements: the cases printed in 01, refusals, the ends of the ranges,
//! and the sums over many books.

#[path = "../src/case_m.rs"]
mod case_m;

use model::book::{Book, Operator, INDICATORS, NUMBERED_SETTINGS, OPERATORS, YEARS};
use model::calls::{self, Answer};
use model::indicators::{indicators, points, value_sum, Kind, Points};
use model::money::{money, Money};
use model::random::Random;
use model::report::lines;
use model::script;
use model::settlement::{settle, Settlement};
use model::writer::written;

const MOST: u128 = 100_000_000_000;
/// Access points, and the cabins of each year.
const SIZE_SETTINGS: [u8; 4] = [0, 1, 3, 4];

/// Settles a book that must not be refused, and checks the sums.
fn settled(book: &Book) -> Settlement {
    let (answer, settlement) = settle(book);
    assert_eq!(answer, Answer::Yes);
    check_sums(book, &settlement);
    settlement
}

/// Checks that settling is refused and everything is 0.
fn refuses(book: &Book, number: u8) {
    let (answer, settlement) = settle(book);
    assert_eq!(answer, Answer::Refused(number));
    assert_eq!(settlement, Settlement::zero());
    assert_eq!(settlement.points.pools, vec![0; 6]);
    assert_eq!(settlement.points.points, vec![vec![0; 6]; 16]);
    assert_eq!(settlement.money.pot, 0);
    assert_eq!(settlement.money.contributions, vec![0; 16]);
    assert_eq!(settlement.money.returns, vec![0; 16]);
    assert_eq!(settlement.money.limits, vec![0; 16]);
    assert_eq!(settlement.money.adjustments, vec![0; 16]);
}

// What holds for every settlement, checked without making it again.

fn check_sums(book: &Book, settlement: &Settlement) {
    for number in 0..INDICATORS {
        check_indicator(book, &settlement.points, number);
    }
    check_pot(book, &settlement.money);
    check_adjustments(&settlement.money);
    let not_joined = (0..OPERATORS).filter(|&k| !book.operators[k].joined);
    assert!(not_joined
        .map(|k| amounts(settlement, k))
        .all(|amounts| amounts == [0; 4]));
}

/// Contribution, return, limit and adjustment, without its sign.
fn amounts(settlement: &Settlement, k: usize) -> [u128; 4] {
    let money = &settlement.money;
    [
        money.contributions[k],
        money.returns[k],
        money.limits[k],
        money.adjustments[k].unsigned_abs(),
    ]
}

/// An unmarked operator at one indicator.
struct Place {
    operator: usize,
    size: u128,
    s: u128,
    points: u128,
}

fn check_indicator(book: &Book, all: &Points, number: usize) {
    let indicator = &indicators()[number];
    let joined = |&k: &usize| book.operators[k].joined;
    let unmarked = |k: &usize| joined(k) && !book.operators[*k].marks[number];
    let n = (0..OPERATORS).filter(joined).count() as u128;
    let m = (0..OPERATORS).filter(unmarked).count() as u128;
    assert_eq!(all.pools[number], 300 * indicator.points * m / n);
    // No weight is ever 0, so the pool is always shared whole.
    let points: Vec<u128> = all.points.iter().map(|points| points[number]).collect();
    assert_eq!(points.iter().sum::<u128>(), all.pools[number]);
    let mut others = (0..OPERATORS).filter(|k| !unmarked(k));
    assert!(others.all(|k| points[k] == 0));
    let places: Vec<Place> = (0..OPERATORS)
        .filter(unmarked)
        .map(|k| Place {
            operator: k,
            size: book.operators[k].access_points,
            s: value_sum(indicator, &book.operators[k], &book.indices),
            points: points[k],
        })
        .collect();
    check_places(&places, indicator.kind);
}

fn check_places(places: &[Place], kind: Kind) {
    let total: u128 = places.iter().map(|place| place.s).sum();
    let better =
        |place: &Place| kind == Kind::Interruptions && places.len() as u128 * place.s < total;
    for (a, b) in places
        .iter()
        .flat_map(|a| places.iter().map(move |b| (a, b)))
    {
        check_pair(a, b, better(a) && better(b));
    }
}

fn check_pair(a: &Place, b: &Place, both_better: bool) {
    // A smaller s never has fewer points, but for one unit left over.
    assert!(a.s > b.s || a.points + 1 >= b.points);
    // Of equal ones the larger has it, of equal sizes the lower operator.
    let is_first = a.size > b.size || (a.size == b.size && a.operator < b.operator);
    assert!(a.s != b.s || !is_first || a.points >= b.points);
    // Follows 01: "Within the group points differ by at most a hundredth."
    assert!(!both_better || a.points.abs_diff(b.points) <= 1);
}

fn check_pot(book: &Book, money: &Money) {
    let incomes: Vec<u128> = book.operators.iter().map(|one| one.income).collect();
    let pot = book.pot_rate * incomes.iter().sum::<u128>() / 1_000_000;
    assert_eq!(money.pot, pot);
    assert_eq!(money.contributions.iter().sum::<u128>(), pot);
    assert_eq!(money.returns.iter().sum::<u128>(), pot);
    let limits: Vec<u128> = incomes
        .iter()
        .map(|income| book.cap_rate * income / 1_000_000)
        .collect();
    assert_eq!(money.limits, limits);
}

/// The difference of an operator, cut to its limit.
fn cut_difference(money: &Money, k: usize) -> i128 {
    let difference = money.returns[k] as i128 - money.contributions[k] as i128;
    difference.signum() * difference.abs().min(money.limits[k] as i128)
}

fn check_adjustments(money: &Money) {
    let cuts: Vec<i128> = (0..OPERATORS).map(|k| cut_difference(money, k)).collect();
    let bonuses: i128 = cuts.iter().map(|&cut| cut.max(0)).sum();
    let maluses: i128 = cuts.iter().map(|&cut| (-cut).max(0)).sum();
    // Both sides have the sum of the smaller one.
    let adjusted = |sign: i128| -> i128 {
        let amounts = money
            .adjustments
            .iter()
            .map(|amount| (sign * amount).max(0));
        amounts.sum()
    };
    assert_eq!(adjusted(1), bonuses.min(maluses));
    assert_eq!(adjusted(-1), bonuses.min(maluses));
    for (&cut, &adjustment) in cuts.iter().zip(&money.adjustments) {
        check_adjustment(cut, adjustment, bonuses - maluses);
    }
}

/// An adjustment is between 0 and the cut amount, so that it doesn't pass its
/// limit; that of the smaller side, or of two equal ones, is the cut amount.
fn check_adjustment(cut: i128, adjustment: i128, surplus: i128) {
    assert!((cut.min(0)..=cut.max(0)).contains(&adjustment));
    assert!(cut * surplus > 0 || adjustment == cut);
}

/// A joined operator with the same cabins in every year, without interruptions and
/// fees, all marks cleared.
fn operator(cabins: u128, access_points: u128, income: u128) -> Operator {
    let mut operator = Operator::fresh();
    operator.joined = true;
    operator.cabins = [cabins; YEARS];
    operator.access_points = access_points;
    operator.income = income;
    operator
}

/// The book after these calls, which it takes.
fn after(mut book: Book, calls: &[&str]) -> Book {
    for call in calls {
        assert_eq!(script::answer(&mut book, call), Ok("yes".to_string()));
    }
    book
}

/// Case M, made by filing calls.
fn case_m() -> Book {
    after(Book::fresh(), &case_m::calls())
}

// The cases printed in 01.

#[test]
fn marked_case_m() {
    let book = case_m();
    let settlement = settled(&book);
    let totals = settlement.points.totals();
    let money = &settlement.money;
    assert_eq!(lines(&book, &settlement), case_m::PRINTED);
    assert_eq!(totals[..2], [65_036, 62_464]);
    assert_eq!(money.contributions[..2], [375_000, 1_125_000]);
    assert_eq!(money.returns[..2], [386_463, 1_113_537]);
    assert_eq!(money.adjustments[..2], [11_463, -11_463]);
    // The line of sums.
    assert_eq!(totals.iter().sum::<u128>(), 127_500);
    assert_eq!(money.contributions.iter().sum::<u128>(), 1_500_000);
    assert_eq!(money.returns.iter().sum::<u128>(), 1_500_000);
    assert_eq!(money.adjustments.iter().sum::<i128>(), 0);
    // What 01 does not print.
    assert_eq!(money.pot, 1_500_000);
    assert_eq!(money.limits[..2], [1_000_000, 2_000_000]);
    assert_eq!(
        settlement.points.pools,
        [46_200, 37_800, 19_800, 16_200, 6000, 1500]
    );
    assert_eq!(
        settlement.points.points[..2],
        [
            vec![23_100, 18_900, 9900, 8100, 4286, 750],
            vec![23_100, 18_900, 9900, 8100, 1714, 750]
        ]
    );
}

#[test]
fn marked_case_m_with_cap_rate_50() {
    let mut book = case_m();
    assert_eq!(calls::rates(&mut book, 5000, 50), Answer::Yes);
    let settlement = settled(&book);
    assert_eq!(settlement.money.limits[..2], [5000, 10_000]);
    assert_eq!(settlement.money.adjustments[..2], [5000, -5000]);
    // Points, contributions and returns are those of M.
    let of_m = settled(&case_m());
    assert_eq!(settlement.points, of_m.points);
    assert_eq!(settlement.money.contributions, of_m.money.contributions);
    assert_eq!(settlement.money.returns, of_m.money.returns);
}

// Refusals.

#[test]
fn examples_of_the_table() {
    refuses(&Book::fresh(), 10);
    let mut book = Book::fresh();
    assert_eq!(calls::join(&mut book, 0), Answer::Yes);
    refuses(&book, 11);
    book.operators[0] = operator(1, 1, 0);
    book.operators[0].marks = vec![true; 6];
    refuses(&book, 12);
}

/// These operators joined, with cabins and access points in.
fn freshly_joined(operators: &[u8]) -> Book {
    let mut book = Book::fresh();
    for &k in operators {
        assert_eq!(calls::join(&mut book, k), Answer::Yes);
        for which in SIZE_SETTINGS {
            assert_eq!(calls::setting(&mut book, k, which, 1), Answer::Yes);
        }
    }
    book
}

/// One clearing is enough to settle: the pool is the part of that operator.
fn settles_after_one_clearing(operators: &[u8], indicator: u8) {
    let mut book = freshly_joined(operators);
    refuses(&book, 12);
    let last = operators[operators.len() - 1];
    assert_eq!(calls::mark(&mut book, last, indicator, 0), Answer::Yes);
    let settlement = settled(&book);
    let number = usize::from(indicator);
    let mut pools = vec![0; 6];
    pools[number] = 300 * indicators()[number].points / operators.len() as u128;
    assert_eq!(settlement.points.pools, pools);
    assert_eq!(settlement.points.points[usize::from(last)], pools);
    assert_eq!(calls::mark(&mut book, last, indicator, 1), Answer::Yes);
    refuses(&book, 12);
}

#[test]
fn freshly_joined_operators_meet_12_until_one_mark_is_cleared() {
    for indicator in 0..6 {
        settles_after_one_clearing(&[0], indicator);
        settles_after_one_clearing(&[15], indicator);
        settles_after_one_clearing(&[9, 2, 4], indicator);
        settles_after_one_clearing(&(0..16).collect::<Vec<u8>>(), indicator);
    }
}

/// Case M with one of its operators altered.
fn case_m_with(k: usize, alter: impl Fn(&mut Operator)) -> Book {
    let mut book = case_m();
    alter(&mut book.operators[k]);
    book
}

/// The operator needs cabins and access points, but no income.
fn needs_size(k: usize) {
    refuses(&case_m_with(k, |one| *one = operator(0, 1, 1)), 11);
    refuses(&case_m_with(k, |one| *one = operator(1, 0, 1)), 11);
    refuses(&case_m_with(k, |one| *one = operator(0, 0, 1)), 11);
    settled(&case_m_with(k, |one| *one = operator(1, 1, 0)));
}

#[test]
fn refusal_11_is_for_any_joined_operator() {
    [0, 1, 15].into_iter().for_each(needs_size);
}

/// The book is refused by 11 while one setting of an operator is 0, whatever its
/// other settings are.
fn needs_setting(book: &Book, k: u8, which: u8) {
    let mut without = book.clone();
    assert_eq!(calls::setting(&mut without, k, which, 0), Answer::Yes);
    refuses(&without, 11);
    let setting = NUMBERED_SETTINGS[usize::from(which)];
    let value = book.operators[usize::from(k)].setting(setting) as u64;
    assert_eq!(calls::setting(&mut without, k, which, value), Answer::Yes);
    assert_eq!(settled(&without), settled(book));
}

/// The same for each of the four settings that every operator needs, and for either
/// operator of a book that has two.
fn needs_four_settings(book: &Book) {
    for (k, which) in (0..2).flat_map(|k| SIZE_SETTINGS.map(|which| (k, which))) {
        needs_setting(book, k, which);
    }
}

#[test]
fn refusal_11_is_for_each_of_the_four_settings() {
    needs_four_settings(&case_m());
    // An income of 0 settles.
    let mut book = case_m();
    assert_eq!(calls::setting(&mut book, 0, 2, 0), Answer::Yes);
    settled(&book);
}

#[test]
fn refusal_11_is_for_marked_operators_too() {
    // Marked at A1, which alone divides by the cabins; at A1 and A3; at every
    // indicator but the last; at every one, which the other operator is not.
    for marked in [&[0][..], &[0, 2], &[0, 1, 2, 3, 4], &[0, 1, 2, 3, 4, 5]] {
        for k in 0..2 {
            let mut book = case_m();
            for &indicator in marked {
                assert_eq!(calls::mark(&mut book, k, indicator, 1), Answer::Yes);
            }
            needs_four_settings(&book);
        }
    }
    // Everyone is marked at A1.
    let mut book = case_m();
    assert_eq!(calls::mark(&mut book, 0, 0, 1), Answer::Yes);
    assert_eq!(calls::mark(&mut book, 1, 0, 1), Answer::Yes);
    needs_four_settings(&book);
}

#[test]
fn refusal_11_needs_no_figures() {
    // No year of case M has an interruption, so that A1 is 0 without cabins as well.
    for year in 0..YEARS {
        refuses(&case_m_with(1, |one| one.cabins[year] = 0), 11);
    }
    refuses(&case_m_with(1, |one| one.cabins = [100, 0, 0]), 11);
    refuses(&case_m_with(1, |one| one.cabins = [0, 100, 100]), 11);
}

/// Case M with all marks but those of these operators at these indicators.
fn marked_but_for(unmarked: &[(usize, usize)]) -> Book {
    let mut book = case_m();
    book.operators[0].marks = vec![true; 6];
    book.operators[1].marks = vec![true; 6];
    for &(k, number) in unmarked {
        book.operators[k].marks[number] = false;
    }
    book
}

#[test]
fn refusal_12_needs_every_mark_of_every_joined_operator() {
    refuses(&marked_but_for(&[]), 12);
    for (k, number) in (0..2).flat_map(|k| (0..6).map(move |number| (k, number))) {
        settled(&marked_but_for(&[(k, number)]));
    }
}

/// Case M altered so is refused by 5.
fn is_out_of_range(alter: fn(&mut Book)) {
    let mut book = case_m();
    alter(&mut book);
    refuses(&book, 5);
}

#[test]
fn refusal_5_comes_first() {
    is_out_of_range(|book| book.pot_rate = 20_001);
    is_out_of_range(|book| book.cap_rate = 20_001);
    is_out_of_range(|book| book.indices[3] = 0);
    is_out_of_range(|book| book.operators[0].cabins[0] = 100_001);
    is_out_of_range(|book| book.operators[1].cabins[1] = 100_001);
    is_out_of_range(|book| book.operators[1].cabins[2] = 100_001);
    is_out_of_range(|book| book.operators[9].cabins[2] = 1);
    is_out_of_range(|book| book.operators[1].figures[2][7] = MOST + 1);
    is_out_of_range(|book| book.operators[9].marks[0] = true);
    is_out_of_range(|book| book.operators[9].income = 1);
}

#[test]
fn two_refusals_at_once() {
    // 5 and 10.
    let mut book = Book::fresh();
    book.cap_rate = 20_001;
    refuses(&book, 5);
    // 5 and 11.
    let mut book = Book::fresh();
    book.operators[4].joined = true;
    book.indices[0] = 100_001;
    refuses(&book, 5);
    // 5 and 12.
    let mut book = Book::fresh();
    book.operators[4] = operator(1, 1, MOST + 1);
    book.operators[4].marks = vec![true; 6];
    refuses(&book, 5);
    // 11 and 12.
    let mut book = Book::fresh();
    book.operators[4] = operator(0, 1, 0);
    book.operators[4].marks = vec![true; 6];
    refuses(&book, 11);
    // 5, 11 and 12.
    book.pot_rate = 20_001;
    refuses(&book, 5);
    // 5 and 11, both by the cabins.
    let mut book = Book::fresh();
    book.operators[4] = operator(1, 1, 0);
    book.operators[4].cabins = [1, 0, 100_001];
    refuses(&book, 5);
}

// Points.

/// One operator has all the points and all the money, whichever it is.
fn has_everything(k: usize) {
    let mut book = Book::fresh();
    book.operators[k] = operator(10, 20, 123_456_789);
    book.operators[k].figures = vec![vec![3; 13]; 3];
    book.pot_rate = 20_000;
    book.cap_rate = 20_000;
    let settlement = settled(&book);
    assert_eq!(
        settlement.points.points[k],
        [46_200, 37_800, 19_800, 16_200, 6000, 1500]
    );
    // 20000 × 123456789 / 1000000 = 2469135.78.
    let whole = 2_469_135;
    assert_eq!(settlement.money.pot, whole);
    assert_eq!(amounts(&settlement, k), [whole, whole, whole, 0]);
}

#[test]
fn single_operator() {
    (0..16).for_each(has_everything);
}

/// Seven operators that are all alike: nobody is better, and the units left
/// over go to the lower operators.
fn is_shared_alike(figure: u128) {
    let mut one = operator(5, 6, 1_000_000);
    one.figures = vec![vec![figure; 13]; 3];
    let mut book = Book::fresh();
    book.operators[1..8].fill(one);
    let settlement = settled(&book);
    let expected = |k: usize| {
        let extra = |of: usize| u128::from(k <= of);
        vec![
            6600,            // 46200 / 7
            5400,            // 37800 / 7
            2828 + extra(4), // 19800 = 7 × 2828 + 4
            2314 + extra(2), // 16200 = 7 × 2314 + 2
            857 + extra(1),  // 6000 = 7 × 857 + 1
            214 + extra(2),  // 1500 = 7 × 214 + 2
        ]
    };
    let expected: Vec<Vec<u128>> = (1..8).map(expected).collect();
    assert_eq!(settlement.points.points[1..8], expected);
}

#[test]
fn all_sums_equal() {
    [0, 1, MOST].into_iter().for_each(is_shared_alike);
}

#[test]
fn interruptions_by_hand() {
    // A1: s is 1000, 2000, 6000; k is 166, 333, 1000; the first two are better.
    let mut book = Book::fresh();
    book.operators[..3].fill(operator(1000, 1, 0));
    book.operators[0].figures[0][0] = 1;
    book.operators[1].figures[1][0] = 2;
    book.operators[2].figures[2][0] = 6;
    // Weights by the table: 846975816, 716650645 and 367695116, levelled to
    // 1563626461 twice and 735390232.
    let table = model::exponent::table();
    let group = table[166] + table[333];
    let other = 2 * table[1000];
    assert_eq!((group, other), (1_563_626_461, 735_390_232));
    let sum = 2 * group + other;
    let settlement = settled(&book);
    let a1: Vec<u128> = (0..3).map(|k| settlement.points.points[k][0]).collect();
    assert_eq!(a1[0] + a1[1] + a1[2], 46_200);
    assert!((46_200 * group / sum..=46_200 * group / sum + 1).contains(&a1[0]));
    assert!((46_200 * other / sum..=46_200 * other / sum + 1).contains(&a1[2]));
    assert_eq!(a1, [18_702, 18_702, 8796]);
    // Without seconds and fees the rest is shared equally.
    for k in 0..3 {
        assert_eq!(
            settlement.points.points[k][1..],
            [12_600, 6600, 5400, 2000, 500]
        );
    }
}

/// An operator with these cabins and MV weights by year.
fn network(cabins: [u128; 3], weights: [u128; 3]) -> Operator {
    let mut one = operator(1, 1, 0);
    one.cabins = cabins;
    for (year, weight) in weights.into_iter().enumerate() {
        one.figures[year][0] = weight;
    }
    one
}

/// The points at A1 of the first operators, which are these.
fn points_at_a1<const COUNT: usize>(operators: [Operator; COUNT]) -> [u128; COUNT] {
    let mut book = Book::fresh();
    book.operators.splice(..COUNT, operators);
    let points = settled(&book).points.points;
    std::array::from_fn(|k| points[k][0])
}

#[test]
fn networks_that_grow_and_shrink_by_hand() {
    // 5 / 100, 9 / 200, 40 / 400; the same backwards; 195 / 1000: s is 195,000 for
    // each, so that nobody is better. Divided by year 0's cabins s would be 540,000,
    // 135,000 and 195,000; with years 1 and 2 exchanged 272,500, 217,500 and 195,000.
    let alike = points_at_a1([
        network([100, 200, 400], [5, 9, 40]),
        network([400, 200, 100], [40, 9, 5]),
        network([1000; 3], [195, 0, 0]),
    ]);
    assert_eq!(alike, [15_400; 3]);
    // s is 195,000 and 200,000; k is 975 and 1000; the first is better. The weights
    // are 377,008,091 and 367,695,116: 46200 × 377008091 / 744703207 = 23388.88.
    let nearly = points_at_a1([
        network([100, 200, 400], [5, 9, 40]),
        network([10; 3], [0, 2, 0]),
    ]);
    assert_eq!(nearly, [23_389, 22_811]);
}

#[test]
fn cabins_of_a_year_without_interruptions_do_not_matter() {
    let one = |cabins: [u128; 3]| {
        points_at_a1([network(cabins, [0, 9, 0]), network([200, 50, 7], [0, 0, 1])])
    };
    // 9 / 200 = 45,000 and 1 / 7 = 142,857.
    let expected = one([200; 3]);
    assert!(expected[0] > expected[1]);
    assert_eq!(one([1, 200, 100_000]), expected);
    assert_eq!(one([100_000, 200, 1]), expected);
    assert_ne!(one([200, 2, 200]), expected);
}

/// Everyone is marked at one indicator: nobody has points there.
fn is_marked_by_all(number: usize) {
    let mut book = case_m();
    book.operators[0].marks[number] = true;
    book.operators[1].marks[number] = true;
    let settlement = settled(&book);
    let mut pools = [46_200, 37_800, 19_800, 16_200, 6000, 1500];
    pools[number] = 0;
    assert_eq!(settlement.points.pools, pools);
    assert_eq!(settlement.points.points[0][number], 0);
    assert_eq!(settlement.points.points[1][number], 0);
    assert_eq!(settlement.points.points[0][0], pools[0] / 2);
}

#[test]
fn everyone_marked_at_one_indicator() {
    (0..6).for_each(is_marked_by_all);
}

/// One of three operators is unmarked at an indicator: it has the third of the
/// pool that is left.
fn has_what_is_left(k: usize, number: usize) {
    let mut one = operator(10, 1000, 1_000_000);
    one.figures = vec![vec![7; 13]; 3];
    one.marks[number] = true;
    let mut book = Book::fresh();
    book.operators[..3].fill(one);
    book.operators[k].marks[number] = false;
    let settlement = settled(&book);
    let pool = [15_400, 12_600, 6600, 5400, 2000, 500][number];
    assert_eq!(settlement.points.pools[number], pool);
    // So the others have nothing: the points sum to the pool.
    assert_eq!(settlement.points.points[k][number], pool);
}

#[test]
fn one_unmarked() {
    for (k, number) in (0..3).flat_map(|k| (0..6).map(move |number| (k, number))) {
        has_what_is_left(k, number);
    }
}

/// Operator 1 has all the points, so all the returns, yet both contribute.
fn has_the_only_points(number: usize) {
    let mut book = marked_but_for(&[(1, number)]);
    book.cap_rate = 20_000;
    let settlement = settled(&book);
    assert_eq!(settlement.points.totals()[0], 0);
    assert_eq!(settlement.money.contributions[..2], [375_000, 1_125_000]);
    assert_eq!(settlement.money.returns[..2], [0, 1_500_000]);
    assert_eq!(settlement.money.adjustments[..2], [-375_000, 375_000]);
}

#[test]
fn one_mark_missing_in_the_whole_book() {
    (0..6).for_each(has_the_only_points);
}

/// Case M with these indices.
fn indexed(indices: [u128; 4]) -> Settlement {
    let mut book = case_m();
    book.indices = indices.to_vec();
    settled(&book)
}

#[test]
fn indices_at_their_ends() {
    // The same ratio to the largest s: the settlement of M.
    let of_m = settled(&case_m());
    assert_eq!(indexed([1, 10_000, 10_000, 100_000]), of_m);
    assert_eq!(indexed([1, 10_000, 10_000, 1]), of_m);
    assert_eq!(indexed([100_000, 10_000, 10_000, 100_000]), of_m);
    // 10 × 50000 × 1 / (100 × 100000) is rounded down to 0: all alike.
    let settlement = indexed([100_000, 1, 1, 1]);
    assert_eq!(settlement.points.totals()[..2], [63_750, 63_750]);
    assert_eq!(settlement.money.adjustments, [0; 16]);
    // The indices of the other years don't matter to year 0.
    assert_eq!(indexed([10_000, 1, 100_000, 10_000]), of_m);
}

// Fees of years without connections. In case M operator 1 has the largest sum at D1, so
// that more fees of its own would show nothing: operator 0 is charged.

/// What is printed for case M after these calls.
fn printed_after(calls: &[&str]) -> String {
    let book = after(case_m(), calls);
    lines(&book, &settled(&book))
}

/// The lines of case M if operator 0 has these points, this return and this
/// adjustment; operator 1 has what is left.
fn lines_with(points: u32, back: u32, adjustment: i32) -> String {
    let (other_points, other_back) = (127_500 - points, 1_500_000 - back);
    format!(
        "operator points out in adjustment\n\
         0 {points} 375000 {back} {adjustment}\n\
         1 {other_points} 1125000 {other_back} {}\n\
         all 127500 1500000 1500000 0\n",
        -adjustment
    )
}

#[test]
fn fees_of_a_year_without_connections_by_hand() {
    // D1: s is 10 × 250 / 1 = 2500 and 5000; the weights are 700000 and 400000.
    // 6000 × 7 / 11 = 3818.18, in place of 4286: 65036 - 4286 + 3818 = 64568.
    // Returns by 1000 × 64568 and 3000 × 62932: 1500000 × 64568 / 253364 is 382264.25.
    let printed = printed_after(&["amount 0 1 4 0 250"]);
    assert_eq!(printed, lines_with(64_568, 382_264, 7264));
    // Counted as 0, such a year would leave the lines of M.
    assert_eq!(case_m::PRINTED, lines_with(65_036, 386_463, 11_463));
    assert_ne!(printed, case_m::PRINTED);
    // A count of 1 settles alike, one of 2 does not.
    let with_count = |call: &str| printed_after(&["amount 0 1 4 0 250", call]);
    assert_eq!(with_count("amount 0 1 5 0 1"), printed);
    assert_ne!(with_count("amount 0 1 5 0 2"), printed);
    // Withdrawn again it is 0.
    let withdrawn = ["amount 0 1 5 0 2", "amount 0 1 4 0 250", "amount 0 1 5 1 2"];
    assert_eq!(printed_after(&withdrawn), printed);
}

#[test]
fn the_index_of_a_year_without_connections_by_hand() {
    // D1: s is 10 × 250 × 10000 / (1 × 20000) = 1250 and 5000; the weights are 850000
    // and 400000. 6000 × 85 / 125 = 4080: 65036 - 4286 + 4080 = 64830.
    // Returns by 1000 × 64830 and 3000 × 62670: 1500000 × 64830 / 252840 is 384610.82.
    let printed = printed_after(&["amount 0 1 4 0 250", "index 1 20000"]);
    assert_eq!(printed, lines_with(64_830, 384_611, 9611));
    // Counted as 0 the year would leave the lines of M; with an index of 10000 it gives
    // 7264, as above.
    assert_ne!(printed, case_m::PRINTED);
    assert_ne!(printed, printed_after(&["amount 0 1 4 0 250"]));
    // Divided by 1 alone s would be 10 × 250 × 10000, which 20000 times the fees give:
    // the weights 400000 and 999880, 1714 points at D1.
    let undivided = printed_after(&["amount 0 1 4 0 5000000", "index 1 20000"]);
    assert_eq!(undivided, lines_with(62_464, 363_766, -11_234));
    // Year 2 has no fees, and June 2013 doubles both sums.
    for call in ["index 2 1", "index 3 20000"] {
        let calls = ["amount 0 1 4 0 250", "index 1 20000", call];
        assert_eq!(printed_after(&calls), printed);
    }
}

#[test]
fn fees_of_a_year_without_reconnections_by_hand() {
    // D2: s is 10 × 300 / 1 = 3000 and 0; the weights are 400000 and 1000000.
    // 1500 × 4 / 14 = 428.57, in place of 750: 65036 - 750 + 429 = 64715.
    // Returns by 1000 × 64715 and 3000 × 62785: 1500000 × 64715 / 253070 is 383579.64.
    let printed = printed_after(&["amount 0 2 6 0 300"]);
    assert_eq!(printed, lines_with(64_715, 383_580, 8580));
    assert_ne!(printed, case_m::PRINTED);
    // Connections are not reconnections.
    let calls = ["amount 0 2 6 0 300", "amount 0 2 5 0 7"];
    assert_eq!(printed_after(&calls), printed);
    // At D2 nobody else has fees: any fees and any index give the same weights.
    let calls = ["amount 0 2 6 0 1", "index 2 20000"];
    assert_eq!(printed_after(&calls), printed);
}

#[test]
fn the_book_keeps_its_count_of_0() {
    let mut book = after(case_m(), &["amount 0 1 4 0 250"]);
    let with_one = after(book.clone(), &["amount 0 1 5 0 1"]);
    assert_eq!(settled(&with_one), settled(&book));
    assert_eq!(book.operators[0].figures[1][5], 0);
    assert_ne!(written(&with_one), written(&book));
    // There is nothing to withdraw.
    assert_eq!(calls::amount(&mut book, 0, 1, 5, 1, 1), Answer::Refused(9));
}

#[test]
fn seconds_without_weight_move_nothing() {
    // A2 and A4: taken as 1, a weight of 0 would give s of 1000 × 5000000.
    for call in ["amount 0 0 1 0 5000000", "amount 0 2 3 0 5000000"] {
        assert_eq!(printed_after(&[call]), case_m::PRINTED);
        assert_eq!(
            printed_after(&[call, "index 0 20000", "index 3 20000"]),
            case_m::PRINTED
        );
    }
    // With a weight of 1 at LV, which A3 weighs too.
    let calls = ["amount 0 2 3 0 5000000", "amount 0 2 2 0 1"];
    assert_ne!(printed_after(&calls), case_m::PRINTED);
}

// Money.

#[test]
fn zero_limits() {
    let mut book = case_m();
    book.cap_rate = 0;
    let settlement = settled(&book);
    assert_eq!(settlement.money.limits, [0; 16]);
    assert_eq!(settlement.money.adjustments, [0; 16]);
    assert_eq!(settlement.money.returns[..2], [386_463, 1_113_537]);
}

/// No income, no limit; the other side has nothing to give or take either.
fn has_no_room(k: usize) {
    let settlement = settled(&case_m_with(k, |one| one.income = 0));
    assert_eq!(settlement.money.limits[k], 0);
    assert_eq!(settlement.money.adjustments, [0; 16]);
    assert!(settlement.money.returns[0] > settlement.money.contributions[0]);
}

#[test]
fn one_zero_limit() {
    has_no_room(0);
    has_no_room(1);
}

#[test]
fn zero_pot() {
    let mut book = case_m();
    book.pot_rate = 0;
    let settlement = settled(&book);
    assert_eq!(settlement.money.pot, 0);
    assert_eq!(settlement.money.contributions, [0; 16]);
    assert_eq!(settlement.money.returns, [0; 16]);
    assert_eq!(settlement.money.limits[..2], [1_000_000, 2_000_000]);
    assert_eq!(settlement.money.adjustments, [0; 16]);
}

/// Two operators without fees and two with the same fees, so that each pair
/// has the same points; the limit is a thousandth of the income.
fn two_pairs(incomes: [u128; 4]) -> Book {
    let one = |k: usize| {
        let mut one = operator(1, 1000, incomes[k]);
        if k >= 2 {
            one.figures[0][4] = 100;
            one.figures[0][5] = 1;
        }
        one
    };
    let mut book = Book::fresh();
    book.operators.splice(..4, (0..4).map(one));
    book.pot_rate = 20_000;
    book.cap_rate = 1000;
    book
}

#[test]
fn bonus_side_larger() {
    // Pot 20000 × 400000000 / 1000000 = 8000000, contributions 2000000 each.
    // D1: 6000 by 10, 10, 4, 4 is 2143, 2143, 857, 857; the rest 30375 each.
    let settlement = settled(&two_pairs([
        199_000_000,
        100_000_000,
        1_000_000,
        100_000_000,
    ]));
    let money = &settlement.money;
    assert_eq!(
        settlement.points.totals()[..4],
        [32_518, 32_518, 31_232, 31_232]
    );
    assert_eq!(money.pot, 8_000_000);
    assert_eq!(money.contributions[..4], [2_000_000; 4]);
    // 8000000 × 32518 / 127500 = 2040345.098, × 31232 = 1959654.902.
    assert_eq!(
        money.returns[..4],
        [2_040_345, 2_040_345, 1_959_655, 1_959_655]
    );
    assert_eq!(money.limits[..4], [199_000, 100_000, 1000, 100_000]);
    // Cut: 40345, 40345, -1000, -40345; 41345 is shared by equal amounts.
    assert_eq!(money.adjustments[..4], [20_673, 20_672, -1000, -40_345]);
}

#[test]
fn malus_side_larger() {
    let settlement = settled(&two_pairs([
        100_000_000,
        1_000_000,
        199_000_000,
        100_000_000,
    ]));
    let money = &settlement.money;
    assert_eq!(money.limits[..4], [100_000, 1000, 199_000, 100_000]);
    // Cut: 40345, 1000, -40345, -40345.
    assert_eq!(money.adjustments[..4], [40_345, 1000, -20_673, -20_672]);
}

/// Case M settled at these rates is its points and the money at these rates.
fn is_points_and_money(pot_rate: u128, cap_rate: u128) {
    let mut book = case_m();
    let points = points(&book, &indicators());
    let money = money(&book.operators, &points.totals(), pot_rate, cap_rate);
    book.pot_rate = pot_rate;
    book.cap_rate = cap_rate;
    assert_eq!(settled(&book), Settlement { points, money });
}

#[test]
fn one_set_of_points_at_many_rates() {
    let rates = [0, 1, 50, 5000, 10_000, 20_000];
    for (pot, cap) in rates
        .into_iter()
        .flat_map(|pot| rates.map(|cap| (pot, cap)))
    {
        is_points_and_money(pot, cap);
    }
}

// The ends of the ranges.

/// Sixteen such operators at the largest rates.
fn sixteen(one: Operator) -> Book {
    let mut book = Book::fresh();
    book.operators.fill(one);
    book.pot_rate = 20_000;
    book.cap_rate = 20_000;
    book
}

#[test]
fn sixteen_operators_at_the_largest_settings() {
    let mut one = operator(100_000, 4_000_000, MOST);
    one.figures = vec![vec![MOST; 13]; 3];
    let mut book = sixteen(one);
    book.indices = vec![100_000; 4];
    let settlement = settled(&book);
    assert_eq!(settlement.money.pot, 32_000_000_000);
    // 46200 / 16 = 2887.5, 37800 / 16 = 2362.5, 19800 / 16 = 1237.5,
    // 16200 / 16 = 1012.5, 6000 / 16 = 375, 1500 / 16 = 93.75.
    let points = |half: u128, three_quarters: u128| {
        let of_a = [2887 + half, 2362 + half, 1237 + half, 1012 + half];
        [&of_a[..], &[375, 93 + three_quarters]].concat()
    };
    let expected = [
        vec![points(1, 1); 8],
        vec![points(0, 1); 4],
        vec![points(0, 0); 4],
    ];
    assert_eq!(settlement.points.points, expected.concat());
    // Points 7971, 7967 and 7966 of 127500: 2000564705.88, 1999560784.31 and
    // 1999309803.92; 12 units left over.
    let returns = [
        vec![2_000_564_706; 8],
        vec![1_999_560_784; 4],
        vec![1_999_309_804; 4],
    ];
    assert_eq!(settlement.money.returns, returns.concat());
    assert_eq!(settlement.money.contributions, [2_000_000_000; 16]);
    assert_eq!(settlement.money.limits, [2_000_000_000; 16]);
    assert_eq!(settlement.money.adjustments[0], 564_706);
    assert_eq!(settlement.money.adjustments[15], -690_196);
}

/// One cabin, one access point, divisors of 1 and the widest indices; the last
/// operator has no interruptions and no fees.
fn largest_sums() -> Book {
    let mut one = operator(1, 1, MOST);
    let read = [MOST, MOST, 1, MOST, MOST, 1, MOST, 1];
    one.figures = vec![[&read[..], &[MOST; 5]].concat(); 3];
    let mut book = sixteen(one);
    book.operators[15].figures = vec![vec![0; 13]; 3];
    book.indices = vec![1, 1, 1, 100_000];
    book
}

#[test]
fn sums_at_their_largest() {
    let book = largest_sums();
    let s: Vec<u128> = indicators()
        .iter()
        .map(|indicator| value_sum(indicator, &book.operators[0], &book.indices))
        .collect();
    assert_eq!(
        s,
        [
            300_000_000_000_000_000,
            3000,
            3_000_000,
            300_000_000_000_000,
            300_000_000_000_000_000,
            300_000_000_000_000_000
        ]
    );
}

#[test]
fn sixteen_operators_at_the_largest_sums() {
    let settlement = settled(&largest_sums());
    // A: 15 of the weight of k = 1000 and one of 1000000000, the only better one.
    let worst = model::exponent::table()[1000];
    let best = 1_000_000_000;
    let last = &settlement.points.points[15];
    let exact = |pool: u128| pool * best / (15 * worst + best);
    for (pool, points) in [46_200, 37_800, 19_800, 16_200].into_iter().zip(last) {
        assert!((exact(pool)..=exact(pool) + 1).contains(points));
    }
    // D: 15 × 400000 and 1000000.
    assert_eq!(last[4], 857); // 6000 / 7 = 857.14
    assert_eq!(last[5], 214); // 1500 / 7 = 214.29
    assert_eq!(settlement.points.points[0][4], 343); // 6000 × 2 / 35 = 342.86
    assert_eq!(settlement.points.points[0][5], 86); // 1500 × 2 / 35 = 85.71
    assert_eq!(settlement.points.points[14][5], 85);
    assert_eq!(settlement.money.contributions, [2_000_000_000; 16]);
    // The last one is cut to its limit, which the others pay.
    assert!(settlement.money.returns[15] > 4_000_000_000);
    assert_eq!(settlement.money.adjustments[15], 2_000_000_000);
}

// Many books.

/// From 0 to `most`, often small or at an end.
fn uneven(random: &mut Random, most: u64) -> u128 {
    u128::from(match random.up_to(5) {
        0 => 0,
        1 => most,
        2 => random.up_to(most.min(3)),
        3 => random.up_to(most.min(1000)),
        _ => random.up_to(most),
    })
}

/// An operator with figures that are all alike or not, and so many of a hundred
/// marks.
fn random_operator(random: &mut Random, alike: bool, marked: u64) -> Operator {
    let mut one = operator(
        uneven(random, 99_999) + 1,
        uneven(random, 3_999_999) + 1,
        uneven(random, MOST as u64),
    );
    // The cabins of years 1 and 2 differ from those of year 0, mostly.
    if !alike {
        one.cabins[1] = uneven(random, 99_999) + 1;
        one.cabins[2] = uneven(random, 99_999) + 1;
    }
    let most = if alike { 1 } else { MOST as u64 };
    for figure in one.figures.iter_mut().flatten() {
        *figure = uneven(random, most);
    }
    one.marks = (0..6).map(|_| random.percent(marked)).collect();
    one
}

fn random_book(random: &mut Random) -> Book {
    let mut book = Book::fresh();
    let alike = random.one_in(4);
    let marked = random.pick(&[0, 25, 50, 75]);
    let joined: Vec<usize> = (0..16).filter(|_| !random.one_in(3)).collect();
    for k in joined {
        book.operators[k] = random_operator(random, alike, marked);
    }
    book.pot_rate = uneven(random, 20_000);
    book.cap_rate = uneven(random, 20_000);
    book.indices = (0..4).map(|_| uneven(random, 99_999) + 1).collect();
    book
}

/// How many books show what.
#[derive(Debug, Default)]
struct Counts {
    settled: u32,
    moved: u32,
    moved_and_cut: u32,
}

impl Counts {
    fn count(&mut self, book: &Book) {
        let (answer, settlement) = settle(book);
        if answer != Answer::Yes {
            assert!(answer == Answer::Refused(10) || answer == Answer::Refused(12));
            assert_eq!(settlement, Settlement::zero());
            return;
        }
        check_sums(book, &settlement);
        let money = &settlement.money;
        let moved = money.adjustments.iter().any(|&adjustment| adjustment != 0);
        let is_cut = |k: usize| money.returns[k].abs_diff(money.contributions[k]) > money.limits[k];
        self.settled += 1;
        self.moved += u32::from(moved);
        self.moved_and_cut += u32::from(moved && (0..16).any(is_cut));
    }
}

#[test]
fn sums_of_many_books() {
    let mut counts = Counts::default();
    for number in 0..3000 {
        counts.count(&random_book(&mut Random::new(2017, number)));
    }
    assert!(counts.settled > 2500, "{counts:?}");
    assert!(counts.moved > 1000, "{counts:?}");
    assert!(counts.moved_and_cut > 500, "{counts:?}");
}

/// Other counts settle in the same way.
fn settles_alike_with_other_counts(random: &mut Random) {
    let book = random_book(random);
    let mut other = book.clone();
    for operator in other.operators.iter_mut().filter(|one| one.joined) {
        for count in operator.figures.iter_mut().flat_map(|year| &mut year[8..]) {
            *count = uneven(random, MOST as u64);
        }
    }
    assert_eq!(settle(&other), settle(&book));
}

#[test]
fn the_settlement_does_not_depend_on_the_counts() {
    for number in 0..1000 {
        settles_alike_with_other_counts(&mut Random::new(8, number));
    }
}

#[test]
fn left_out_interruptions_leave_the_settlement() {
    let mut book = case_m();
    let of_m = settled(&book);
    for call in [
        "interruption 0 0 0 1 0 1000000 100000",
        "interruption 0 0 0 2 0 1000000 100000",
        "interruption 1 0 1 3 0 1000000 1",
        "interruption 1 0 0 0 0 180 100000",
    ] {
        let answer = script::answer(&mut book, call).unwrap();
        assert!(answer.starts_with("left out"), "{call}");
    }
    assert_ne!(book, case_m());
    assert_eq!(settled(&book), of_m);
}
