//! Gas books settled, and the option `--gas` of the program: points at D1 and D2
//! alone, refusals 10, 11 and 12, the example, and filings of the other sector.

#[path = "common/command.rs"]
mod command;
#[path = "common/folder.rs"]
mod folder;

use command::run;
use folder::folder;
use model::book::{Book, Operator};
use model::calls::{self, Answer};
use model::random::Random;
use model::report::lines;
use model::script;
use model::sector::Sector;
use model::settlement::{settle, Settlement};
use std::fs;

const MOST: u64 = 100_000_000_000;

/// Operators 0 and 1, whose access points and incomes are those of case M, and the
/// late fees of operator 1; all their attestations are in.
const CALLS: &str = "join 0\njoin 1\nsetting 0 1 1000\nsetting 1 1 3000\n\
    setting 0 2 100000000\nsetting 1 2 200000000\n\
    amount 1 0 4 0 50000\namount 1 0 5 0 100\n\
    mark 0 4 0\nmark 0 5 0\nmark 1 4 0\nmark 1 5 0\nrates 5000 10000\n";
/// What is printed for them.
const PRINTED: &str = "operator points out in adjustment\n\
    0 5036 375000 607821 232821\n\
    1 2464 1125000 892179 -232821\n\
    all 7500 1500000 1500000 0\n";

// Settled books.

/// A joined gas operator without fees, both marks cleared.
fn operator(access_points: u128, income: u128) -> Operator {
    Operator {
        joined: true,
        access_points,
        income,
        ..Operator::fresh()
    }
}

/// A gas book with these operators, from 0 on.
fn book<const COUNT: usize>(operators: [Operator; COUNT]) -> Book {
    let mut book = Book::fresh_in(Sector::Gas);
    book.operators.splice(..COUNT, operators);
    book
}

fn settled(book: &Book) -> Settlement {
    let (answer, settlement) = settle(book);
    assert_eq!(answer, Answer::Yes);
    settlement
}

fn refuses(book: &Book, number: u8) {
    let refused = (Answer::Refused(number), Settlement::zero());
    assert_eq!(settle(book), refused);
}

#[test]
fn points_at_d1_and_d2_by_hand() {
    // D1: s is 0 and 10 × 50000 / 100 = 5000; weights 1000000 and 400000.
    let mut late = operator(3000, 200_000_000);
    late.figures[0][4] = 50_000;
    late.figures[0][5] = 100;
    let mut book = book([operator(1000, 100_000_000), late]);
    book.pot_rate = 5000;
    book.cap_rate = 10_000;
    let settlement = settled(&book);
    // Follows 02, point 4: "25 points a year", of which D1 has 20.
    assert_eq!(settlement.points.pools, [0, 0, 0, 0, 6000, 1500]);
    let points = &settlement.points.points;
    assert_eq!(points[0], [0, 0, 0, 0, 4286, 750]);
    assert_eq!(points[1], [0, 0, 0, 0, 1714, 750]);
    // Returns by 1000 × 5036 and 3000 × 2464: 1500000 × 5036000 / 12428000 is
    // 607821.05, and 892178.95 is left.
    let money = &settlement.money;
    assert_eq!(money.pot, 1_500_000);
    assert_eq!(money.contributions[..2], [375_000, 1_125_000]);
    assert_eq!(money.returns[..2], [607_821, 892_179]);
    assert_eq!(money.adjustments[..2], [232_821, -232_821]);
    assert_eq!(money.limits[..2], [1_000_000, 2_000_000]);
}

/// What is printed for `CALLS` and these calls.
fn printed_after(calls: &[&str]) -> String {
    let mut book = Book::fresh_in(Sector::Gas);
    for call in CALLS.lines().chain(calls.iter().copied()) {
        assert_eq!(script::answer(&mut book, call), Ok("yes".to_string()));
    }
    lines(&book, &settled(&book))
}

#[test]
fn fees_of_a_year_without_connections_by_hand() {
    // D1: s is 10 × 250 / 1 = 2500 and 5000; the weights are 700000 and 400000.
    // 6000 × 7 / 11 = 3818.18, and 750 at D2. Returns by 1000 × 4568 and 3000 × 2932:
    // 1500000 × 4568 / 13364 is 512720.74.
    let printed = printed_after(&["amount 0 1 4 0 250"]);
    let expected = "operator points out in adjustment\n\
        0 4568 375000 512721 137721\n\
        1 2932 1125000 987279 -137721\n\
        all 7500 1500000 1500000 0\n";
    assert_eq!(printed, expected);
    // Counted as 0 the year would change nothing.
    assert_eq!(printed_after(&[]), PRINTED);
    assert_ne!(printed, PRINTED);
}

#[test]
fn the_index_of_a_year_without_connections_by_hand() {
    // D1: s is 10 × 250 × 10000 / (1 × 20000) = 1250 and 5000; the weights are 850000
    // and 400000. 6000 × 85 / 125 = 4080, and 750 at D2. Returns by 1000 × 4830 and
    // 3000 × 2670: 1500000 × 4830 / 12840 is 564252.34.
    let expected = "operator points out in adjustment\n\
        0 4830 375000 564252 189252\n\
        1 2670 1125000 935748 -189252\n\
        all 7500 1500000 1500000 0\n";
    let printed = printed_after(&["amount 0 1 4 0 250", "index 1 20000"]);
    assert_eq!(printed, expected);
    // Counted as 0 the year would change nothing; with an index of 10000 it gives
    // 137721, as above.
    assert_ne!(printed, PRINTED);
    assert_ne!(printed, printed_after(&["amount 0 1 4 0 250"]));
}

#[test]
fn fees_of_a_year_without_reconnections_by_hand() {
    // D2: s is 10 × 300 / 1 = 3000 and 0; the weights are 400000 and 1000000.
    // 1500 × 4 / 14 = 428.57, and 4286 at D1. Returns by 1000 × 4715 and 3000 × 2785:
    // 1500000 × 4715 / 13070 is 541124.71.
    let printed = printed_after(&["amount 0 2 6 0 300"]);
    let expected = "operator points out in adjustment\n\
        0 4715 375000 541125 166125\n\
        1 2785 1125000 958875 -166125\n\
        all 7500 1500000 1500000 0\n";
    assert_eq!(printed, expected);
    assert_ne!(printed, PRINTED);
}

#[test]
fn refusal_10() {
    refuses(&Book::fresh_in(Sector::Gas), 10);
}

#[test]
fn refusal_11_looks_at_access_points_alone() {
    // No cabins, no income.
    settled(&book([operator(1, 0), operator(1, 0)]));
    refuses(&book([operator(0, 1), operator(1, 1)]), 11);
    refuses(&book([operator(1, 1), operator(0, 1)]), 11);
    // Of marked operators too, and before 12.
    let mut marked = operator(0, 1);
    marked.marks = Sector::Gas.marks_of_a_join();
    refuses(&book([operator(1, 1), marked.clone()]), 11);
    refuses(&book([marked]), 11);
    let mut book = Book::fresh_in(Sector::Gas);
    assert_eq!(calls::join(&mut book, 0), Answer::Yes);
    refuses(&book, 11);
}

#[test]
fn refusal_12_looks_at_the_two_gas_indicators() {
    let mut book = Book::fresh_in(Sector::Gas);
    for k in [4, 9] {
        assert_eq!(calls::join(&mut book, k), Answer::Yes);
        assert_eq!(calls::setting(&mut book, k, 1, 10), Answer::Yes);
    }
    refuses(&book, 12);
    for (k, indicator) in [4, 9].into_iter().flat_map(|k| [(k, 4), (k, 5)]) {
        assert_eq!(calls::mark(&mut book, k, indicator, 0), Answer::Yes);
        let points = settled(&book).points;
        let mut pools = vec![0; 6];
        pools[usize::from(indicator)] = [3000, 750][usize::from(indicator) - 4];
        assert_eq!(points.pools, pools);
        assert_eq!(points.points[usize::from(k)], pools);
        assert_eq!(calls::mark(&mut book, k, indicator, 1), Answer::Yes);
        refuses(&book, 12);
    }
}

#[test]
fn refusal_5_comes_first() {
    let sound = book([operator(1, 1)]);
    settled(&sound);
    let alterations: [fn(&mut Operator); 5] = [
        |one| one.cabins[1] = 1,
        |one| one.marks[3] = true,
        |one| one.figures[2][0] = 1,
        |one| one.figures[0][8] = 1,
        |one| one.income = 100_000_000_001,
    ];
    for (alter, k) in alterations
        .into_iter()
        .flat_map(|alter| [0, 1].map(|k| (alter, k)))
    {
        let mut other = sound.clone();
        alter(&mut other.operators[k]);
        refuses(&other, 5);
        // 5 and 11.
        other.operators[0].access_points = 0;
        refuses(&other, 5);
    }
}

/// From 0 to `most`, often small or at an end.
fn uneven(random: &mut Random, most: u64) -> u128 {
    let any = random.up_to(most);
    let small = random.up_to(most.min(20));
    u128::from(random.pick(&[0, most, small, small, any, any]))
}

fn random_book(random: &mut Random) -> Book {
    let mut book = Book::fresh_in(Sector::Gas);
    for k in 0..16 {
        if random.one_in(3) {
            continue;
        }
        let mut one = operator(uneven(random, 3_999_999) + 1, uneven(random, MOST));
        for year in &mut one.figures {
            year[4..8].fill_with(|| uneven(random, MOST));
        }
        one.marks[4..].fill_with(|| random.one_in(4));
        book.operators[k] = one;
    }
    book.pot_rate = uneven(random, 20_000);
    book.cap_rate = uneven(random, 20_000);
    book.indices.fill_with(|| uneven(random, 99_999) + 1);
    book
}

/// The same book settled by electricity, with cabins, has the same points and pools
/// at D1 and D2; by gas none at the others, and the sums hold.
fn settles_as_electricity_at_d1_and_d2(book: &Book) -> bool {
    let (answer, of_gas) = settle(book);
    if answer != Answer::Yes {
        return false;
    }
    let mut lent = book.lent_to(Sector::Electricity);
    for operator in lent.operators.iter_mut().filter(|one| one.joined) {
        operator.cabins = [1; 3];
    }
    let of_electricity = settled(&lent);
    assert_eq!(of_gas.points.pools[..4], [0; 4]);
    assert_eq!(of_gas.points.pools[4..], of_electricity.points.pools[4..]);
    for k in 0..16 {
        let [gas, electricity] = [&of_gas, &of_electricity].map(|one| &one.points.points[k]);
        assert_eq!(gas[..4], [0; 4]);
        assert_eq!(gas[4..], electricity[4..]);
    }
    let [gas, electricity] = [&of_gas.money, &of_electricity.money];
    assert_eq!(gas.pot, electricity.pot);
    assert_eq!(gas.contributions, electricity.contributions);
    assert_eq!(gas.limits, electricity.limits);
    assert_eq!(gas.returns.iter().sum::<u128>(), gas.pot);
    assert_eq!(gas.adjustments.iter().sum::<i128>(), 0);
    true
}

#[test]
fn many_books() {
    let settled = (0..2000)
        .map(|number| random_book(&mut Random::new(4, number)))
        .filter(settles_as_electricity_at_d1_and_d2)
        .count();
    assert!(settled > 1900, "{settled}");
}

// The program.

/// What a run gives that prints this and does its work.
fn done(output: impl Into<Vec<u8>>) -> (i32, Vec<u8>, Vec<u8>) {
    (0, output.into(), Vec::new())
}

/// The path of a filing made of calls, in a folder of its own.
fn filed(name: &str, calls: &str) -> String {
    let (status, filing, _) = run(&["encode"], calls.as_bytes());
    assert_eq!(status, 0);
    let file = folder(name).join("filing.q");
    fs::write(&file, filing).unwrap();
    file.to_str().unwrap().to_string()
}

#[test]
fn gas_filing_is_printed_and_rewritten() {
    let file = filed("gas", CALLS);
    assert_eq!(run(&["--gas", "program", &file], b""), done(PRINTED));
    let (_, written, _) = run(&["--gas", "rewrite", &file], b"");
    // The settings by operator.
    let (_, expected, _) = run(
        &["--gas", "encode"],
        CALLS
            .replace("setting 0 2 100000000\n", "")
            .replace(
                "setting 1 1 3000",
                "setting 0 2 100000000\nsetting 1 1 3000",
            )
            .as_bytes(),
    );
    assert_eq!(written, expected);
    // Electricity reads it too: 11, for there are no cabins.
    assert_eq!(run(&["program", &file], b""), done("refused 11\n"));
    assert_eq!(run(&["rewrite", &file], b""), done(expected));
}

#[test]
fn fields_of_electricity_are_refused_by_gas() {
    for (number, call) in [
        (2, "interruption 0 0 0 0 0 181 1"),
        (5, "setting 0 0 0"),
        (5, "setting 0 3 1"),
        (5, "setting 0 4 1"),
        (5, "amount 0 0 3 0 0"),
        (5, "amount 0 0 8 0 0"),
        (5, "mark 0 3 0"),
    ] {
        let file = filed("gas_refused", &format!("join 0\n{call}\njoin 1\n"));
        let line = format!("refused {number} at 4\n");
        assert_eq!(
            run(&["--gas", "program", &file], b""),
            done(&line[..]),
            "{call}"
        );
        let told = (1, Vec::new(), line.into_bytes());
        assert_eq!(run(&["--gas", "rewrite", &file], b""), told, "{call}");
        // Electricity takes it.
        assert_eq!(run(&["program", &file], b""), done("refused 11\n"));
    }
}

#[test]
fn gas_looks_at_no_times() {
    for (number, call) in [
        (14, "interruption 0 0 0 0 5001 5000 1"),
        (15, "interruption 0 0 0 0 94607000 94608000 1"),
        (15, "interruption 0 0 0 0 -31536001 0 1"),
        (
            14,
            "interruption 0 0 0 0 9223372036854775807 -9223372036854775808 1",
        ),
    ] {
        let file = filed("gas_times", &format!("join 0\n{call}\n"));
        let by_gas = run(&["--gas", "program", &file], b"");
        assert_eq!(by_gas, done("refused 2 at 4\n"), "{call}");
        let line = format!("refused {number} at 4\n");
        assert_eq!(run(&["program", &file], b""), done(line), "{call}");
    }
}

#[test]
fn files_that_are_not_filings() {
    let missing = folder("gas_missing").join("missing.q");
    let missing = missing.to_str().unwrap();
    assert_eq!(
        run(&["--gas", "program", missing], b""),
        done("refused 10\n")
    );
    assert_eq!(run(&["--gas", "rewrite", missing], b""), done([]));
    let long = filed("gas_long", "");
    fs::write(&long, [0; 65_537]).unwrap();
    assert_eq!(run(&["--gas", "program", &long], b""), done("too long\n"));
}

#[test]
fn calls_begin_with_gas() {
    let output = "yes\nrefused 5\n\nyes\n";
    let input = b"join 0\nmark 0 0 0\nelectricity\nmark 0 0 0\n";
    assert_eq!(run(&["--gas", "calls"], input), done(output));
}

#[test]
fn the_exercise_settles_and_its_cap_cuts() {
    let example = concat!(env!("CARGO_MANIFEST_DIR"), "/../examples/gas");
    let calls = fs::read(format!("{example}/calls.txt")).unwrap();
    let file = format!("{example}/filing.q");
    assert_eq!(run(&["encode"], &calls), done(fs::read(&file).unwrap()));
    let (status, output, _) = run(&["--gas", "program", &file], b"");
    let text = String::from_utf8(output).unwrap();
    assert_eq!((status, text.lines().count()), (0, 7), "{text}");
    // In less out is the adjustment of nobody: the cap has cut.
    let kept = |line: &str| {
        let numbers: Vec<i64> = line
            .split(' ')
            .skip(2)
            .map(|word| word.parse().unwrap())
            .collect();
        numbers[1] - numbers[0] == numbers[2]
    };
    let rows: Vec<&str> = text.lines().skip(1).take(5).collect();
    assert!(!rows.iter().any(|row| kept(row)), "{text}");
}

/// A gas book in which every mark is cleared and every other value differs from the
/// fresh one.
#[test]
fn largest_gas_book() {
    let mut calls: Vec<String> = (0..16).map(|k| format!("join {k}")).collect();
    for k in 0..16 {
        calls.extend([1, 2].map(|which| format!("setting {k} {which} 1")));
        let amounts =
            (0..12).map(|place| format!("amount {k} {} {} 0 1", place / 4, 4 + place % 4));
        calls.extend(amounts);
        calls.extend([4, 5].map(|indicator| format!("mark {k} {indicator} 0")));
    }
    calls.extend((0..4).map(|number| format!("index {number} 1")));
    calls.push("rates 1 1".to_string());
    let file = filed("gas_largest", &calls.join("\n"));
    let (status, written, _) = run(&["--gas", "rewrite", &file], b"");
    assert_eq!((status, written.len()), (0, 3595));
}
