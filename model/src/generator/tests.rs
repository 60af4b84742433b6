//! The generated filings show what they are made for.

mod asked;
mod cabins;
mod counts;
mod fees;
mod gas;
mod marks;
mod ties;
mod times;

use super::draft::MOST;
use super::*;
use crate::book::Book;
use crate::calls::{Answer, Interruption, Reason, YEAR_SECONDS};
use crate::filing::{after_field, apply, encode, field_at, read, Field};
use crate::indicators::{better, indicators, unmarked, value_sums, Kind as IndicatorKind};
use crate::money::{cut, Money};
use crate::program::printed_in;
use crate::settlement::{settle, Settlement};
use std::collections::{BTreeMap, BTreeSet};

/// How often something is shown.
type Counts = BTreeMap<String, u32>;

/// How often each of these occurs.
fn counted(shown: impl Iterator<Item = String>) -> Counts {
    let mut counts = Counts::new();
    for what in shown {
        *counts.entry(what).or_default() += 1;
    }
    counts
}

/// Each of these is shown at least so often.
fn are_shown(counts: &Counts, expected: &[(&str, u32)]) {
    let rare: Vec<_> = expected
        .iter()
        .filter(|(what, least)| counts.get(*what).is_none_or(|count| count < least))
        .collect();
    assert!(rare.is_empty(), "{rare:?} in {counts:#?}");
}

/// The book of a filing, if it is read whole.
fn book_of(sector: Sector, filing: &[u8]) -> Option<Book> {
    let mut book = Book::fresh_in(sector);
    let reading = read(&mut book, filing);
    reading.refusal.is_none().then_some(book)
}

/// The book of a filing for which a settlement is printed.
fn settled_book(sector: Sector, filing: &[u8]) -> Option<Book> {
    let settles = outcome(sector, filing).starts_with("operator ");
    book_of(sector, filing).filter(|_| settles)
}

/// The fields of a filing that is read whole.
fn fields_of(sector: Sector, filing: &[u8]) -> Vec<Field> {
    let mut fields = Vec::new();
    let mut offset = 0;
    while offset < filing.len() {
        fields.push(field_at(sector, filing, offset).unwrap());
        offset = after_field(filing, offset);
    }
    fields
}

/// The text once for each number, which stands for `#`.
fn numbered(text: &str, numbers: impl IntoIterator<Item = u32>) -> Vec<String> {
    numbers
        .into_iter()
        .map(|number| text.replace('#', &number.to_string()))
        .collect()
}

/// What the field files the fresh value of, other than a figure or a mark.
fn files_fresh(field: &Field) -> Option<String> {
    match *field {
        Field::Setting {
            which, value: 0, ..
        } => Some(format!("setting {which}")),
        Field::Index {
            number,
            value: 10_000,
        } => Some(format!("index {number}")),
        Field::Rates { pot: 0, cap: 0 } => Some("rates".to_string()),
        _ => None,
    }
}

/// The indicator of a mark, and what the book has at its place.
fn mark_in(book: &Book, field: &Field) -> Option<(u8, bool)> {
    let Field::Mark {
        operator,
        indicator,
        ..
    } = *field
    else {
        return None;
    };
    let marks = &book.operators.get(usize::from(operator))?.marks;
    let marked = *marks.get(usize::from(indicator))?;
    Some((indicator, marked))
}

#[test]
fn a_filing_depends_on_seed_and_number_only() {
    let rising: Vec<Vec<u8>> = (0..200).map(|number| filing(5, number)).collect();
    let mut falling: Vec<Vec<u8>> = (0..200).rev().map(|number| filing(5, number)).collect();
    falling.reverse();
    assert_eq!(falling, rising);
    let same = (0..200)
        .filter(|&number| filing(6, number) == rising[number as usize])
        .count();
    assert!(same < 5, "{same}");
    assert_eq!(filing(5, u64::MAX), filing(5, u64::MAX));
}

/// The first words printed by the program of a sector, without the offset.
fn outcome(sector: Sector, filing: &[u8]) -> String {
    let output = String::from_utf8(printed_in(sector, Some(filing))).unwrap();
    let first = output.lines().next().unwrap();
    match first.split_once(" at ") {
        Some((refused, _)) => format!("{refused} at"),
        None => first.to_string(),
    }
}

/// All outcomes occur among the filings of a sector, and so many of them settle.
fn has_all_outcomes(sector: Sector, seed: u64, least_settled: u32) {
    let mut counts: BTreeMap<String, u32> = BTreeMap::new();
    for number in 0..3000 {
        let outcome = outcome(sector, &filing_in(sector, seed, number));
        *counts.entry(outcome).or_default() += 1;
    }
    // Gas has no interruptions, whose times these are.
    let by_times = if sector.has_interruptions() {
        numbered("refused # at", 14..=15)
    } else {
        Vec::new()
    };
    let refusals = [
        numbered("refused # at", 1..=9),
        by_times,
        numbered("refused #", 10..=12),
    ]
    .concat();
    let often = |refusal: &String| counts.get(refusal).is_some_and(|&count| count >= 10);
    assert!(refusals.iter().all(often), "{counts:?}");
    assert!(counts.contains_key("too long"), "{counts:?}");
    let settled = counts["operator points out in adjustment"];
    assert!(settled >= least_settled, "{counts:?}");
    // Besides these: too long, and settled.
    assert_eq!(counts.len(), refusals.len() + 2, "{counts:?}");
}

#[test]
fn all_outcomes_occur() {
    for seed in [1, 2017] {
        has_all_outcomes(Sector::Electricity, seed, 1850);
        has_all_outcomes(Sector::Gas, seed, 1650);
    }
}

#[test]
fn long_filings_have_their_lengths() {
    let numbers = (0..8).map(|turn| turn * 500 + 499);
    assert!(numbers.clone().all(|number| kind(number) == Kind::Long));
    let filings: Vec<Vec<u8>> = numbers.map(|number| filing(1, number)).collect();
    let lengths: Vec<usize> = filings.iter().map(Vec::len).collect();
    assert_eq!(lengths, LONG_LENGTHS);
    let too_long: Vec<bool> = filings
        .iter()
        .map(|filing| outcome(Sector::Electricity, filing) == "too long")
        .collect();
    let past: Vec<bool> = lengths.iter().map(|&length| length > 65_536).collect();
    assert_eq!(too_long, past);
    assert!(past.contains(&true) && lengths.contains(&65_536));
}

/// A long filing is either sound, or has one or two stray bytes at its end.
fn is_sound_but_for_its_end(filing: &[u8]) -> bool {
    let reading = read(&mut Book::fresh(), filing);
    match reading.refusal {
        None => true,
        Some(number) => {
            assert_eq!((number, reading.offset > 65_533), (1, true));
            false
        }
    }
}

#[test]
fn most_long_filings_are_sound() {
    let filings: Vec<Vec<u8>> = (0..20).map(|seed| filing(seed, 499)).collect();
    assert!(filings.iter().all(|filing| filing.len() == 65_536));
    let sound = filings
        .iter()
        .filter(|filing| is_sound_but_for_its_end(filing))
        .count();
    assert!((5..20).contains(&sound), "{sound}");
}

#[test]
fn kinds_by_turns() {
    for turn in [
        Kind::Small,
        Kind::Wide,
        Kind::Digits,
        Kind::Ends,
        Kind::Ties,
        Kind::Sizes,
        Kind::Mean,
        Kind::Interruptions,
        Kind::Withdrawals,
        Kind::LeftOut,
        Kind::Marked,
        Kind::NearlyAllMarked,
        Kind::Incomplete,
        Kind::WithoutSize,
        Kind::Damaged,
        Kind::Refused,
        Kind::RefusedByCount,
        Kind::RefusedSetting,
        Kind::Times,
        Kind::Long,
    ] {
        assert!((0..500).any(|number| kind(number) == turn), "{turn:?}");
    }
}

#[test]
fn sound_kinds_are_read_whole() {
    let is_sound = |&number: &u64| {
        !matches!(
            kind(number),
            Kind::Damaged
                | Kind::Refused
                | Kind::RefusedByCount
                | Kind::RefusedSetting
                | Kind::Times
                | Kind::Long
        )
    };
    let refusal = |number: u64| read(&mut Book::fresh(), &filing(3, number)).refusal;
    for number in (0..500).filter(is_sound) {
        assert_eq!(refusal(number), None, "{number}");
    }
}

/// What the filings of a sector and their books show.
struct Notes {
    sector: Sector,
    seen: BTreeSet<String>,
}

impl Notes {
    /// Those of the first filings.
    fn of(sector: Sector) -> Notes {
        let seen = BTreeSet::new();
        let mut notes = Notes { sector, seen };
        for number in 0..2000 {
            notes.filing(&filing_in(sector, 1, number));
        }
        notes
    }

    /// All of this is shown.
    fn show(&self, expected: Vec<String>) {
        let expected: BTreeSet<String> = expected.into_iter().collect();
        let missing: Vec<&String> = expected.difference(&self.seen).collect();
        assert!(
            missing.is_empty(),
            "{missing:?} are not in {:#?}",
            self.seen
        );
    }

    fn note(&mut self, what: impl Into<String>) {
        self.seen.insert(what.into());
    }

    fn note_if(&mut self, shown: bool, what: impl Into<String>) {
        if shown {
            self.note(what);
        }
    }

    fn filing(&mut self, filing: &[u8]) {
        let book = self.fields(filing);
        self.book(&book);
        let (answer, settlement) = settle(&book);
        if answer == Answer::Yes {
            self.settlement(&book, &settlement);
        }
    }

    /// Notes the fields up to the first refusal; answers the book they make.
    fn fields(&mut self, filing: &[u8]) -> Book {
        let mut book = Book::fresh_in(self.sector);
        let mut next = Some(0);
        while let Some(offset) = next {
            next = self.field_at(&mut book, filing, offset);
        }
        book
    }

    /// Notes the field at the offset; answers the offset after it if it is taken.
    fn field_at(&mut self, book: &mut Book, filing: &[u8], offset: usize) -> Option<usize> {
        let field = field_at(self.sector, filing, offset).ok()?;
        let before = files_fresh(&field).map(|what| (what, book.clone()));
        let was_marked = mark_in(book, &field);
        let answer = apply(book, &field);
        self.answer(&field, answer);
        if answer == Answer::Yes {
            self.mark(was_marked, mark_in(book, &field));
        }
        if let Some((what, before)) = before {
            self.note_if(before != *book, format!("{what} fresh again"));
        }
        self.figure_at_0(book, &field, answer);
        match answer {
            Answer::Refused(_) => None,
            _ => Some(offset + encode(&field).len()),
        }
    }

    fn answer(&mut self, field: &Field, answer: Answer) {
        let tag = encode(field)[0];
        match (answer, field) {
            (Answer::Refused(number), _) => self.note(format!("tag {tag} refused {number}")),
            (Answer::Counted { year }, Field::Interruption(filed)) => self.counted(year, filed),
            (Answer::LeftOut(reason), Field::Interruption(filed)) => self.left_out(reason, filed),
            _ => self.note(format!("tag {tag} taken")),
        }
        let withdrawn = matches!(
            field,
            Field::Amount {
                sign: 1,
                value: 1..,
                ..
            }
        );
        self.note_if(withdrawn && answer == Answer::Yes, "amount withdrawn");
    }

    /// Notes what a mark was before it was filed, and is after that.
    fn mark(&mut self, before: Option<(u8, bool)>, after: Option<(u8, bool)>) {
        if let (Some((indicator, before)), Some((_, after))) = (before, after) {
            let [before, after] = [before, after].map(u8::from);
            self.note(format!("mark {indicator} from {before} to {after}"));
        }
    }

    /// Notes an amount that takes away all of its figure.
    fn figure_at_0(&mut self, book: &Book, field: &Field, answer: Answer) {
        let Field::Amount {
            operator,
            year,
            figure,
            sign: 1,
            value: 1..,
        } = *field
        else {
            return;
        };
        if answer == Answer::Yes {
            let figures = &book.operators[usize::from(operator)].figures;
            let left = figures[usize::from(year)][usize::from(figure)];
            self.note_if(left == 0, format!("figure {figure} fresh again"));
        }
    }

    fn counted(&mut self, year: usize, filed: &Interruption) {
        let Interruption {
            level, sign, cause, ..
        } = filed;
        self.note(format!(
            "counted year {year} level {level} sign {sign} cause {cause}"
        ));
        let seconds = filed.end - filed.start;
        self.note_if(seconds == 181, "counted at 181 seconds");
        let begun = filed.start.div_euclid(YEAR_SECONDS);
        let ended = filed.end / YEAR_SECONDS;
        self.note_if(begun != ended, "counted over a year's end");
    }

    fn left_out(&mut self, reason: Reason, filed: &Interruption) {
        let Interruption { level, sign, .. } = filed;
        let year = filed.end / YEAR_SECONDS;
        self.note(format!(
            "left out {reason:?} year {year} level {level} sign {sign}"
        ));
        let longest = reason == Reason::Short && filed.end - filed.start == 180;
        self.note_if(longest, "left out at 180 seconds");
    }

    fn book(&mut self, book: &Book) {
        self.note(format!("operators {}", book.joined_mask().count_ones()));
        let figures = || book.operators.iter().flat_map(|operator| &operator.figures);
        let at_most = figures().any(|year| year.contains(&u128::from(MOST)));
        self.note_if(at_most, "figure at its most");
        self.note_if(book.indices.contains(&1), "index 1");
        self.note_if(book.indices.contains(&100_000), "index 100000");
        let rates = [book.pot_rate, book.cap_rate];
        self.note_if(rates.contains(&0), "rate 0");
        self.note_if(rates.contains(&20_000), "rate 20000");
        let [pot, cap] = rates.map(|rate| rate != 0);
        self.note_if(pot && !cap, "only the pot rate");
        self.note_if(cap && !pot, "only the cap rate");
    }

    fn settlement(&mut self, book: &Book, settlement: &Settlement) {
        self.money(&settlement.money);
        for number in book.sector.indicators() {
            self.indicator(book, settlement, number);
        }
    }

    fn money(&mut self, money: &Money) {
        let sides = money.returns.iter().zip(&money.contributions);
        let differences: Vec<i128> = sides
            .map(|(&back, &out)| back as i128 - out as i128)
            .collect();
        let limited = differences.iter().zip(&money.limits);
        let cuts: Vec<i128> = limited
            .map(|(&difference, &limit)| cut(difference, limit))
            .collect();
        let any_cut = cuts != differences;
        let surplus: i128 = cuts.iter().sum();
        let moved = money.adjustments.iter().any(|&adjustment| adjustment != 0);
        self.note_if(moved, "money moved");
        self.note_if(moved && any_cut, "money moved and cut");
        self.note_if(moved && surplus > 0, "bonuses larger");
        self.note_if(moved && surplus < 0, "maluses larger");
        self.note_if(moved && any_cut && surplus == 0, "cut to equal sides");
    }

    fn indicator(&mut self, book: &Book, settlement: &Settlement, number: usize) {
        let unmarked = unmarked(book, number);
        if unmarked.is_empty() {
            self.note(format!("all marked at {number}"));
            return;
        }
        let indicator = &indicators()[number];
        let sums = value_sums(book, indicator, &unmarked);
        let total: u128 = sums.iter().sum();
        let at_mean = sums.iter().any(|sum| sums.len() as u128 * sum == total);
        let some_better = better(&sums).contains(&true);
        let levelled = indicator.kind == IndicatorKind::Interruptions && some_better;
        self.note_if(levelled && at_mean, "a sum at the mean");
        let wide = sums.iter().any(|sum| 1000 * sum > u128::from(u64::MAX));
        self.note_if(wide, format!("sums past 64 bits at {number}"));
        // Equal values, more of them than units left over.
        let points = |place: usize| settlement.points.points[unmarked[place]][number];
        let one_apart = |place: usize| points(place).abs_diff(points(place - 1)) == 1;
        let tie = (1..sums.len()).any(|place| sums[place] == sums[place - 1] && one_apart(place));
        self.note_if(tie, format!("tie at {number}"));
    }
}

/// Interruptions counted in every year, of both levels, signs and causes.
fn expected_counts() -> Vec<String> {
    let mut texts = vec!["counted year YEAR level LEVEL sign SIGN cause CAUSE".to_string()];
    for (place, values) in [
        ("YEAR", &["0", "1", "2"][..]),
        ("LEVEL", &["0", "1"]),
        ("SIGN", &["0", "1"]),
        ("CAUSE", &["0", "4"]),
    ] {
        texts = replaced_by_each(&texts, place, values);
    }
    texts
}

/// Interruptions left out for every reason, in every year, of both levels and signs.
fn expected_left_out() -> Vec<String> {
    let mut texts = vec!["left out REASON year YEAR level LEVEL sign SIGN".to_string()];
    for (place, values) in [
        (
            "REASON",
            &["Short", "Planned", "Coupled", "Exceptional"][..],
        ),
        ("YEAR", &["0", "1", "2"]),
        ("LEVEL", &["0", "1"]),
        ("SIGN", &["0", "1"]),
    ] {
        texts = replaced_by_each(&texts, place, values);
    }
    texts
}

/// Each text once for each value in that place.
fn replaced_by_each(texts: &[String], place: &str, values: &[&str]) -> Vec<String> {
    texts
        .iter()
        .flat_map(|text| values.iter().map(|value| text.replace(place, value)))
        .collect()
}

fn expected_numbers() -> Vec<String> {
    [
        numbered("operators #", 0..=16),
        numbered("tag # taken", [1, 2, 4, 5, 6, 7]),
        numbered("tag # refused 4", 1..=5),
        numbered("tag # refused 5", 2..=7),
        numbered("tag # refused 6", [1]),
        numbered("tag # refused 7", 2..=5),
        numbered("tag # refused 8", [3, 4]),
        numbered("tag # refused 9", [3, 4]),
        numbered("tag # refused 14", [3]),
        numbered("tag # refused 15", [3]),
        numbered("all marked at #", 0..=5),
        numbered("tie at #", 0..=5),
        numbered("sums past 64 bits at #", [0, 2, 4, 5]),
        numbered("index #", [1, 100_000]),
        numbered("rate #", [0, 20_000]),
        numbered("setting # fresh again", 0..=4),
        numbered("figure # fresh again", 0..=12),
        numbered("mark # from 1 to 0", 0..=5),
        numbered("mark # from 0 to 1", 0..=5),
        numbered("mark # from 0 to 0", 0..=5),
        numbered("mark # from 1 to 1", 0..=5),
        numbered("index # fresh again", 0..=3),
    ]
    .concat()
}

const EXPECTED_TEXTS: [&str; 14] = [
    "left out at 180 seconds",
    "counted at 181 seconds",
    "counted over a year's end",
    "amount withdrawn",
    "figure at its most",
    "money moved",
    "money moved and cut",
    "bonuses larger",
    "maluses larger",
    "cut to equal sides",
    "a sum at the mean",
    "rates fresh again",
    "only the pot rate",
    "only the cap rate",
];

#[test]
fn filings_show_every_case() {
    let texts = EXPECTED_TEXTS.map(String::from).to_vec();
    let expected = [
        expected_counts(),
        expected_left_out(),
        expected_numbers(),
        texts,
    ];
    Notes::of(Sector::Electricity).show(expected.concat());
    assert_eq!(expected_counts().len(), 24);
    assert_eq!(expected_left_out().len(), 48);
}
