//! The fees of years without connections, and seconds without weight: the generated
//! filings have them, and mistakes about them would show in what is printed.

use super::{are_shown, counted, fields_of, settled_book};
use crate::book::{Book, FRESH_INDEX, OPERATORS, YEARS};
use crate::filing::Field;
use crate::generator::filing_in;
use crate::indicators::{indicators, points, unmarked, Points};
use crate::money::money;
use crate::report::lines;
use crate::sector::Sector;
use crate::settlement::{settle, Settlement};
use std::collections::BTreeSet;

/// An indicator that divides one figure by another.
struct Ratio {
    name: &'static str,
    indicator: usize,
    figure: usize,
    divisor: usize,
}

const A2: Ratio = ratio("A2", 1, 1, 0);
const A4: Ratio = ratio("A4", 3, 3, 2);
const D1: Ratio = ratio("D1", 4, 4, 5);
const D2: Ratio = ratio("D2", 5, 6, 7);

const fn ratio(name: &'static str, indicator: usize, figure: usize, divisor: usize) -> Ratio {
    Ratio {
        name,
        indicator,
        figure,
        divisor,
    }
}

// Mistakes.

/// What is divided and by what, in one year.
type Pair = (u128, u128);

/// Another rule than the right one, at some indicators.
struct Mistake {
    name: &'static str,
    at: &'static [Ratio],
    /// From the figures of a year and its index: those for which the right rule
    /// gives the mistaken value.
    figures: fn(Pair, u128) -> Pair,
}

const MISTAKES: [Mistake; 5] = [
    Mistake {
        name: "a count of 0 gives 0",
        at: &[D1, D2],
        figures: zero_gives_0,
    },
    Mistake {
        name: "a count of 0 loses the index",
        at: &[D1, D2],
        figures: zero_loses_the_index,
    },
    Mistake {
        name: "at A2 and A4 too",
        at: &[A2, A4],
        figures: |(seconds, weight), _| (seconds, weight.max(1)),
    },
    Mistake {
        name: "at D1 only",
        at: &[D2],
        figures: zero_gives_0,
    },
    Mistake {
        name: "every count is one more",
        at: &[D1, D2],
        figures: |(fees, count), _| (fees, count + 1),
    },
];

fn zero_gives_0((fees, count): Pair, _: u128) -> Pair {
    if count == 0 {
        (0, 0)
    } else {
        (fees, count)
    }
}

/// The fees are multiplied by the index that they are divided by.
fn zero_loses_the_index((fees, count): Pair, index: u128) -> Pair {
    if count == 0 {
        (fees * index, 0)
    } else {
        (fees, count)
    }
}

/// The book with the figures of the mistake.
fn altered(book: &Book, mistake: &Mistake) -> Book {
    let mut other = book.clone();
    let years = other
        .operators
        .iter_mut()
        .flat_map(|operator| operator.figures.iter_mut().zip(&book.indices));
    for (figures, &index) in years {
        for ratio in mistake.at {
            let pair = (figures[ratio.figure], figures[ratio.divisor]);
            let (figure, divisor) = (mistake.figures)(pair, index);
            figures[ratio.figure] = figure;
            figures[ratio.divisor] = divisor;
        }
    }
    other
}

/// The points of a book by the mistake: those of the altered book at its indicators
/// alone, because A1 and A3 read the weights as well.
fn mistaken_points(book: &Book, mistake: &Mistake) -> Points {
    let mut answer = points(book, &indicators());
    let mistaken = points(&altered(book, mistake), &indicators());
    let places = (0..OPERATORS).flat_map(|k| mistake.at.iter().map(move |at| (k, at.indicator)));
    for (k, number) in places {
        answer.points[k][number] = mistaken.points[k][number];
    }
    answer
}

/// What is printed for a book with these points.
fn printed(book: &Book, points: Points) -> String {
    let totals = points.totals();
    let money = money(&book.operators, &totals, book.pot_rate, book.cap_rate);
    lines(book, &Settlement { points, money })
}

/// The mistakes that would show in what is printed for a book that settles.
fn mistakes_shown(book: &Book) -> Vec<String> {
    let right = lines(book, &settle(book).1);
    MISTAKES
        .iter()
        .filter(|mistake| printed(book, mistaken_points(book, mistake)) != right)
        .map(|mistake| mistake.name.to_string())
        .collect()
}

// Figures.

/// Where an operator without a mark has something to divide, and 0 to divide it by:
/// operator and year.
fn places_over_0(book: &Book, ratio: &Ratio) -> Vec<(usize, usize)> {
    let is_so = |&(k, year): &(usize, usize)| {
        let figures = &book.operators[k].figures[year];
        figures[ratio.figure] > 0 && figures[ratio.divisor] == 0
    };
    let operators = unmarked(book, ratio.indicator).into_iter();
    operators
        .flat_map(|k| (0..YEARS).map(move |year| (k, year)))
        .filter(is_so)
        .collect()
}

/// Whether the fields file something at that operator, year and figure.
fn is_filed(fields: &[Field], wanted: [usize; 3]) -> bool {
    let place_of = |field: &Field| match *field {
        Field::Amount {
            operator,
            year,
            figure,
            sign: 0,
            value: 1..,
        } => Some([operator, year, figure].map(usize::from)),
        _ => None,
    };
    fields
        .iter()
        .filter_map(place_of)
        .any(|place| place == wanted)
}

/// What the figures of one indicator show.
fn figures_shown(book: &Book, fields: &[Field], ratio: &Ratio) -> BTreeSet<String> {
    let Ratio { name, divisor, .. } = ratio;
    let mut shown = BTreeSet::new();
    for (k, year) in places_over_0(book, ratio) {
        shown.insert(format!("{name} over 0"));
        if book.indices[year] != FRESH_INDEX {
            shown.insert(format!("{name} over 0 with an index"));
        }
        if is_filed(fields, [k, year, *divisor]) {
            shown.insert(format!("{name} over 0 by a withdrawal"));
        }
    }
    shown
}

/// What a filing shows that settles.
fn settled_shown(sector: Sector, filing: &[u8]) -> Vec<String> {
    let Some(book) = settled_book(sector, filing) else {
        return Vec::new();
    };
    let fields = fields_of(sector, filing);
    [A2, A4, D1, D2]
        .iter()
        .flat_map(|ratio| figures_shown(&book, &fields, ratio))
        .chain(mistakes_shown(&book))
        .collect()
}

/// The first 2200 filings of a sector show each of these at least so often.
fn show(sector: Sector, expected: &[(&str, u32)]) {
    for seed in [1, 2017] {
        let filings = (0..2200).map(|number| filing_in(sector, seed, number));
        let counts = counted(filings.flat_map(|filing| settled_shown(sector, &filing)));
        are_shown(&counts, expected);
    }
}

#[test]
fn fees_without_connections_occur_in_electricity_and_mistakes_show() {
    let expected = [
        ("A2 over 0", 640),
        ("A4 over 0", 700),
        ("D1 over 0", 850),
        ("D2 over 0", 850),
        ("D1 over 0 with an index", 400),
        ("D2 over 0 with an index", 400),
        ("D1 over 0 by a withdrawal", 170),
        ("D2 over 0 by a withdrawal", 170),
        ("a count of 0 gives 0", 800),
        ("a count of 0 loses the index", 600),
        ("at A2 and A4 too", 700),
        ("at D1 only", 720),
        ("every count is one more", 450),
    ];
    show(Sector::Electricity, &expected);
}

#[test]
fn fees_without_connections_occur_in_gas_and_mistakes_show() {
    let expected = [
        ("D1 over 0", 780),
        ("D2 over 0", 780),
        ("D1 over 0 with an index", 350),
        ("D2 over 0 with an index", 350),
        ("D1 over 0 by a withdrawal", 160),
        ("D2 over 0 by a withdrawal", 160),
        ("a count of 0 gives 0", 740),
        ("a count of 0 loses the index", 570),
        ("at D1 only", 640),
        ("every count is one more", 500),
    ];
    show(Sector::Gas, &expected);
}
