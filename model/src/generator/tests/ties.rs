//! Equal remainders in the generated filings: every mistake about who is served first
//! shows in what is printed, in each of the four sharings.

use super::{are_shown, counted, settled_book};
use crate::generator::filing_in;
use crate::report::lines;
use crate::sector::Sector;
use crate::settlement::served::{mistakes, Served, Sharing, RIGHT, SHARINGS};
use crate::settlement::settle;

/// The mistakes by name, with the least number of filings that show them in points,
/// contributions, returns and after the limit. The size is the weight of a contribution,
/// so that one mistake is none there.
type Least = [(&'static str, [u32; 4]); 6];

fn in_words(sharing: Sharing, name: &str) -> String {
    format!("{sharing:?}: {name}")
}

/// The mistakes that would show in what is printed for a filing that settles.
fn mistakes_shown(sector: Sector, filing: &[u8]) -> Vec<String> {
    let Some(book) = settled_book(sector, filing) else {
        return Vec::new();
    };
    let settlement = settle(&book).1;
    let printed = lines(&book, &settlement);
    let served = Served::new(&book);
    assert_eq!(served.settled(Sharing::Points, RIGHT), settlement);
    mistakes()
        .filter(|&(mistake, one)| lines(&book, &served.settled(one, mistake.order)) != printed)
        .map(|(mistake, one)| in_words(one, mistake.name))
        .collect()
}

/// The first 2000 filings of a sector show each mistake at least so often.
fn show(sector: Sector, least: &Least) {
    let expected: Vec<(String, u32)> = least
        .iter()
        .flat_map(|(name, counts)| {
            let each = SHARINGS.into_iter().zip(counts);
            each.map(move |(one, &count)| (in_words(one, name), count))
        })
        .filter(|&(_, count)| count > 0)
        .collect();
    assert_eq!(expected.len(), mistakes().count());
    let expected: Vec<(&str, u32)> = expected
        .iter()
        .map(|(what, count)| (what.as_str(), *count))
        .collect();
    for seed in [1, 2017] {
        let filings = (0..2000).map(|number| filing_in(sector, seed, number));
        let counts = counted(filings.flat_map(|filing| mistakes_shown(sector, &filing)));
        are_shown(&counts, &expected);
    }
}

#[test]
fn mistakes_about_ties_show_in_electricity() {
    let least = [
        ("by number alone", [490, 25, 26, 22]),
        ("fewer access points first", [540, 28, 28, 26]),
        ("the higher of equal size first", [215, 165, 37, 27]),
        ("size before remainder", [620, 515, 515, 280]),
        ("the weight as size", [490, 0, 26, 22]),
        ("the income as size", [510, 90, 29, 21]),
    ];
    show(Sector::Electricity, &least);
}

#[test]
fn mistakes_about_ties_show_in_gas() {
    let least = [
        ("by number alone", [165, 26, 28, 25]),
        ("fewer access points first", [195, 32, 31, 30]),
        ("the higher of equal size first", [115, 160, 62, 30]),
        ("size before remainder", [445, 400, 425, 230]),
        ("the weight as size", [165, 0, 28, 25]),
        ("the income as size", [185, 100, 36, 26]),
    ];
    show(Sector::Gas, &least);
}
