//! Filings made from a seed, of many kinds by turns, to compare programs with.
//! A filing depends on the seed and its number only; most of them settle.

mod asked;
mod cabins;
mod counts;
mod damage;
mod draft;
mod fees;
mod gas;
mod plan;
mod refused;
mod sizes;
#[cfg(test)]
mod tests;
mod times;

use crate::program::MOST_READ;
use crate::random::Random;
use crate::sector::Sector;
pub use asked::asked_sheet;
use draft::Draft;

/// What a filing is made for.
#[derive(Clone, Copy, Debug, PartialEq, Eq)]
pub enum Kind {
    /// Small figures.
    Small,
    /// Values from all of their range.
    Wide,
    /// Values of any number of digits.
    Digits,
    /// Values at the ends of their ranges.
    Ends,
    /// Operators with equal values.
    Ties,
    /// Operators of different sizes with equal remainders.
    Sizes,
    /// Operators alike but for one figure that rises evenly, so that the middle
    /// one is at the mean.
    Mean,
    /// Figures from interruptions.
    Interruptions,
    /// Figures of which much is withdrawn.
    Withdrawals,
    /// Interruptions left out, and amounts on the counts; filed and withdrawn.
    LeftOut,
    /// Some marks are kept, of some operators all six; some are set again.
    Marked,
    /// Few marks are cleared in the whole book.
    NearlyAllMarked,
    /// Books that don't settle: 10, 11 and 12.
    Incomplete,
    /// Cabins of a year or access points are missing: 11.
    WithoutSize,
    /// Bytes cut, changed, added: 1, 2 and 3 above all.
    Damaged,
    /// A field that gets 4 to 9, 14 or 15.
    Refused,
    /// A field that is refused because of a count.
    RefusedByCount,
    /// A setting past its limit, or one that there is not.
    RefusedSetting,
    /// Interruptions at the ends of the period, and mostly one that gets 14 or 15.
    Times,
    /// For gas: a setting, figure or indicator that only electricity has.
    OnlyElectricity,
    /// For gas: an interruption.
    Interrupted,
    /// For gas: a filing made for electricity.
    Foreign,
    /// About the longest filing that the program reads.
    Long,
}

const TURNS: [Kind; 25] = [
    Kind::Small,
    Kind::Wide,
    Kind::Ends,
    Kind::Ties,
    Kind::Interruptions,
    Kind::Marked,
    Kind::Damaged,
    Kind::Digits,
    Kind::Withdrawals,
    Kind::Refused,
    Kind::Small,
    Kind::Mean,
    Kind::Ends,
    Kind::Sizes,
    Kind::Interruptions,
    Kind::NearlyAllMarked,
    Kind::Damaged,
    Kind::Digits,
    Kind::Incomplete,
    Kind::Refused,
    Kind::LeftOut,
    Kind::RefusedByCount,
    Kind::LeftOut,
    Kind::WithoutSize,
    Kind::RefusedSetting,
];

/// One of electricity's filings in so many is about times. This number has no divisor in
/// common with those of the turns of both sectors, so that each kind gives way alike, and
/// gas is given some of these filings too.
const TIMES_TURN: u64 = 19;

/// One filing in so many is a long one.
const LONG_TURN: u64 = 500;
const LONG_LENGTHS: [usize; 8] = [
    MOST_READ,
    MOST_READ + 1,
    MOST_READ - 1,
    MOST_READ,
    MOST_READ + 2,
    MOST_READ + 1,
    2 * MOST_READ,
    MOST_READ,
];

/// The kind of electricity's filing with that number.
pub fn kind(number: u64) -> Kind {
    kind_in(Sector::Electricity, number)
}

/// The kind of a sector's filing with that number.
pub fn kind_in(sector: Sector, number: u64) -> Kind {
    if number % LONG_TURN == LONG_TURN - 1 {
        return Kind::Long;
    }
    if sector.has_interruptions() && number % TIMES_TURN == TIMES_TURN - 1 {
        return Kind::Times;
    }
    let turns = match sector {
        Sector::Electricity => &TURNS[..],
        Sector::Gas => &gas::TURNS,
    };
    turns[(number % turns.len() as u64) as usize]
}

/// Electricity's filing with that number of the sequence with that seed.
pub fn filing(seed: u64, number: u64) -> Vec<u8> {
    filing_in(Sector::Electricity, seed, number)
}

/// A sector's filing with that number of the sequence with that seed.
pub fn filing_in(sector: Sector, seed: u64, number: u64) -> Vec<u8> {
    let kind = kind_in(sector, number);
    let mut draft = Draft::new(sector, Random::new(seed, number));
    match kind {
        Kind::Mean => draft.mean(),
        Kind::Sizes => draft.sizes(),
        Kind::Incomplete => draft.incomplete(),
        Kind::WithoutSize => draft.without_size(),
        Kind::Damaged => return draft.damaged(),
        Kind::Refused => draft.refused(),
        Kind::RefusedByCount => draft.refused_by_count(),
        Kind::RefusedSetting => draft.refused_setting(),
        Kind::Times => draft.times(),
        Kind::OnlyElectricity => draft.only_electricity(),
        Kind::Interrupted => draft.interrupted(),
        Kind::Foreign => return filing(seed, number),
        Kind::Long => {
            let turn = number / LONG_TURN % LONG_LENGTHS.len() as u64;
            draft.long(LONG_LENGTHS[turn as usize]);
        }
        _ => draft.sound(kind),
    }
    draft.bytes
}
