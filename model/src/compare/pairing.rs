//! Which programs are run on which filings.

use crate::generator;
use crate::sector::Sector;

/// Programs of a sector, run on the filings made for one.
#[derive(Clone, Copy, Debug, PartialEq, Eq)]
pub enum Pairing {
    /// Programs of electricity on filings made for them.
    Electricity,
    /// Programs of gas on filings made for them, some of which are electricity's.
    Gas,
    /// Programs of electricity on filings made for gas.
    GasFilings,
}

impl Pairing {
    /// The programs of a sector on its own filings.
    pub fn within(sector: Sector) -> Pairing {
        match sector {
            Sector::Electricity => Pairing::Electricity,
            Sector::Gas => Pairing::Gas,
        }
    }

    /// The sector of the programs.
    pub fn programs(self) -> Sector {
        match self {
            Pairing::Gas => Sector::Gas,
            Pairing::Electricity | Pairing::GasFilings => Sector::Electricity,
        }
    }

    /// The filing with that number of the sequence with that seed.
    pub fn filing(self, seed: u64, number: u64) -> Vec<u8> {
        let made_for = match self {
            Pairing::Electricity => Sector::Electricity,
            Pairing::Gas | Pairing::GasFilings => Sector::Gas,
        };
        generator::filing_in(made_for, seed, number)
    }

    /// The word that stands for it before a subcommand, and a blank.
    pub fn option(self) -> &'static str {
        match self {
            Pairing::Electricity => "",
            Pairing::Gas => "--gas ",
            Pairing::GasFilings => "--gas-filings ",
        }
    }
}
