//! The independent reference model, written from the requirement alone: 01, and
//! points 1 to 8 of 02 where they speak. This file only declares the modules.

pub mod book;
pub mod calls;
#[cfg(test)]
mod case_m;
pub mod compare;
pub mod exponent;
pub mod files;
pub mod filing;
pub mod generator;
pub mod indicators;
pub mod money;
pub mod numbers;
pub mod order;
pub mod product;
pub mod program;
pub mod random;
pub mod report;
pub mod script;
pub mod sector;
pub mod settlement;
pub mod sharing;
pub mod sheet;
pub mod walk;
pub mod writer;
