//! What the tests and the benchmark share. With the feature `library` calls are made on the proved library too.

pub mod call;
pub mod cards;
pub mod characters;
pub mod dates;
pub mod fixtures;
pub mod fresh;
pub mod judge;
pub mod long_names;
pub mod mtools;
pub mod random;
pub mod steps;

/// The largest limit, which the router passes.
pub const ALL: u32 = u32::MAX;

/// 17 June 2026, 13:45:31, in seconds since 1980 began: date 0x5CD1, time 0x6DAF.
pub const AT: u32 = 1_466_171_131;

/// A name's bytes on a card.
pub type Name = [u8; 11];

pub const ROUTE: &Name = b"ROUTE   CUT";
pub const PANEL: &Name = b"PANEL   CUT";
pub const OTHER: &Name = b"OTHER      ";

/// So many cases, times `LFAT_CASES` where that is set: a whole number, for longer runs by hand.
pub fn cases(usual: u64) -> u64 {
    match std::env::var("LFAT_CASES") {
        Ok(factor) => usual * factor.parse::<u64>().expect("LFAT_CASES is a number"),
        Err(_) => usual,
    }
}
