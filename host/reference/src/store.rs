//! Sector stores and the making of a list of them.

use crate::answer::Answer;

pub const SECTOR_BYTES: usize = 512;

/// The bytes of one sector.
pub type Sector = [u8; SECTOR_BYTES];

/// One write of a whole sector.
#[derive(Clone, Debug, PartialEq, Eq)]
pub struct Store {
    pub sector: usize,
    pub bytes: Sector,
}

impl Store {
    /// A store of the bytes of one sector.
    pub fn copy(sector: usize, from: &[u8]) -> Store {
        let mut bytes = [0; SECTOR_BYTES];
        bytes.copy_from_slice(from);
        Store { sector, bytes }
    }
}

/// Makes the first stores of the list, up to the limit.
pub fn make(card: &mut [u8], stores: &[Store], limit: u32) -> Answer {
    let limit = usize::try_from(limit).unwrap_or(usize::MAX);
    let made = stores.len().min(limit);
    for store in &stores[..made] {
        let at = store.sector * SECTOR_BYTES;
        card[at..at + SECTOR_BYTES].copy_from_slice(&store.bytes);
    }
    // A card has fewer than 2³¹ bytes of clusters, so no list passes 32 bits.
    let count = made as u32;
    if made == stores.len() {
        Answer::Done(count)
    } else {
        Answer::Stopped(count)
    }
}
