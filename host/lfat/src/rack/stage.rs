//! What a store is for, by its place on the card.

use lfat_disk::areas::Areas;

/// The stages of a call, in the order of stores; a format has the boot sector before and after all others.
#[derive(Clone, Copy, Debug, PartialEq, Eq, PartialOrd, Ord)]
pub enum Stage {
    BootCleared,
    Data,
    Fat2,
    Clearing,
    Record,
    Fat1,
    Root,
    Commit,
    Boot,
}

impl Stage {
    pub fn of(areas: &Areas, sector: usize, stored: &[u8]) -> Stage {
        let layout = &areas.layout;
        if sector == 0 {
            match stored.iter().all(|&byte| byte == 0) {
                true => Stage::BootCleared,
                false => Stage::Boot,
            }
        } else if layout.fat1().contains(&sector) {
            Stage::Fat1
        } else if layout.fat2().contains(&sector) {
            Stage::Fat2
        } else if layout.root().contains(&sector) {
            Stage::Root
        } else if !areas.log.contains(&sector) {
            Stage::Data
        } else {
            match stored[0] {
                0 => Stage::Clearing,
                0xE5 => Stage::Commit,
                _ => Stage::Record,
            }
        }
    }

    pub fn word(self) -> &'static str {
        match self {
            Stage::BootCleared => "boot cleared",
            Stage::Data => "data",
            Stage::Fat2 => "FAT2",
            Stage::Clearing => "log cleared",
            Stage::Record => "log record",
            Stage::Fat1 => "FAT1",
            Stage::Root => "root",
            Stage::Commit => "commit",
            Stage::Boot => "boot sector",
        }
    }
}
