//! The areas of a card that hold its tables and its log: what calls look at and change, data apart.

use crate::layout::{bytes, Layout};
use crate::volume::Volume;
use std::ops::Range;

/// Where the areas are, in sectors.
#[derive(Clone, Debug, PartialEq, Eq)]
pub struct Areas {
    /// Where the tables are.
    pub layout: Layout,
    /// The sectors of the log.
    pub log: Range<usize>,
    /// The card is being made: its boot sector counts as one of the tables.
    pub is_new: bool,
}

/// The bytes of the areas at one time.
#[derive(Clone, PartialEq)]
pub struct Snapshot {
    /// FAT1, FAT2 and the root directory; of a new card the boot sector before them.
    pub tables: Vec<u8>,
    /// The log table.
    pub log: Vec<u8>,
}

impl Areas {
    /// `None` if the boot sector is refused or there is no log.
    pub fn of(window: &[u8]) -> Option<Areas> {
        let volume = Volume::open(window)?;
        Some(Areas {
            layout: volume.layout,
            log: volume.log()?,
            is_new: false,
        })
    }

    /// The same of a card that is being made.
    pub fn of_new(window: &[u8]) -> Option<Areas> {
        let areas = Areas::of(window)?;
        Some(Areas {
            is_new: true,
            ..areas
        })
    }

    /// FAT1, FAT2 and the root directory, which follow each other; of a new card all from the boot sector on.
    pub fn tables(&self) -> Range<usize> {
        let start = match self.is_new {
            true => 0,
            false => self.layout.fat1().start,
        };
        start..self.layout.data_start()
    }

    /// Whether a store decides what the card means, so that no other may pass it: one into the log that is no clearing; of a new
    /// card one of its boot sector.
    pub fn is_mark(&self, sector: usize, stored: &[u8]) -> bool {
        match self.is_new {
            true => sector == 0,
            false => self.log.contains(&sector) && stored.iter().any(|&byte| byte != 0),
        }
    }

    /// Sectors that are neither tables nor log: data, and what is reserved.
    pub fn is_data(&self, sector: usize) -> bool {
        !self.tables().contains(&sector) && !self.log.contains(&sector)
    }

    /// The bytes of the areas as they stand.
    pub fn save(&self, window: &[u8]) -> Snapshot {
        Snapshot {
            tables: window[bytes(&self.tables())].to_vec(),
            log: window[bytes(&self.log)].to_vec(),
        }
    }

    /// Puts the areas back.
    pub fn restore(&self, window: &mut [u8], saved: &Snapshot) {
        window[bytes(&self.tables())].copy_from_slice(&saved.tables);
        window[bytes(&self.log)].copy_from_slice(&saved.log);
    }

    /// Makes a store in a snapshot; false if it is one of data.
    pub fn play(&self, saved: &mut Snapshot, sector: usize, stored: &[u8]) -> bool {
        let (area, start) = if self.tables().contains(&sector) {
            (&mut saved.tables, self.tables().start)
        } else if self.log.contains(&sector) {
            (&mut saved.log, self.log.start)
        } else {
            return false;
        };
        area[bytes(&(sector - start..sector - start + 1))].copy_from_slice(stored);
        true
    }
}
