//! Where the log is, and where the next group goes.

use crate::answer::Ground;
use crate::fat::RESERVED;
use crate::root::UNUSED;
use crate::store::{Store, SECTOR_BYTES};
use crate::volume::Volume;

pub const MOST_LOG_SECTORS: u32 = 128;

/// The log table and the sector at which it starts on the card.
#[derive(Clone, Copy)]
pub struct Journal<'a> {
    pub first_sector: u32,
    pub table: &'a [u8],
}

impl<'a> Journal<'a> {
    /// Ground 4, LOGAREA: the log is the only run of reserved clusters in FAT1.
    pub fn find(volume: &Volume<'a>) -> Result<Self, Ground> {
        let mut marked = volume.fat1().holding(RESERVED);
        let first = marked.next().ok_or(Ground::Logarea)?;
        let mut last = first;
        for cluster in marked {
            if cluster != last + 1 {
                return Err(Ground::Logarea);
            }
            last = cluster;
        }
        let clusters = u32::from(last - first) + 1;
        let sectors = clusters * volume.geometry.sectors_per_cluster;
        if sectors > MOST_LOG_SECTORS {
            return Err(Ground::Logarea);
        }
        let first_sector = volume.geometry.cluster_start(first);
        Ok(Journal {
            first_sector,
            table: volume.sectors(first_sector, sectors),
        })
    }

    /// The lowest log sector whose first byte is 0, counted from the log's start.
    fn lowest_unused(&self) -> Option<usize> {
        self.table
            .chunks_exact(SECTOR_BYTES)
            .position(|sector| sector[0] == UNUSED)
    }

    /// The sector for the next group, and the stores that clear the log where
    /// it is full.
    pub fn make_room(&self) -> (Vec<Store>, usize) {
        let first = self.first_sector as usize;
        match self.lowest_unused() {
            Some(index) => (Vec::new(), first + index),
            None => (self.clearing(), first),
        }
    }

    /// All log sectors as zeros, the highest first.
    fn clearing(&self) -> Vec<Store> {
        let first = self.first_sector as usize;
        let count = self.table.len() / SECTOR_BYTES;
        (first..first + count)
            .rev()
            .map(|sector| Store {
                sector,
                bytes: [0; SECTOR_BYTES],
            })
            .collect()
    }
}
