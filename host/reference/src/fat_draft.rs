//! The FAT sectors that an operation changes.

use crate::bytes::put16;
use crate::fat::{Fat, END, FREE};
use crate::store::{Sector, Store, SECTOR_BYTES};

const ENTRIES_PER_SECTOR: usize = SECTOR_BYTES / 2;

/// A FAT with changes on top. Only sectors that were set are copied.
pub struct FatDraft<'a> {
    fat: Fat<'a>,
    sectors: Vec<Option<Box<Sector>>>,
}

impl<'a> FatDraft<'a> {
    pub fn new(fat: Fat<'a>) -> Self {
        let count = fat.bytes.len() / SECTOR_BYTES;
        FatDraft {
            fat,
            sectors: vec![None; count],
        }
    }

    /// Links the clusters one after the other and ends the chain after them.
    pub fn link(&mut self, old_last: Option<u16>, new: &[u16]) {
        let mut before = old_last;
        for &cluster in new {
            if let Some(before) = before {
                self.set(before, cluster);
            }
            before = Some(cluster);
        }
        if let Some(&last) = new.last() {
            self.set(last, END);
        }
    }

    /// Frees the part of the chain after the first `kept` clusters.
    pub fn free_after(&mut self, chain: &[u16], kept: usize) {
        let (kept, freed) = chain.split_at(kept);
        for &cluster in freed {
            self.set(cluster, FREE);
        }
        if let (Some(&last), false) = (kept.last(), freed.is_empty()) {
            self.set(last, END);
        }
    }

    fn set(&mut self, cluster: u16, value: u16) {
        let cluster = usize::from(cluster);
        let index = cluster / ENTRIES_PER_SECTOR;
        let fat = self.fat.bytes;
        let sector = self.sectors[index].get_or_insert_with(|| {
            let mut copy = Box::new([0; SECTOR_BYTES]);
            copy.copy_from_slice(&fat[index * SECTOR_BYTES..][..SECTOR_BYTES]);
            copy
        });
        put16(&mut sector[..], cluster % ENTRIES_PER_SECTOR * 2, value);
    }

    /// The changed sectors, rising, as stores into the FAT that starts at the
    /// given sector.
    pub fn stores(&self, fat_start: u32) -> impl Iterator<Item = Store> + '_ {
        let old = self.fat.bytes.chunks_exact(SECTOR_BYTES);
        let drafts = self.sectors.iter().zip(old).enumerate();
        drafts.filter_map(move |(index, (draft, old))| {
            let bytes: Sector = **draft.as_ref()?;
            let sector = fat_start as usize + index;
            (bytes[..] != *old).then_some(Store { sector, bytes })
        })
    }
}
