//! Looking into a card: FAT1, the root directory and the log. The library judges cards; this only shows them.

use crate::layout::{bytes, get16, get32, Layout, SECTOR};
use std::ops::Range;

const FREE: usize = 0;
const RESERVED: usize = 0xFFF6;
const LEAST_END: usize = 0xFFF8;
const MOST_LOG_SECTORS: usize = 128;

const LABEL: u8 = 0x08;
const DIRECTORY: u8 = 0x10;

/// A window that is as long as its boot sector says.
#[derive(Clone, Copy)]
pub struct Volume<'a> {
    /// The card, from its boot sector on.
    pub window: &'a [u8],
    /// Where its areas are.
    pub layout: Layout,
}

impl<'a> Volume<'a> {
    /// `None` if the boot sector is refused or the window is too short.
    pub fn open(window: &'a [u8]) -> Option<Volume<'a>> {
        let layout = Layout::parse(window)?;
        let whole = window.len() / SECTOR >= layout.total_sectors;
        whole.then_some(Volume { window, layout })
    }

    /// A cluster's entry in FAT1.
    fn entry(&self, cluster: usize) -> usize {
        get16(self.window, self.layout.reserved * SECTOR + cluster * 2)
    }

    fn clusters_holding(&self, value: usize) -> impl Iterator<Item = usize> + '_ {
        (2..self.layout.clusters + 2).filter(move |&cluster| self.entry(cluster) == value)
    }

    /// How many clusters FAT1 has free.
    pub fn free_clusters(&self) -> usize {
        self.clusters_holding(FREE).count()
    }

    /// The clusters of the log: the only run of reserved ones.
    pub fn log_clusters(&self) -> Option<Range<usize>> {
        let first = self.clusters_holding(RESERVED).next()?;
        let last = self.clusters_holding(RESERVED).last()?;
        let count = self.clusters_holding(RESERVED).count();
        let is_run = count == last - first + 1;
        let fits = count * self.layout.sectors_per_cluster <= MOST_LOG_SECTORS;
        (is_run && fits).then_some(first..last + 1)
    }

    /// The sectors of the log.
    pub fn log(&self) -> Option<Range<usize>> {
        let clusters = self.log_clusters()?;
        let start = self.layout.cluster(clusters.start).start;
        Some(start..self.layout.cluster(clusters.end - 1).end)
    }

    /// All slots of the root directory, 32 bytes each.
    pub fn slots(&self) -> impl Iterator<Item = &'a [u8]> {
        self.window[bytes(&self.layout.root())].chunks_exact(32)
    }

    /// The lowest slot that bears the name.
    pub fn find(&self, name: &[u8]) -> Option<&'a [u8]> {
        self.slots()
            .find(|slot| is_entry(slot) && slot.starts_with(name))
    }

    /// The root files: live, neither labels nor directories.
    pub fn files(&self) -> impl Iterator<Item = &'a [u8]> {
        self.slots()
            .filter(|slot| is_entry(slot) && slot[11] & DIRECTORY == 0)
    }

    /// The clusters of a file, if it keeps the chain rule.
    pub fn chain(&self, slot: &[u8]) -> Option<Vec<usize>> {
        let (first, size) = (get16(slot, 26), get32(slot, 28));
        let count = size.div_ceil(self.layout.cluster_bytes());
        if count == 0 || count > self.layout.clusters {
            return (count == 0 && first == 0).then(Vec::new);
        }
        let mut chain = Vec::with_capacity(count);
        let mut cluster = first;
        while chain.len() < count && self.layout.is_cluster(cluster) {
            chain.push(cluster);
            cluster = self.entry(cluster);
        }
        (chain.len() == count && cluster >= LEAST_END).then_some(chain)
    }

    /// The sectors of a file that hold the given bytes of it, by rising file offset.
    pub fn file_sectors(&self, slot: &[u8], offsets: Range<usize>) -> Option<Vec<usize>> {
        let chain = self.chain(slot)?;
        let per_cluster = self.layout.sectors_per_cluster;
        let sectors = offsets.start / SECTOR..offsets.end.div_ceil(SECTOR);
        sectors
            .map(|at| {
                let cluster = chain.get(at / per_cluster)?;
                Some(self.layout.cluster(*cluster).start + at % per_cluster)
            })
            .collect()
    }
}

/// A slot's or a record's first byte says that it is neither free nor deleted.
pub fn is_live(bytes: &[u8]) -> bool {
    !matches!(bytes[0], 0 | 0xE5)
}

/// A slot that is a file or a directory: live, and neither a label nor part of a long name.
pub fn is_entry(slot: &[u8]) -> bool {
    is_live(slot) && slot[11] & LABEL == 0
}
