//! One file allocation table.

use crate::bytes::get16;

/// The mark of free clusters.
pub const FREE: u16 = 0;
/// The mark of the log's clusters.
pub const RESERVED: u16 = 0xFFF6;
/// The end value we write.
pub const END: u16 = 0xFFFF;

/// What a FAT value means.
#[derive(Clone, Copy, Debug, PartialEq, Eq)]
pub enum FatValue {
    Free,
    Next(u16),
    Reserved,
    Bad,
    End,
    /// 1, or a number past the last cluster.
    Invalid,
}

/// A FAT, with the highest cluster number of its card.
#[derive(Clone, Copy)]
pub struct Fat<'a> {
    pub bytes: &'a [u8],
    last_cluster: u16,
}

impl<'a> Fat<'a> {
    pub fn new(bytes: &'a [u8], last_cluster: u16) -> Self {
        Fat {
            bytes,
            last_cluster,
        }
    }

    /// How many clusters the card has.
    pub fn clusters(&self) -> usize {
        usize::from(self.last_cluster) - 1
    }

    pub fn is_cluster(&self, number: u16) -> bool {
        (2..=self.last_cluster).contains(&number)
    }

    pub fn value(&self, cluster: u16) -> FatValue {
        match get16(self.bytes, usize::from(cluster) * 2) {
            FREE => FatValue::Free,
            RESERVED => FatValue::Reserved,
            0xFFF7 => FatValue::Bad,
            0xFFF8..=0xFFFF => FatValue::End,
            next if self.is_cluster(next) => FatValue::Next(next),
            _ => FatValue::Invalid,
        }
    }

    /// The clusters that hold the given value, in rising order.
    pub fn holding(&self, value: u16) -> impl Iterator<Item = u16> + 'a {
        let clusters = 2..=self.last_cluster;
        let entries = self.bytes[4..].chunks_exact(2);
        clusters
            .zip(entries)
            .filter(move |(_, entry)| get16(entry, 0) == value)
            .map(|(cluster, _)| cluster)
    }

    /// The lowest free clusters, `None` if there are fewer than `count`.
    pub fn lowest_free(&self, count: u64) -> Option<Vec<u16>> {
        let count = usize::try_from(count).ok()?;
        let free: Vec<u16> = self.holding(FREE).take(count).collect();
        (free.len() == count).then_some(free)
    }
}
