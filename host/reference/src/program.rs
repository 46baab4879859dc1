//! A call's stores in segments, for a disk that puts stores down in its own order.

use crate::root_change::RootStores;
use crate::store::{Store, SECTOR_BYTES};
use std::borrow::Cow;

/// Stores of neighbouring sectors, rising, one for each 512 bytes.
#[derive(Clone, Debug, PartialEq, Eq)]
pub struct Extent<'a> {
    pub first: usize,
    /// Whole sectors. Those of the caller's data are borrowed, not copied.
    pub bytes: Cow<'a, [u8]>,
}

impl Extent<'_> {
    /// How many stores these are.
    pub fn count(&self) -> usize {
        self.bytes.len() / SECTOR_BYTES
    }

    /// Each store's sector and bytes.
    pub fn sectors(&self) -> impl Iterator<Item = (usize, &[u8])> {
        (self.first..).zip(self.bytes.chunks_exact(SECTOR_BYTES))
    }
}

/// Stores that may reach the card in any order, and the barrier after them: a
/// store that none passes. Only the last segment of a call may lack it.
#[derive(Clone, Debug, Default, PartialEq, Eq)]
pub struct Segment<'a> {
    pub stores: Vec<Extent<'a>>,
    pub barrier: Option<Store>,
}

impl<'a> Segment<'a> {
    /// Adds a store; one that follows the last joins it.
    pub fn push(&mut self, store: Store) {
        match self.stores.last_mut() {
            Some(Extent {
                first,
                bytes: Cow::Owned(bytes),
            }) if *first + bytes.len() / SECTOR_BYTES == store.sector => {
                bytes.extend_from_slice(&store.bytes);
            }
            _ => self.stores.push(Extent {
                first: store.sector,
                bytes: Cow::Owned(store.bytes.to_vec()),
            }),
        }
    }

    /// The stores, then the barrier.
    pub fn new(stores: impl IntoIterator<Item = Store>, barrier: Option<Store>) -> Segment<'a> {
        let mut segment = Segment::default();
        stores.into_iter().for_each(|store| segment.push(store));
        segment.barrier = barrier;
        segment
    }

    /// How many stores it has, the barrier too.
    pub fn count(&self) -> usize {
        self.stores.iter().map(Extent::count).sum::<usize>() + usize::from(self.barrier.is_some())
    }

    /// Each store's sector and bytes, the barrier last.
    pub fn sectors(&self) -> impl Iterator<Item = (usize, &[u8])> {
        let barrier = self.barrier.iter();
        let barrier = barrier.map(|store| (store.sector, &store.bytes[..]));
        self.stores.iter().flat_map(Extent::sectors).chain(barrier)
    }
}

/// The stores from FAT1 on, with the commit mark as the last barrier. Root
/// stores that have to keep their order are barriers too, but for the last.
pub fn finish<'a>(
    fat1: impl IntoIterator<Item = Store>,
    root: RootStores,
    commit: Store,
) -> Vec<Segment<'a>> {
    let mut segments = Vec::new();
    let mut segment = Segment::new(fat1, None);
    let last = root.stores.len().saturating_sub(1);
    for (index, store) in root.stores.into_iter().enumerate() {
        if root.is_ordered && index < last {
            segment.barrier = Some(store);
            segments.push(std::mem::take(&mut segment));
        } else {
            segment.push(store);
        }
    }
    segment.barrier = Some(commit);
    segments.push(segment);
    segments
}

/// The list of stores of one call, in its order.
#[derive(Clone, Debug, Default, PartialEq, Eq)]
pub struct Program<'a> {
    pub segments: Vec<Segment<'a>>,
}

impl Program<'_> {
    /// How many stores there are.
    pub fn count(&self) -> usize {
        self.segments.iter().map(Segment::count).sum()
    }

    /// Each store's sector and bytes.
    pub fn sectors(&self) -> impl Iterator<Item = (usize, &[u8])> {
        self.segments.iter().flat_map(Segment::sectors)
    }
}
