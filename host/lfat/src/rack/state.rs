//! What demand 3 compares: both FATs, the root directory and, on a sound card, the bytes of files.
//!
//! Of files, only the sectors that the operation stores can change: they are compared. That no other sector of the card is
//! touched is seen from the window as a whole.

use lfat_disk::areas::{Areas, Snapshot};
use lfat_disk::layout::{bytes, get32, Layout, SECTOR};
use lfat_disk::volume::Volume;
use std::ops::Range;

/// Where more sectors of data are stored, so many of them are compared.
const MOST_COMPARED: usize = 2_048;

pub struct State<'a> {
    layout: Layout,
    /// FAT1, FAT2 and the root directory, which follow each other.
    tables: Vec<u8>,
    /// Bytes of files, by their places on the card.
    files: Vec<(Range<usize>, &'a [u8])>,
}

/// Every root file keeps the chain rule and no two share a cluster.
pub fn is_sound(volume: &Volume) -> bool {
    let mut taken = vec![false; volume.layout.clusters + 2];
    volume.files().all(|slot| {
        volume.chain(slot).is_some_and(|chain| {
            chain
                .iter()
                .all(|&cluster| !std::mem::replace(&mut taken[cluster], true))
        })
    })
}

impl<'a> State<'a> {
    /// The state before an operation: of the data sectors that were read, those bytes that belong to files.
    pub fn before(volume: &Volume, tables: &Snapshot, read: &'a [(usize, Vec<u8>)]) -> State<'a> {
        let mut files = Vec::new();
        for slot in volume.files() {
            for place in places(volume, slot) {
                for (sector, stored) in read {
                    let part = bytes(&(*sector..sector + 1));
                    let common = place.start.max(part.start)..place.end.min(part.end);
                    if !common.is_empty() {
                        let own = common.start - part.start..common.end - part.start;
                        files.push((common, &stored[own]));
                    }
                }
            }
        }
        State {
            layout: volume.layout,
            tables: tables.tables.clone(),
            files,
        }
    }

    /// The state after it: the data sectors that it stores.
    pub fn after(areas: &Areas, tables: &Snapshot, stores: &[(usize, &'a [u8])]) -> State<'a> {
        let data = stores.iter().filter(|(sector, _)| areas.is_data(*sector));
        let count = data.clone().count();
        let step = count.div_ceil(MOST_COMPARED).max(1);
        let files = data.step_by(step).map(|(sector, stored)| {
            let part = bytes(&(*sector..sector + 1));
            (part, *stored)
        });
        State {
            layout: areas.layout,
            tables: tables.tables.clone(),
            files: files.collect(),
        }
    }

    /// Files are not compared.
    pub fn without_files(mut self) -> State<'a> {
        self.files.clear();
        self
    }

    /// What is not so on a card, if anything.
    pub fn difference(&self, card: &[u8]) -> Option<&'static str> {
        let layout = &self.layout;
        let start = layout.fat1().start * SECTOR;
        if card[start..start + self.tables.len()] != self.tables[..] {
            let differs = |sectors: Range<usize>| {
                let part = bytes(&sectors);
                card[part.clone()] != self.tables[part.start - start..part.end - start]
            };
            return Some(if differs(layout.fat1()) {
                "FAT1"
            } else if differs(layout.fat2()) {
                "FAT2"
            } else {
                "the root directory"
            });
        }
        let differ = |(part, file): &(Range<usize>, &[u8])| card[part.clone()] != **file;
        self.files.iter().any(differ).then_some("a file")
    }
}

/// Where a file's bytes are on the card, neighbouring clusters as one part.
fn places(volume: &Volume, slot: &[u8]) -> Vec<Range<usize>> {
    let mut left = get32(slot, 28);
    let mut parts: Vec<Range<usize>> = Vec::new();
    for cluster in volume.chain(slot).unwrap_or_default() {
        let start = bytes(&volume.layout.cluster(cluster)).start;
        let length = left.min(volume.layout.cluster_bytes());
        left -= length;
        match parts.last_mut() {
            Some(last) if last.end == start => last.end += length,
            _ => parts.push(start..start + length),
        }
    }
    parts
}
