//! What an operation does to the root directory.

use crate::bytes::{put16, put32};
use crate::calendar::Stamp;
use crate::long_name;
use crate::name::Name;
use crate::root::{slot, DELETED, SLOTS_PER_SECTOR, SLOT_BYTES};
use crate::store::Store;
use crate::volume::Volume;

/// The attributes of a created file.
pub const ARCHIVE: u8 = 0x20;

// Where dates and times stand in a slot.
const CREATION_TIME: usize = 14;
const CREATION_DATE: usize = 16;
const ACCESS_DATE: usize = 18;
const WRITE_TIME: usize = 22;
const WRITE_DATE: usize = 24;

type SlotBytes = [u8; SLOT_BYTES];

/// The effect of each operation on the root directory.
#[derive(Clone, Debug, PartialEq, Eq)]
pub enum RootChange {
    Create {
        slot: usize,
        name: Name,
        stamp: Stamp,
    },
    /// The slot, and the long slots of the characters directly before it.
    CreateLong {
        slot: usize,
        name: Name,
        characters: Vec<u16>,
        stamp: Stamp,
    },
    /// Append. The first cluster is given only where the file was empty.
    Update {
        slot: usize,
        size: u32,
        first_cluster: Option<u16>,
        stamp: Stamp,
    },
    Truncate {
        slot: usize,
        size: u32,
        stamp: Stamp,
    },
    /// With the slots directly before it, so many.
    Delete { slot: usize, long_entries: usize },
    /// With the slots directly before the old one, so many.
    Rename {
        old_slot: usize,
        long_entries: usize,
        new_slot: usize,
        new_name: Name,
    },
    Replace {
        slot: usize,
        first_cluster: u16,
        size: u32,
        stamp: Stamp,
    },
}

/// The root sectors concerned, rising, one store each.
pub struct RootStores {
    pub stores: Vec<Store>,
    /// On a disk that puts stores down in its own order, these must keep theirs:
    /// a slot in use after one that still begins 0 would break ROOT.
    pub is_ordered: bool,
}

impl RootChange {
    /// The stores into the root directory.
    pub fn stores(&self, volume: &Volume) -> RootStores {
        let mut changes = self.new_slots(volume.root());
        changes.sort_by_key(|&(slot, _)| slot);
        let mut stores: Vec<Store> = Vec::new();
        for (slot, bytes) in changes {
            let sector = volume.geometry.root_start() + (slot / SLOTS_PER_SECTOR) as u32;
            if stores.last().map(|store| store.sector) != Some(sector as usize) {
                stores.push(volume.draft(sector));
            }
            if let Some(store) = stores.last_mut() {
                let at = slot % SLOTS_PER_SECTOR * SLOT_BYTES;
                store.bytes[at..at + SLOT_BYTES].copy_from_slice(&bytes);
            }
        }
        RootStores {
            stores,
            is_ordered: matches!(self, RootChange::CreateLong { .. }),
        }
    }

    /// The slots concerned, with their new bytes.
    fn new_slots(&self, root: &[u8]) -> Vec<(usize, SlotBytes)> {
        match *self {
            RootChange::Create { slot, name, stamp } => vec![(slot, created(&name, stamp))],
            RootChange::CreateLong {
                slot,
                name,
                ref characters,
                stamp,
            } => {
                let mut entries = long_name::entries(&name, characters);
                let first = slot - entries.len();
                entries.push(created(&name, stamp));
                (first..).zip(entries).collect()
            }
            RootChange::Update {
                slot,
                size,
                first_cluster,
                stamp,
            } => vec![(slot, changed(root, slot, size, first_cluster, stamp))],
            RootChange::Truncate { slot, size, stamp } => {
                let first_cluster = (size == 0).then_some(0);
                vec![(slot, changed(root, slot, size, first_cluster, stamp))]
            }
            RootChange::Delete { slot, long_entries } => ended(root, slot, long_entries),
            RootChange::Rename {
                old_slot,
                long_entries,
                new_slot,
                new_name,
            } => {
                let mut slots = ended(root, old_slot, long_entries);
                slots.push((new_slot, renamed(root, old_slot, &new_name)));
                slots
            }
            RootChange::Replace {
                slot,
                first_cluster,
                size,
                stamp,
            } => vec![(slot, changed(root, slot, size, Some(first_cluster), stamp))],
        }
    }
}

fn present(root: &[u8], index: usize) -> SlotBytes {
    let mut bytes = [0; SLOT_BYTES];
    bytes.copy_from_slice(slot(root, index).0);
    bytes
}

/// All dates and times are the stamp's, the tenths 0.
fn created(name: &Name, stamp: Stamp) -> SlotBytes {
    let mut bytes = [0; SLOT_BYTES];
    bytes[..11].copy_from_slice(name);
    bytes[11] = ARCHIVE;
    put16(&mut bytes, CREATION_TIME, stamp.time);
    put16(&mut bytes, CREATION_DATE, stamp.date);
    put_written(&mut bytes, stamp);
    bytes
}

/// Write time, write date and access date.
fn put_written(bytes: &mut SlotBytes, stamp: Stamp) {
    put16(bytes, ACCESS_DATE, stamp.date);
    put16(bytes, WRITE_TIME, stamp.time);
    put16(bytes, WRITE_DATE, stamp.date);
}

/// The slot as it stands, with a new size, a new stamp, and a new first cluster where one is given.
fn changed(
    root: &[u8],
    index: usize,
    size: u32,
    first_cluster: Option<u16>,
    stamp: Stamp,
) -> SlotBytes {
    let mut bytes = present(root, index);
    put_written(&mut bytes, stamp);
    if let Some(cluster) = first_cluster {
        put16(&mut bytes, 26, cluster);
    }
    put32(&mut bytes, 28, size);
    bytes
}

/// A slot and so many directly before it, marked deleted whatever they hold.
fn ended(root: &[u8], slot: usize, long_entries: usize) -> Vec<(usize, SlotBytes)> {
    (slot - long_entries..=slot)
        .map(|slot| (slot, deleted(root, slot)))
        .collect()
}

fn deleted(root: &[u8], index: usize) -> SlotBytes {
    let mut bytes = present(root, index);
    bytes[0] = DELETED;
    bytes
}

fn renamed(root: &[u8], old: usize, new_name: &Name) -> SlotBytes {
    let mut bytes = present(root, old);
    bytes[..11].copy_from_slice(new_name);
    bytes
}
