//! The root directory and its slots.

use crate::bytes::{get16, get32};
use crate::name::{name_at_start, Name};
use crate::store::SECTOR_BYTES;

pub const SLOT_BYTES: usize = 32;
pub const SLOTS_PER_SECTOR: usize = SECTOR_BYTES / SLOT_BYTES;

/// First byte of a free slot with only free slots after it.
pub const UNUSED: u8 = 0;
/// First byte of a deleted slot. The log marks committed records with it too.
pub const DELETED: u8 = 0xE5;

const READ_ONLY: u8 = 0x01;
const LABEL: u8 = 0x08;
const DIRECTORY: u8 = 0x10;

/// The 32 bytes of a root slot.
#[derive(Clone, Copy)]
pub struct Slot<'a>(pub &'a [u8]);

impl Slot<'_> {
    /// Neither free nor deleted.
    pub fn is_live(self) -> bool {
        !matches!(self.0[0], UNUSED | DELETED)
    }

    /// Live, and neither a label nor part of a long name.
    pub fn is_entry(self) -> bool {
        self.is_live() && self.attributes() & LABEL == 0
    }

    pub fn is_directory(self) -> bool {
        self.attributes() & DIRECTORY != 0
    }

    /// Marked read-only.
    pub fn is_locked(self) -> bool {
        self.attributes() & READ_ONLY != 0
    }

    pub fn is_file(self) -> bool {
        self.is_entry() && !self.is_directory()
    }

    pub fn name(self) -> Name {
        name_at_start(self.0)
    }

    pub fn attributes(self) -> u8 {
        self.0[11]
    }

    pub fn first_cluster(self) -> u16 {
        get16(self.0, 26)
    }

    pub fn size(self) -> u32 {
        get32(self.0, 28)
    }
}

/// All slots of the root directory, in order. A slot after one beginning 0 is
/// free whatever it holds; ground 5, ROOT, keeps such cards away.
pub fn slots(root: &[u8]) -> impl Iterator<Item = Slot<'_>> {
    root.chunks_exact(SLOT_BYTES).map(Slot)
}

pub fn slot(root: &[u8], index: usize) -> Slot<'_> {
    Slot(&root[index * SLOT_BYTES..][..SLOT_BYTES])
}

/// The lowest slot that bears the name.
pub fn find(root: &[u8], name: &Name) -> Option<usize> {
    slots(root).position(|slot| slot.is_entry() && slot.0.starts_with(name))
}

/// The lowest slot that a new entry can take.
pub fn lowest_available(root: &[u8]) -> Option<usize> {
    slots(root).position(|slot| !slot.is_live())
}

/// The first slot of the lowest run of so many that new entries can take.
pub fn lowest_run(root: &[u8], length: usize) -> Option<usize> {
    let mut run = 0;
    for (index, slot) in slots(root).enumerate() {
        run = if slot.is_live() { 0 } else { run + 1 };
        if run == length {
            return Some(index + 1 - length);
        }
    }
    None
}

/// The lowest slot beginning 0, where those that are named count as deleted.
pub fn lowest_unused(root: &[u8], named: &[usize]) -> Option<usize> {
    let mut unused = slots(root).enumerate();
    let unused = unused.find(|(index, slot)| slot.0[0] == UNUSED && !named.contains(index));
    unused.map(|(index, _)| index)
}

/// No slot after one beginning 0 begins otherwise.
pub fn ends_once(root: &[u8]) -> bool {
    slots(root)
        .skip_while(|slot| slot.0[0] != UNUSED)
        .all(|slot| slot.0[0] == UNUSED)
}
