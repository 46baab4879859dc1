//! Recovery: a pending group is redone from FAT2 and the record; with none
//! pending, FAT2 is set back to FAT1.

use crate::answer::Ground;
use crate::check::{self, Mounted};
use crate::journal::record::commit;
use crate::journal::PendingGroup;
use crate::program::{finish, Program, Segment};
use crate::root_change::RootStores;
use crate::store::{Store, SECTOR_BYTES};
use crate::volume::Volume;

pub fn plan(card: &[u8]) -> Result<Vec<Store>, Ground> {
    let (card, pending) = check::recoverable(card)?;
    Ok(match pending {
        Some(group) => {
            let (mut stores, root, commit) = redo(&card, &group);
            stores.extend(root.stores);
            stores.push(commit);
            stores
        }
        None => undo(&card.volume),
    })
}

/// The same stores in segments: the commit mark is a barrier, setting FAT2 back
/// has none.
pub fn program(card: &[u8]) -> Result<Program<'static>, Ground> {
    let (card, pending) = check::recoverable(card)?;
    let segments = match pending {
        Some(group) => {
            let (fat1, root, commit) = redo(&card, &group);
            finish(fat1, root, commit)
        }
        None => vec![Segment::new(undo(&card.volume), None)],
    };
    Ok(Program { segments })
}

/// FAT2 to FAT1, then the root directory, then the commit.
fn redo(card: &Mounted, group: &PendingGroup) -> (Vec<Store>, RootStores, Store) {
    let volume = &card.volume;
    let start = volume.geometry.fat1_start();
    let fat1 = fat_copy(volume.fat2().bytes, volume.fat1().bytes, start);
    let log_sector = card.journal.first_sector + group.sector as u32;
    let pending = volume.draft(log_sector);
    let commit = Store {
        sector: pending.sector,
        bytes: commit(pending.bytes, group.records),
    };
    (fat1, group.change.stores(volume), commit)
}

/// FAT1 to FAT2.
fn undo(volume: &Volume) -> Vec<Store> {
    let start = volume.geometry.fat2_start();
    fat_copy(volume.fat1().bytes, volume.fat2().bytes, start)
}

/// The sectors of `from` that differ in `to`, as stores into `to`, which starts
/// at the given sector.
fn fat_copy(from: &[u8], to: &[u8], to_start: u32) -> Vec<Store> {
    let pairs = from
        .chunks_exact(SECTOR_BYTES)
        .zip(to.chunks_exact(SECTOR_BYTES));
    pairs
        .enumerate()
        .filter(|(_, (new, old))| new != old)
        .map(|(index, (new, _))| Store::copy(to_start as usize + index, new))
        .collect()
}
