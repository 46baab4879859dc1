//! The search for a pending group, and the judging of what is found.

use super::record::{
    character_records, is_led, stamp_in, CREATE, DELETE, RECORD_BYTES, RENAME, REPLACE, TRUNCATE,
    UPDATE,
};
use crate::answer::Ground;
use crate::bytes::{get16, get32};
use crate::calendar::Stamp;
use crate::long_entries;
use crate::long_name;
use crate::name::name_at_start;
use crate::root::{lowest_unused, DELETED, SLOT_BYTES, UNUSED};
use crate::root_change::RootChange;
use crate::store::SECTOR_BYTES;

/// A group that recovery has to finish.
#[derive(Clone, Debug, PartialEq, Eq)]
pub struct PendingGroup {
    /// Its sector, counted from the log's start.
    pub sector: usize,
    /// How many records it has.
    pub records: usize,
    pub change: RootChange,
}

/// Ground 6, RECORD, on a log table and the root directory.
pub fn scan(table: &[u8], root: &[u8]) -> Result<Option<PendingGroup>, Ground> {
    let mut pending = table
        .chunks_exact(SECTOR_BYTES)
        .enumerate()
        .filter(|(_, sector)| has_pending(sector));
    let Some((index, sector)) = pending.next() else {
        return Ok(None);
    };
    if pending.next().is_some() {
        return Err(Ground::Record);
    }
    let (records, change) = judge(sector, root).ok_or(Ground::Record)?;
    Ok(Some(PendingGroup {
        sector: index,
        records,
        change,
    }))
}

/// Where record 0 leads, the others do not count.
fn has_pending(sector: &[u8]) -> bool {
    if is_led(sector) {
        return is_pending(sector);
    }
    sector.chunks_exact(RECORD_BYTES).any(is_pending)
}

fn is_pending(record: &[u8]) -> bool {
    !matches!(record[0], UNUSED | DELETED)
}

/// The group in a sector with a pending record: how many records it has and
/// what it does to the root directory.
fn judge(sector: &[u8], root: &[u8]) -> Option<(usize, RootChange)> {
    let (record, rest) = sector.split_at(RECORD_BYTES);
    if !is_pending(record) || !fixed_fields_are_accepted(record) {
        return None;
    }
    let slot = slot_of(record);
    let long_entries = usize::from(record[12]);
    if long_entries > most_long_entries(record[13], slot) {
        return None;
    }
    let mut named: Vec<usize> = (slot - long_entries..=slot).collect();
    let (records, change) = if record[13] == RENAME {
        let (part, rest) = rest.split_at(RECORD_BYTES);
        let new_slot = slot_of(part);
        let accepted = is_pending(part) && are_alike(record, part) && !named.contains(&new_slot);
        if !accepted || !is_zero(rest) {
            return None;
        }
        named.push(new_slot);
        let change = RootChange::Rename {
            old_slot: slot,
            long_entries,
            new_slot,
            new_name: name_at_start(part),
        };
        (2, change)
    } else if record[13] == DELETE {
        let change = RootChange::Delete { slot, long_entries };
        is_zero(rest).then_some((1, change))?
    } else {
        let (stamp, rest) = rest.split_at(RECORD_BYTES);
        let stamp = stamp_in(stamp)?;
        if is_led(sector) {
            let characters = long_name_of(rest, long_entries)?;
            let records = 2 + character_records(characters.len());
            let change = RootChange::CreateLong {
                slot,
                name: name_at_start(record),
                characters,
                stamp,
            };
            (records, change)
        } else {
            let change = stamped_change(record, slot, stamp)?;
            is_zero(rest).then_some((2, change))?
        }
    };
    are_in_reach(root, &named).then_some((records, change))
}

/// The slots are there, and none is above the lowest one beginning 0. To find
/// that one, they count as deleted themselves.
fn are_in_reach(root: &[u8], named: &[usize]) -> bool {
    let slots = root.len() / SLOT_BYTES;
    let end = lowest_unused(root, named).unwrap_or(slots);
    named.iter().all(|&slot| slot < slots && slot <= end)
}

/// The characters that a group with so many long slots holds, if they are
/// allowed ones, as many as fit those slots, with only zeros after them.
fn long_name_of(bytes: &[u8], long_entries: usize) -> Option<Vec<u16>> {
    let mut characters = long_name::characters(bytes);
    let end = characters.iter().position(|&character| character == 0)?;
    let accepted = characters[end..].iter().all(|&character| character == 0)
        && characters[..end].iter().copied().all(long_name::is_allowed)
        && long_name::entries_for(end) == long_entries;
    characters.truncate(end);
    accepted.then_some(characters)
}

/// Directory cluster and high word are 0, and DIR_Cluster fits 16 bits.
fn fixed_fields_are_accepted(record: &[u8]) -> bool {
    get32(record, 14) == 0 && get16(record, 20) == 0 && get32(record, 22) < 65_536
}

/// The most that the long-name count may be: delete and rename mark slots before their own, create writes them.
fn most_long_entries(operation: u8, slot: usize) -> usize {
    match operation {
        DELETE | RENAME => long_entries::MOST.min(slot),
        CREATE => long_name::MOST_ENTRIES.min(slot),
        _ => 0,
    }
}

fn slot_of(record: &[u8]) -> usize {
    usize::from(get16(record, 18))
}

/// The records differ at most in name, operation and slot.
fn are_alike(record: &[u8], part: &[u8]) -> bool {
    record[11..13] == part[11..13] && record[14..18] == part[14..18] && record[20..] == part[20..]
}

fn is_zero(bytes: &[u8]) -> bool {
    bytes.iter().all(|&byte| byte == 0)
}

/// The change that a record and its stamp stand for.
fn stamped_change(record: &[u8], slot: usize, stamp: Stamp) -> Option<RootChange> {
    let size = get32(record, 28);
    // The low word is all of DIR_Cluster: it is below 65,536.
    let dir_cluster = get16(record, 22);
    match record[13] {
        CREATE => Some(RootChange::Create {
            slot,
            name: name_at_start(record),
            stamp,
        }),
        UPDATE => {
            let was_empty = get16(record, 26) == 0;
            Some(RootChange::Update {
                slot,
                size,
                first_cluster: was_empty.then_some(dir_cluster),
                stamp,
            })
        }
        TRUNCATE => Some(RootChange::Truncate { slot, size, stamp }),
        REPLACE => Some(RootChange::Replace {
            slot,
            first_cluster: dir_cluster,
            size,
            stamp,
        }),
        _ => None,
    }
}
