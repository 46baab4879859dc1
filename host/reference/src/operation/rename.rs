//! Rename: a new slot with the new name; the old one and its long entries are
//! marked deleted.

use crate::answer::Ground;
use crate::check;
use crate::fat_draft::FatDraft;
use crate::journal::record::{self, Group, Record};
use crate::long_entries;
use crate::lookup::{File, Found};
use crate::name::{self, Name};
use crate::root;
use crate::root_change::RootChange;
use crate::transaction::{Planned, Transaction};

pub fn plan<'a>(card: &'a [u8], old: &[u8], new: &[u8]) -> Result<Planned<'a, 'static>, Ground> {
    let card = check::clean(card)?;
    let volume = &card.volume;
    let old_name = name::parse(old)?;
    let new_name = name::parse(new)?;
    let file = Found::by_name(volume, &old_name).writable()?;
    if Found::by_name(volume, &new_name).is_taken() {
        return Err(Ground::Exists);
    }
    let new_slot = root::lowest_available(volume.root()).ok_or(Ground::Rootfull)?;
    let long_entries = long_entries::belonging_to(volume.root(), file.slot);
    let transaction = Transaction {
        data: Vec::new(),
        fat: FatDraft::new(volume.fat1()),
        group: Group::of(rename_records(&file, long_entries, new_name, new_slot)),
        root: RootChange::Rename {
            old_slot: file.slot,
            long_entries,
            new_slot,
            new_name,
        },
    };
    Ok(transaction.on(card))
}

/// Record 1 is record 0 with the new name, operation 0 and the new slot.
fn rename_records(
    file: &File,
    long_entries: usize,
    new_name: Name,
    new_slot: usize,
) -> [Record; 2] {
    let old = file.ending_record(record::RENAME, long_entries);
    let new = Record {
        name: new_name,
        operation: record::PART,
        slot: new_slot,
        ..old.clone()
    };
    [old, new]
}
