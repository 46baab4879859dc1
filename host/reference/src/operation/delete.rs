//! Delete: the slot and its long entries are marked and the whole chain freed.

use crate::answer::Ground;
use crate::fat_draft::FatDraft;
use crate::journal::record::{Group, DELETE};
use crate::long_entries;
use crate::lookup::{open_to_remove, Opened};
use crate::root_change::RootChange;
use crate::transaction::{Planned, Transaction};

pub fn plan<'a>(card: &'a [u8], name: &[u8]) -> Result<Planned<'a, 'static>, Ground> {
    let Opened { card, file, chain } = open_to_remove(card, name)?;
    let mut fat = FatDraft::new(card.volume.fat1());
    fat.free_after(&chain, 0);
    let long_entries = long_entries::belonging_to(card.volume.root(), file.slot);
    let transaction = Transaction {
        data: Vec::new(),
        fat,
        group: Group::of([file.ending_record(DELETE, long_entries)]),
        root: RootChange::Delete {
            slot: file.slot,
            long_entries,
        },
    };
    Ok(transaction.on(card))
}
