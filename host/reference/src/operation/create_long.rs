//! Create with a long name: a run of new slots, the short one last; no cluster is touched.

use crate::answer::Ground;
use crate::check;
use crate::fat_draft::FatDraft;
use crate::journal::record::{Group, Record};
use crate::long_name;
use crate::lookup::Found;
use crate::name;
use crate::root;
use crate::root_change::RootChange;
use crate::transaction::{Planned, Transaction};

pub fn plan<'a>(
    card: &'a [u8],
    name: &[u8],
    characters: &[u8],
    seconds: u32,
) -> Result<Planned<'a, 'static>, Ground> {
    let (card, stamp) = check::clean_at(card, seconds)?;
    let name = name::parse(name)?;
    let characters = long_name::parse(characters)?;
    let root = card.volume.root();
    if Found::by_name(&card.volume, &name).is_taken() || long_name::is_taken(root, &characters) {
        return Err(Ground::Exists);
    }
    let long_entries = long_name::entries_for(characters.len());
    let first = root::lowest_run(root, long_entries + 1).ok_or(Ground::Rootfull)?;
    let slot = first + long_entries;
    let transaction = Transaction {
        data: Vec::new(),
        fat: FatDraft::new(card.volume.fat1()),
        group: Group {
            characters: characters.clone(),
            ..Group::stamped(Record::create(name, slot, long_entries), stamp)
        },
        root: RootChange::CreateLong {
            slot,
            name,
            characters,
            stamp,
        },
    };
    Ok(transaction.on(card))
}
