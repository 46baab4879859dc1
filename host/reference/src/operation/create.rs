//! Create: a new slot; no cluster is touched.

use crate::answer::Ground;
use crate::check;
use crate::fat_draft::FatDraft;
use crate::journal::record::{Group, Record};
use crate::lookup::Found;
use crate::name;
use crate::root;
use crate::root_change::RootChange;
use crate::transaction::{Planned, Transaction};

pub fn plan<'a>(card: &'a [u8], name: &[u8], seconds: u32) -> Result<Planned<'a, 'static>, Ground> {
    let (card, stamp) = check::clean_at(card, seconds)?;
    let name = name::parse(name)?;
    if Found::by_name(&card.volume, &name).is_taken() {
        return Err(Ground::Exists);
    }
    let slot = root::lowest_available(card.volume.root()).ok_or(Ground::Rootfull)?;
    let transaction = Transaction {
        data: Vec::new(),
        fat: FatDraft::new(card.volume.fat1()),
        group: Group::stamped(Record::create(name, slot, 0), stamp),
        root: RootChange::Create { slot, name, stamp },
    };
    Ok(transaction.on(card))
}
