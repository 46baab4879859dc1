//! Truncate: a smaller size; clusters past it are freed.

use crate::answer::Ground;
use crate::fat_draft::FatDraft;
use crate::journal::record::{Group, TRUNCATE};
use crate::lookup::{open_to_write, Opened};
use crate::root_change::RootChange;
use crate::transaction::{Planned, Transaction};

pub fn plan<'a>(
    card: &'a [u8],
    name: &[u8],
    size: u64,
    seconds: u32,
) -> Result<Planned<'a, 'static>, Ground> {
    let (opened, stamp) = open_to_write(card, name, seconds)?;
    let Opened { card, file, chain } = opened;
    if size > u64::from(file.size) {
        return Err(Ground::Length);
    }
    let size = size as u32;
    if size == file.size {
        return Ok(Planned { card, change: None });
    }

    let volume = &card.volume;
    let kept = size.div_ceil(volume.geometry.cluster_bytes()) as usize;
    let mut fat = FatDraft::new(volume.fat1());
    fat.free_after(&chain, kept);
    let first_freed = chain.get(kept).copied().unwrap_or(0);
    let record = file.record(TRUNCATE, file.first_cluster, first_freed, size);
    let transaction = Transaction {
        data: Vec::new(),
        fat,
        group: Group::stamped(record, stamp),
        root: RootChange::Truncate {
            slot: file.slot,
            size,
            stamp,
        },
    };
    Ok(transaction.on(card))
}
