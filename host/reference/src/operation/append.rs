//! Append: new bytes in the last cluster and in new ones.

use crate::answer::Ground;
use crate::data;
use crate::fat_draft::FatDraft;
use crate::journal::record::{Group, UPDATE};
use crate::lookup::{open_to_write, File, Opened};
use crate::root_change::RootChange;
use crate::transaction::{Planned, Transaction};
use crate::volume::Volume;

pub fn plan<'a, 'd>(
    card: &'a [u8],
    name: &[u8],
    data: &'d [u8],
    seconds: u32,
) -> Result<Planned<'a, 'd>, Ground> {
    let (opened, stamp) = open_to_write(card, name, seconds)?;
    let Opened {
        card,
        file,
        mut chain,
    } = opened;
    let volume = &card.volume;
    let new = new_clusters(volume, &file, chain.len(), data.len())?;
    if data.is_empty() {
        return Ok(Planned { card, change: None });
    }

    let old_last = chain.last().copied();
    let mut fat = FatDraft::new(volume.fat1());
    fat.link(old_last, &new);
    let dir_cluster = new.first().copied().unwrap_or(0);
    // The clusters are there, so the size is below 2³¹.
    let size = file.size + data.len() as u32;
    let root = RootChange::Update {
        slot: file.slot,
        size,
        first_cluster: old_last.is_none().then_some(dir_cluster),
        stamp,
    };
    let record = file.record(UPDATE, old_last.unwrap_or(0), dir_cluster, size);
    chain.extend(new);
    let transaction = Transaction {
        data: data::extents(volume, &chain, file.size as usize, data),
        fat,
        group: Group::stamped(record, stamp),
        root,
    };
    Ok(transaction.on(card))
}

/// Ground 15, NOSPACE: the lowest free clusters, as many as the new bytes need.
fn new_clusters(
    volume: &Volume,
    file: &File,
    present: usize,
    added: usize,
) -> Result<Vec<u16>, Ground> {
    let size = u64::from(file.size) + added as u64;
    let clusters = size.div_ceil(u64::from(volume.geometry.cluster_bytes()));
    volume
        .fat1()
        .lowest_free(clusters - present as u64)
        .ok_or(Ground::Nospace)
}
