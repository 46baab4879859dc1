//! Replace: the file's bytes in new clusters; the old ones are freed in the same group.

use crate::answer::Ground;
use crate::data;
use crate::fat_draft::FatDraft;
use crate::journal::record::{Group, REPLACE};
use crate::lookup::{open_to_write, Opened};
use crate::root_change::RootChange;
use crate::transaction::{Planned, Transaction};

pub fn plan<'a, 'd>(
    card: &'a [u8],
    name: &[u8],
    data: &'d [u8],
    seconds: u32,
) -> Result<Planned<'a, 'd>, Ground> {
    let (opened, stamp) = open_to_write(card, name, seconds)?;
    let Opened { card, file, chain } = opened;
    let volume = &card.volume;
    // Ground 15, NOSPACE: old clusters are not free yet.
    let clusters = (data.len() as u64).div_ceil(u64::from(volume.geometry.cluster_bytes()));
    let new = volume.fat1().lowest_free(clusters);
    let new = new.ok_or(Ground::Nospace)?;

    let mut fat = FatDraft::new(volume.fat1());
    fat.link(None, &new);
    fat.free_after(&chain, 0);
    let first_cluster = new.first().copied().unwrap_or(0);
    // The clusters are there, so the size is below 2³¹.
    let size = data.len() as u32;
    let record = file.record(REPLACE, file.first_cluster, first_cluster, size);
    let transaction = Transaction {
        data: data::extents(volume, &new, 0, data),
        fat,
        group: Group::stamped(record, stamp),
        root: RootChange::Replace {
            slot: file.slot,
            first_cluster,
            size,
            stamp,
        },
    };
    Ok(transaction.on(card))
}
