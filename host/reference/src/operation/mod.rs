//! The writing calls.

mod append;
mod create;
mod create_long;
mod delete;
mod format;
mod rename;
mod replace;
mod truncate;

use crate::answer::{Answer, Ground};
use crate::program::Program;
use crate::recovery;
use crate::store::{self, Store};
use crate::transaction::Planned;
use format::FreshCard;

/// A writing call with what it was given. Seconds are those since 1980 began.
#[derive(Clone, Copy, Debug, PartialEq, Eq)]
pub enum Operation<'a> {
    Create {
        name: &'a [u8],
        seconds: u32,
    },
    /// The characters as bytes, two each.
    CreateLong {
        name: &'a [u8],
        characters: &'a [u8],
        seconds: u32,
    },
    Append {
        name: &'a [u8],
        data: &'a [u8],
        seconds: u32,
    },
    Replace {
        name: &'a [u8],
        data: &'a [u8],
        seconds: u32,
    },
    Truncate {
        name: &'a [u8],
        size: u64,
        seconds: u32,
    },
    Delete {
        name: &'a [u8],
    },
    Rename {
        old: &'a [u8],
        new: &'a [u8],
    },
    Recover,
    /// An empty card of so many sectors.
    Format {
        total: u32,
        per_cluster: u32,
        log_clusters: u32,
    },
}

/// The call's plan, if it is one that the log holds.
fn planned<'a, 'd>(
    card: &'a [u8],
    operation: &Operation<'d>,
) -> Option<Result<Planned<'a, 'd>, Ground>> {
    Some(match *operation {
        Operation::Create { name, seconds } => create::plan(card, name, seconds),
        Operation::CreateLong {
            name,
            characters,
            seconds,
        } => create_long::plan(card, name, characters, seconds),
        Operation::Append {
            name,
            data,
            seconds,
        } => append::plan(card, name, data, seconds),
        Operation::Replace {
            name,
            data,
            seconds,
        } => replace::plan(card, name, data, seconds),
        Operation::Truncate {
            name,
            size,
            seconds,
        } => truncate::plan(card, name, size, seconds),
        Operation::Delete { name } => delete::plan(card, name),
        Operation::Rename { old, new } => rename::plan(card, old, new),
        Operation::Recover | Operation::Format { .. } => return None,
    })
}

/// The card that a format is to make.
fn fresh(card: &[u8], operation: &Operation) -> Option<Result<FreshCard, Ground>> {
    match *operation {
        Operation::Format {
            total,
            per_cluster,
            log_clusters,
        } => Some(format::plan(card, total, per_cluster, log_clusters)),
        _ => None,
    }
}

/// The stores that the call would make on the card as it stands, given a large
/// enough limit.
pub fn plan(card: &[u8], operation: &Operation) -> Result<Vec<Store>, Ground> {
    match (planned(card, operation), fresh(card, operation)) {
        (Some(planned), _) => planned.map(Planned::stores),
        (_, Some(fresh)) => fresh.map(|fresh| fresh.stores()),
        _ => recovery::plan(card),
    }
}

/// The same stores in segments. Bytes of the caller's data are borrowed.
pub fn program<'d>(card: &[u8], operation: &Operation<'d>) -> Result<Program<'d>, Ground> {
    match (planned(card, operation), fresh(card, operation)) {
        (Some(planned), _) => planned.map(Planned::program),
        (_, Some(fresh)) => fresh.map(|fresh| fresh.program()),
        _ => recovery::program(card),
    }
}

/// Makes the first stores of the call's list, up to the limit.
pub fn run(card: &mut [u8], operation: &Operation, limit: u32) -> Answer {
    match plan(card, operation) {
        Ok(stores) => store::make(card, &stores, limit),
        Err(ground) => Answer::Refused(ground),
    }
}

/// Makes an empty file.
pub fn create(card: &mut [u8], name: &[u8], seconds: u32, limit: u32) -> Answer {
    run(card, &Operation::Create { name, seconds }, limit)
}

/// Makes an empty file with a short name and a long one, of 16-bit characters as bytes.
pub fn create_long(
    card: &mut [u8],
    name: &[u8],
    characters: &[u8],
    seconds: u32,
    limit: u32,
) -> Answer {
    run(
        card,
        &Operation::CreateLong {
            name,
            characters,
            seconds,
        },
        limit,
    )
}

/// Adds bytes at the end of a file.
pub fn append(card: &mut [u8], name: &[u8], data: &[u8], seconds: u32, limit: u32) -> Answer {
    run(
        card,
        &Operation::Append {
            name,
            data,
            seconds,
        },
        limit,
    )
}

/// Saves over a file: it has these bytes and no others.
pub fn replace(card: &mut [u8], name: &[u8], data: &[u8], seconds: u32, limit: u32) -> Answer {
    run(
        card,
        &Operation::Replace {
            name,
            data,
            seconds,
        },
        limit,
    )
}

/// Shortens a file.
pub fn truncate(card: &mut [u8], name: &[u8], size: u64, seconds: u32, limit: u32) -> Answer {
    run(
        card,
        &Operation::Truncate {
            name,
            size,
            seconds,
        },
        limit,
    )
}

/// Removes a file with its long entries and frees its clusters.
pub fn delete(card: &mut [u8], name: &[u8], limit: u32) -> Answer {
    run(card, &Operation::Delete { name }, limit)
}

/// Moves a file to a new slot with a new name, without its long entries.
pub fn rename(card: &mut [u8], old: &[u8], new: &[u8], limit: u32) -> Answer {
    run(card, &Operation::Rename { old, new }, limit)
}

/// Finishes or undoes what a power cut left behind.
pub fn recover(card: &mut [u8], limit: u32) -> Answer {
    run(card, &Operation::Recover, limit)
}

/// Writes an empty card, with its log in the clusters from 2 on.
pub fn format(
    card: &mut [u8],
    total: u32,
    per_cluster: u32,
    log_clusters: u32,
    limit: u32,
) -> Answer {
    run(
        card,
        &Operation::Format {
            total,
            per_cluster,
            log_clusters,
        },
        limit,
    )
}
