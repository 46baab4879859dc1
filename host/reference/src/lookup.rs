//! Finding a file by its name: grounds 8 to 10, 13 and 16.

use crate::answer::Ground;
use crate::calendar::Stamp;
use crate::chain;
use crate::check::{self, Mounted};
use crate::journal::Record;
use crate::name::{self, Name};
use crate::root;
use crate::volume::Volume;

/// What a name means on a card.
#[derive(Clone, Debug)]
pub enum Found {
    Absent,
    Directory,
    /// A file with its slot, and whether it is marked read-only.
    File {
        file: File,
        is_locked: bool,
    },
}

impl Found {
    /// The lowest slot that bears the name decides.
    pub fn by_name(volume: &Volume, name: &Name) -> Found {
        let Some(index) = root::find(volume.root(), name) else {
            return Found::Absent;
        };
        let slot = root::slot(volume.root(), index);
        if slot.is_directory() {
            return Found::Directory;
        }
        Found::File {
            file: File::in_slot(volume, index),
            is_locked: slot.is_locked(),
        }
    }

    /// A file or a directory has the name.
    pub fn is_taken(&self) -> bool {
        !matches!(self, Found::Absent)
    }

    /// Grounds 9 and 10, ABSENT, DIRECTORY: a file to be read.
    pub fn readable(self) -> Result<File, Ground> {
        match self {
            Found::Absent => Err(Ground::Absent),
            Found::Directory => Err(Ground::Directory),
            Found::File { file, .. } => Ok(file),
        }
    }

    /// Grounds 9, 10 and 16, ABSENT, DIRECTORY, LOCKED: a file to be changed.
    pub fn writable(self) -> Result<File, Ground> {
        match self {
            Found::File {
                is_locked: true, ..
            } => Err(Ground::Locked),
            found => found.readable(),
        }
    }
}

/// A file in the root directory.
#[derive(Clone, Debug)]
pub struct File {
    pub name: Name,
    pub slot: usize,
    pub attributes: u8,
    pub first_cluster: u16,
    pub size: u32,
}

impl File {
    pub fn in_slot(volume: &Volume, index: usize) -> File {
        let slot = root::slot(volume.root(), index);
        File {
            name: slot.name(),
            slot: index,
            attributes: slot.attributes(),
            first_cluster: slot.first_cluster(),
            size: slot.size(),
        }
    }

    /// A log record that names the file.
    pub fn record(&self, operation: u8, first_or_last: u16, dir_cluster: u16, size: u32) -> Record {
        Record {
            name: self.name,
            attributes: self.attributes,
            long_entries: 0,
            operation,
            slot: self.slot,
            first_or_last,
            dir_cluster,
            size,
        }
    }

    /// The same for an operation that ends the slot: its long entries go along.
    pub fn ending_record(&self, operation: u8, long_entries: usize) -> Record {
        Record {
            long_entries,
            ..self.record(operation, self.first_cluster, 0, self.size)
        }
    }

    /// Ground 13, CHAIN: the file's clusters in order.
    pub fn chain(&self, volume: &Volume) -> Result<Vec<u16>, Ground> {
        let cluster_bytes = volume.geometry.cluster_bytes();
        chain::walk(&volume.fat1(), self.first_cluster, self.size, cluster_bytes)
            .ok_or(Ground::Chain)
    }
}

/// A file on a clean card, with its clusters in order.
pub struct Opened<'a> {
    pub card: Mounted<'a>,
    pub file: File,
    pub chain: Vec<u16>,
}

/// A file to be read: grounds 1 to 10 and 13.
pub fn open_to_read<'a>(card: &'a [u8], name: &[u8]) -> Result<Opened<'a>, Ground> {
    open(check::clean(card)?, name, Found::readable)
}

/// A file to be removed: grounds 1 to 10, 16 and 13.
pub fn open_to_remove<'a>(card: &'a [u8], name: &[u8]) -> Result<Opened<'a>, Ground> {
    open(check::clean(card)?, name, Found::writable)
}

/// A file to be changed, with its new stamp: grounds 1 to 7, 18, 8 to 10, 16 and 13.
pub fn open_to_write<'a>(
    card: &'a [u8],
    name: &[u8],
    seconds: u32,
) -> Result<(Opened<'a>, Stamp), Ground> {
    let (card, stamp) = check::clean_at(card, seconds)?;
    Ok((open(card, name, Found::writable)?, stamp))
}

fn open<'a>(
    card: Mounted<'a>,
    name: &[u8],
    granted: fn(Found) -> Result<File, Ground>,
) -> Result<Opened<'a>, Ground> {
    let file = granted(Found::by_name(&card.volume, &name::parse(name)?))?;
    let chain = file.chain(&card.volume)?;
    Ok(Opened { card, file, chain })
}
