//! The calls that store, as values.

use crate::{calls, Answer, DateTime, Form, LongName, Name};

/// The limit that cuts nothing.
pub const NO_LIMIT: u32 = u32::MAX;

/// A call that stores, with what it is given. There may be more of them later.
#[derive(Clone, Copy, Debug, PartialEq, Eq)]
#[non_exhaustive]
pub enum Operation<'a> {
    /// Makes an empty file.
    Create {
        /// The new file's name.
        name: Name,
        /// When: all its dates and times.
        at: DateTime,
    },
    /// Makes an empty file with a short name and a long one.
    CreateLong {
        /// The new file's name, by which calls find it.
        name: Name,
        /// The long name, which other systems show.
        long_name: &'a LongName,
        /// When: all its dates and times.
        at: DateTime,
    },
    /// Adds bytes at the end of a file.
    Append {
        /// The file's name.
        name: Name,
        /// The bytes to add.
        data: &'a [u8],
        /// When: the time of writing, and the day of access.
        at: DateTime,
    },
    /// Saves over a file: it then has these bytes and no others.
    Replace {
        /// The file's name.
        name: Name,
        /// Its new bytes.
        data: &'a [u8],
        /// When: the time of writing, and the day of access.
        at: DateTime,
    },
    /// Shortens a file.
    Truncate {
        /// The file's name.
        name: Name,
        /// Its new size, no more than the present one.
        size: u64,
        /// When: the time of writing, and the day of access.
        at: DateTime,
    },
    /// Removes a file, with the entries of its long name, and frees its clusters.
    Delete {
        /// The file's name.
        name: Name,
    },
    /// Gives a file another name; the entries of its long name are removed.
    Rename {
        /// The present name.
        old: Name,
        /// The new one.
        new: Name,
    },
    /// Finishes what a power cut left behind, or takes it back.
    Recover,
    /// Writes an empty card over whatever is there.
    Format {
        /// The numbers of the new card.
        form: Form,
    },
}

impl Operation<'_> {
    /// Makes the call, with at most so many stores.
    pub fn run(&self, card: &mut [u8], limit: u32) -> Answer {
        match self {
            Operation::Create { name, at } => calls::create(card, name.bytes(), at.asked(), limit),
            Operation::CreateLong {
                name,
                long_name,
                at,
            } => calls::create_long(card, name.bytes(), long_name.bytes(), at.asked(), limit),
            Operation::Append { name, data, at } => {
                calls::append(card, name.bytes(), data, at.asked(), limit)
            }
            Operation::Replace { name, data, at } => {
                calls::replace(card, name.bytes(), data, at.asked(), limit)
            }
            Operation::Truncate { name, size, at } => {
                calls::truncate(card, name.bytes(), *size, at.asked(), limit)
            }
            Operation::Delete { name } => calls::delete(card, name.bytes(), limit),
            Operation::Rename { old, new } => calls::rename(card, old.bytes(), new.bytes(), limit),
            Operation::Recover => calls::recover(card, limit),
            Operation::Format { form } => {
                calls::format(card, form.total, form.per_cluster, form.log_clusters, limit)
            }
        }
    }
}
