//! Entries of the root directory, with the slots that they stand in.

use crate::layout::get32;
use lfat_card::{printed, Date, DateTime, Name};

/// The bytes of an entry.
pub const ENTRY: usize = 32;

const READ_ONLY: u8 = 0x01;
const DIRECTORY: u8 = 0x10;

/// One file or directory.
#[derive(Clone, Copy, Debug, PartialEq, Eq)]
pub struct Entry {
    /// Its slot, from 0 on.
    pub slot: usize,
    /// Its bytes as on the card.
    pub bytes: [u8; ENTRY],
}

impl Entry {
    /// The name as text, `?` for what is no plain character.
    pub fn name(&self) -> String {
        printed(self.name_bytes())
    }

    /// The 8 and 3 bytes of the name.
    pub fn name_bytes(&self) -> &[u8] {
        &self.bytes[..11]
    }

    /// A name that keeps the rule for names; others are reached by their slot only.
    pub fn has_name(&self) -> bool {
        Name::parse(&self.name()).is_ok_and(|name| name.bytes() == self.name_bytes())
    }

    /// The byte of attributes.
    pub fn attributes(&self) -> u8 {
        self.bytes[11]
    }

    /// Whether it is a directory.
    pub fn is_directory(&self) -> bool {
        self.attributes() & DIRECTORY != 0
    }

    /// Whether it is marked read-only.
    pub fn is_read_only(&self) -> bool {
        self.attributes() & READ_ONLY != 0
    }

    /// When it was created, if it has a date and a time there.
    pub fn created(&self) -> Option<DateTime> {
        lfat_card::Entry(self.bytes).created()
    }

    /// When it was last written, if it has a date and a time there.
    pub fn written(&self) -> Option<DateTime> {
        lfat_card::Entry(self.bytes).written()
    }

    /// The day on which it was last used, if it has a date there.
    pub fn accessed(&self) -> Option<Date> {
        lfat_card::Entry(self.bytes).accessed()
    }

    /// The bytes of the file.
    pub fn size(&self) -> usize {
        get32(&self.bytes, 28)
    }
}
