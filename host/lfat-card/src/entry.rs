//! Entries of the root directory.

use crate::{name, Date, DateTime, Name, Refusal};

/// The bytes of an entry.
pub const ENTRY_BYTES: usize = 32;

const READ_ONLY: u8 = 0x01;
const DIRECTORY: u8 = 0x10;

/// One file or directory, with its bytes as on the card.
#[derive(Clone, Copy, Debug, PartialEq, Eq)]
pub struct Entry(pub [u8; ENTRY_BYTES]);

impl Entry {
    /// The name as text, `?` for what is no plain character. It need not keep the name rule: other systems write other names.
    pub fn name(&self) -> String {
        name::printed(self.name_bytes())
    }

    /// The name, to be given to a call; refused if it breaks the name rule, as every call would.
    pub fn to_name(&self) -> Result<Name, Refusal> {
        Name::from_bytes(self.name_bytes())
    }

    /// The name's 11 bytes.
    pub fn name_bytes(&self) -> &[u8] {
        &self.0[..11]
    }

    /// The attribute bits.
    pub fn attributes(&self) -> u8 {
        self.0[11]
    }

    /// Whether it is a directory.
    pub fn is_directory(&self) -> bool {
        self.attributes() & DIRECTORY != 0
    }

    /// Whether it is marked read-only; a file that is can be read, and is neither changed, renamed nor removed.
    pub fn is_read_only(&self) -> bool {
        self.attributes() & READ_ONLY != 0
    }

    /// When it was created; `None` where the entry has no date or time there. Files made by other systems may have odd seconds.
    pub fn created(&self) -> Option<DateTime> {
        let created = DateTime::from_fat(self.word(16), self.word(14))?;
        Some(created.with_hundredths(self.0[13]))
    }

    /// When it was last written; `None` where the entry has no date or time there.
    pub fn written(&self) -> Option<DateTime> {
        DateTime::from_fat(self.word(24), self.word(22))
    }

    /// The day on which it was last used; `None` where the entry has no date there. Reading a file sets none.
    pub fn accessed(&self) -> Option<Date> {
        Date::from_fat(self.word(18))
    }

    /// The number of its first cluster, 0 if it has none.
    pub fn first_cluster(&self) -> u16 {
        self.word(26)
    }

    fn word(&self, at: usize) -> u16 {
        u16::from_le_bytes([self.0[at], self.0[at + 1]])
    }

    /// Its size in bytes.
    pub fn size(&self) -> u32 {
        u32::from_le_bytes([self.0[28], self.0[29], self.0[30], self.0[31]])
    }
}
