//! Why a call was refused.

use std::error::Error;
use std::fmt;
use std::io::{self, ErrorKind};

/// The grounds on which a call refuses, in checking order. There may be more of them later. Numbers stay as they were first
/// given, so those of LOCKED, LONGNAME, CLOCK and SIZE are the highest.
#[derive(Clone, Copy, Debug, PartialEq, Eq)]
#[non_exhaustive]
pub enum Refusal {
    /// No card has this form: format asks so first, then for the window, and nothing else.
    Size,
    /// The window has fewer than 512 bytes, less than a boot sector.
    Short,
    /// The boot sector is not that of a FAT16 card that is covered.
    Boot,
    /// The window has fewer bytes than the card.
    Window,
    /// FAT1 has no log, more than one, or one of over 128 sectors.
    Logarea,
    /// A root slot after the first unused one is in use.
    Root,
    /// The pending log records are not one group; nor is one that is pending from before groups had dates.
    Record,
    /// A log record is pending or the FATs differ: recover first.
    Unclean,
    /// The time is before 1980 or after 2107.
    Clock,
    /// The name breaks the rule for names of 8 and 3 characters.
    Name,
    /// The long name has no characters, more than 208 or a forbidden one.
    Longname,
    /// No file has the name.
    Absent,
    /// The name is that of a directory.
    Directory,
    /// The file is marked read-only, so it is not changed.
    Locked,
    /// The name is taken.
    Exists,
    /// The root directory has no free slot, or for a long name no long enough run of them.
    Rootfull,
    /// The file's clusters do not fit its size.
    Chain,
    /// The file is shorter than the size asked for.
    Length,
    /// The card has too few free clusters.
    Nospace,
    /// A ground with a number that is not known here, of a newer library.
    Unknown(u32),
}

/// The refusals by number, from 1 on.
const BY_NUMBER: [Refusal; 19] = [
    Refusal::Short,
    Refusal::Boot,
    Refusal::Window,
    Refusal::Logarea,
    Refusal::Root,
    Refusal::Record,
    Refusal::Unclean,
    Refusal::Name,
    Refusal::Absent,
    Refusal::Directory,
    Refusal::Exists,
    Refusal::Rootfull,
    Refusal::Chain,
    Refusal::Length,
    Refusal::Nospace,
    Refusal::Locked,
    Refusal::Longname,
    Refusal::Clock,
    Refusal::Size,
];

impl Refusal {
    /// The refusal with a ground's number, from 1 on, if it is known here.
    pub fn with_number(number: u32) -> Option<Refusal> {
        let index = (number as usize).checked_sub(1)?;
        BY_NUMBER.get(index).copied()
    }

    /// The ground's number.
    pub fn number(self) -> u32 {
        self.ground().0
    }

    /// The ground's name, as the requirements have it; `unknown` for one that is not known here.
    pub fn name(self) -> &'static str {
        self.ground().1
    }

    /// What is wrong, in a few words.
    pub fn meaning(self) -> &'static str {
        self.ground().2
    }

    /// Number, name and meaning.
    fn ground(self) -> (u32, &'static str, &'static str) {
        match self {
            Refusal::Size => (
                19,
                "SIZE",
                "no card has this total, these sectors per cluster and this log",
            ),
            Refusal::Short => (
                1,
                "SHORT",
                "there are fewer than 512 bytes, less than a boot sector",
            ),
            Refusal::Boot => (
                2,
                "BOOT",
                "the boot sector is not that of a FAT16 card that is covered",
            ),
            Refusal::Window => (3, "WINDOW", "there are fewer bytes than the card has"),
            Refusal::Logarea => (
                4,
                "LOGAREA",
                "FAT1 has no log, more than one, or one of over 128 sectors",
            ),
            Refusal::Root => (
                5,
                "ROOT",
                "a root slot after the first unused one is in use",
            ),
            Refusal::Record => (6, "RECORD", "the pending log records are not one group"),
            Refusal::Unclean => (7, "UNCLEAN", "a log record is pending or the FATs differ"),
            Refusal::Clock => (
                18,
                "CLOCK",
                "the time is not within 1980 to 2107, the years that a card can date",
            ),
            Refusal::Name => (
                8,
                "NAME",
                "the name breaks the rule for names of 8 and 3 characters",
            ),
            Refusal::Longname => (
                17,
                "LONGNAME",
                "a long name has 1 to 208 characters, none below 32 and none of \" * / : < > ? \\ |",
            ),
            Refusal::Absent => (9, "ABSENT", "no file has the name"),
            Refusal::Directory => (10, "DIRECTORY", "the name is that of a directory"),
            Refusal::Locked => (16, "LOCKED", "the file is marked read-only"),
            Refusal::Exists => (11, "EXISTS", "the name is taken"),
            Refusal::Rootfull => (
                12,
                "ROOTFULL",
                "the root directory has no free slot, or no long enough run of them",
            ),
            Refusal::Chain => (13, "CHAIN", "the file's clusters do not fit its size"),
            Refusal::Length => (14, "LENGTH", "the file is shorter than the size asked for"),
            Refusal::Nospace => (15, "NOSPACE", "the card has too few free clusters"),
            Refusal::Unknown(number) => (number, "unknown", "a ground of a newer library"),
        }
    }
}

impl fmt::Display for Refusal {
    fn fmt(&self, f: &mut fmt::Formatter<'_>) -> fmt::Result {
        write!(f, "{}: {}", self.name(), self.meaning())
    }
}

impl Error for Refusal {}

/// For a file being read, and for callers whose own errors are those of input and output.
impl From<Refusal> for io::Error {
    fn from(refusal: Refusal) -> io::Error {
        let kind = match refusal {
            Refusal::Size
            | Refusal::Clock
            | Refusal::Name
            | Refusal::Longname
            | Refusal::Length => ErrorKind::InvalidInput,
            Refusal::Absent => ErrorKind::NotFound,
            Refusal::Directory => ErrorKind::IsADirectory,
            Refusal::Locked => ErrorKind::PermissionDenied,
            Refusal::Exists => ErrorKind::AlreadyExists,
            Refusal::Rootfull | Refusal::Nospace => ErrorKind::StorageFull,
            _ => ErrorKind::InvalidData,
        };
        io::Error::new(kind, refusal)
    }
}
