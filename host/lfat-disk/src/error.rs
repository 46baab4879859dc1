//! Why a call on a disk did not end well.

use lfat_card::Refusal;
use std::fmt;
use std::io;

/// What went wrong.
#[derive(Debug)]
#[non_exhaustive]
pub enum Error {
    /// The library refused. Nothing was written.
    Refused(Refusal),
    /// The limit cut the stores short, after so many.
    Stopped(u32),
    /// The disk could not be opened or read. Nothing was written.
    Disk(io::Error),
    /// A write or a flush failed in mid-save: the card is as after a power cut.
    Cut(io::Error),
    /// Another program has the card, or it is mounted.
    InUse,
    /// There is no such partition, or none that holds a card.
    Partition(String),
    /// The list of stores does not agree with what the library did. Nothing was written.
    Disagree,
    /// An earlier call ended in mid-save; the card has to be opened anew and recovered, or formatted again.
    Ended,
    /// The card was opened for reading only.
    ReadOnly,
}

impl Error {
    /// The code of the C interface: the library's own, or one above 255.
    pub fn code(&self) -> u32 {
        match self {
            Error::Refused(refusal) => refusal.number(),
            Error::Stopped(_) => 255,
            Error::Disk(_) => 256,
            Error::Cut(_) => 257,
            Error::InUse => 258,
            Error::Partition(_) => 259,
            Error::Disagree => 260,
            Error::Ended => 261,
            Error::ReadOnly => 262,
        }
    }
}

impl From<Refusal> for Error {
    fn from(refusal: Refusal) -> Error {
        Error::Refused(refusal)
    }
}

impl fmt::Display for Error {
    fn fmt(&self, f: &mut fmt::Formatter<'_>) -> fmt::Result {
        match self {
            Error::Refused(refusal) => write!(f, "{refusal}"),
            Error::Stopped(made) => write!(f, "STOPPED after {made} stores"),
            Error::Disk(error) => write!(f, "{error}"),
            Error::Cut(error) => write!(
                f,
                "{error}; the card is cut in mid-save: recover it, or if it was being formatted, format it again"
            ),
            Error::InUse => write!(f, "in use by another program, or mounted"),
            Error::Partition(what) => write!(f, "{what}"),
            Error::Disagree => write!(
                f,
                "the list of stores does not agree with the library's card; nothing was written"
            ),
            Error::Ended => write!(
                f,
                "an earlier call ended in mid-save; open the card anew and recover it, or format it again"
            ),
            Error::ReadOnly => write!(f, "the card was opened for reading only"),
        }
    }
}

impl std::error::Error for Error {}
