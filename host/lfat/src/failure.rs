//! Why a command did not end well, in one line, and the exit status that says so.

use lfat_card::Refusal;
use std::fmt;

#[derive(Debug)]
pub enum Failure {
    /// The command line is not one of those that are known.
    Usage(String),
    /// The library refused; with a sentence on what to do.
    Refused(Refusal, String),
    /// The limit cut the stores short, after so many; with the command that goes on from there.
    Stopped(u32, &'static str),
    /// The answer to the question was no, and has been printed.
    No,
    /// More than one file has the long name that was given.
    Several(String),
    /// What is to be formatted holds something that would be lost.
    Holds(String),
    /// The rack found a card that recovery did not bring back.
    Mismatch(String),
    /// A file or the card could not be opened, read or written. The card is as it was.
    Host(String),
    /// The list of stores and the library do not agree. Nothing was written.
    Disagree,
    /// The disk failed in mid-save.
    Cut(String),
}

impl Failure {
    pub fn status(&self) -> u8 {
        match self {
            Failure::Refused(..)
            | Failure::Stopped(..)
            | Failure::No
            | Failure::Several(_)
            | Failure::Holds(_)
            | Failure::Mismatch(_) => 1,
            Failure::Usage(_) => 2,
            Failure::Host(_) => 3,
            Failure::Disagree => 4,
            Failure::Cut(_) => 5,
        }
    }

    /// A file that could not be used.
    pub fn host(what: impl fmt::Display, error: impl fmt::Display) -> Failure {
        Failure::Host(format!("{what}: {error}"))
    }
}

impl From<Refusal> for Failure {
    fn from(refusal: Refusal) -> Failure {
        Failure::Refused(refusal, advice(refusal).to_string())
    }
}

/// What to do about a refusal.
fn advice(refusal: Refusal) -> &'static str {
    match refusal {
        Refusal::Short => "This is no FAT16 card. 'lfat format NEW.IMG' makes one to try things on.",
        Refusal::Boot => {
            "This is no FAT16 card (FAT12, FAT32 and exFAT are not covered), or a format of it was cut. 'lfat format' makes it an \
             empty card, and all on it is lost."
        }
        Refusal::Window => "The image or partition ends before the card does. Was it copied whole?",
        Refusal::Logarea => {
            "It was not prepared with a log, so it cannot be used safely. Copy the files off with any FAT program; then \
             'lfat format --yes' makes it an empty card with a log, and 'lfat put' puts them back."
        }
        Refusal::Root => {
            "The root directory is damaged: 'fsck.fat -n' says more. Copy the files off with any FAT program; then \
             'lfat format --yes' makes it an empty card, and 'lfat put' puts them back."
        }
        Refusal::Record => {
            "If the card was cut before lfat was updated to one that dates files, recover it with the lfat of then. Else the log is \
             damaged, so recovery cannot tell what to finish; 'lfat log' shows it. Copy the files off with any FAT program; then \
             'lfat format --yes' makes it an empty card, and 'lfat put' puts them back."
        }
        Refusal::Unclean => "A save was cut short. Run 'lfat recover' first.",
        Refusal::Size => "'lfat format --help' says which numbers there can be.",
        Refusal::Clock => "Give the time as --at 2026-11-17T19:30:58.",
        Refusal::Name => {
            "A name has 1 to 8 characters, then perhaps a dot and 1 to 3 more, as ROUTE.CUT: \
             capital letters, digits and ! # $ % & ' ( ) - @ ^ _ ` { } ~"
        }
        Refusal::Absent => "'lfat ls' shows the names that there are.",
        Refusal::Directory => "Only files in the root directory are covered; any FAT program opens the directory.",
        Refusal::Locked => {
            "Nothing was written. Clear the mark first: on Windows in the file's properties or with 'attrib -r', elsewhere with \
             mattrib -r of mtools."
        }
        Refusal::Exists => "'lfat put --replace' saves over a file, 'lfat append' adds to it, 'lfat rm' removes it.",
        Refusal::Longname => "'lfat put --help' says more.",
        Refusal::Rootfull => "Remove a file first: 'lfat rm'. A long name needs a slot for every 13 characters, and one more, in a row.",
        Refusal::Length => "'lfat ls' shows the sizes; truncate only shortens.",
        Refusal::Nospace => "'lfat info' shows the free clusters; 'lfat rm' frees some.",
        // CHAIN, and grounds to come.
        _ => "Its bytes are not known, so it is neither read nor changed; 'lfat mv' can give it another name, 'fsck.fat -n' says more.",
    }
}

impl fmt::Display for Failure {
    fn fmt(&self, f: &mut fmt::Formatter<'_>) -> fmt::Result {
        match self {
            Failure::Usage(what) => write!(f, "{what}"),
            Failure::Refused(refusal, advice) => write!(f, "{refusal}. {advice}"),
            Failure::Stopped(made, next) => {
                write!(f, "STOPPED after {made} stores, as asked. Run 'lfat {next}' next.")
            }
            Failure::Holds(what) => write!(f, "{what}: formatting loses all of it. Give --yes if that is meant."),
            Failure::No => write!(f, "no"),
            Failure::Several(what) | Failure::Mismatch(what) | Failure::Host(what) | Failure::Cut(what) => {
                write!(f, "{what}")
            }
            Failure::Disagree => write!(
                f,
                "DISAGREE: the list of stores and the library's card are not the same. Nothing was written; please report this."
            ),
        }
    }
}

impl std::error::Error for Failure {}
