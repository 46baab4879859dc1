//! FAT16 cards with a TI-LFAT journal: safe functions over the proved library.
//!
//! A card is a window of bytes, the whole card from its boot sector on. [`Card`] changes it, [`CardView`] only reads it, and a
//! [`File`] is a file being read; a [`DateTime`] dates what is saved. [`Card::format`] makes
//! a new card of a [`Form`]. [`calls`] has the library's thirteen calls as they are, with names of any bytes; [`raw`] has them as C does.
//!
//! ```
//! use lfat_card::{Card, DateTime, LongName, Name};
//! use std::io::Read;
//!
//! # let image = reference::card_k();
//! let mut window: Vec<u8> = image;
//! let mut card = Card::new(&mut window);
//! card.recover()?;
//!
//! let name = Name::parse("ROUTE.CUT")?;
//! let at: DateTime = "2026-11-17T19:30:58".parse()?;
//! card.create(name, at)?;
//! card.append(name, b"G1 X0 Y7\n", at)?;
//!
//! let mut path = String::new();
//! card.open(name)?.read_to_string(&mut path)?;
//! assert_eq!(path, "G1 X0 Y7\n");
//! assert_eq!(card.list()?[0].to_name()?, name);
//! assert_eq!(card.list()?[0].written(), Some(at));
//!
//! card.replace(name, b"G1 X5 Y5\n", at)?;
//! assert_eq!(card.read_whole(name)?, b"G1 X5 Y5\n");
//!
//! let short = Name::parse("HULL7S~1.CUT")?;
//! card.create_long(short, &LongName::parse("Hull 7 sheer panel.cut")?, at)?;
//! assert_eq!(String::from_utf16(&card.long_name(short)?)?, "Hull 7 sheer panel.cut");
//! # Ok::<(), Box<dyn std::error::Error>>(())
//! ```
//!
//! What is stored in the window must reach the card by whole sectors and in order, or a power cut may leave something else than the
//! old file or the new one: see `include/lfat.h`.
//!
//! The library is linked from `target/staticlib` of the repository, where `.ci/build` writes it, or from the folder that
//! the environment variable `LFAT_LIB_DIR` names when this crate is built. It is for x86-64 and ELF.

#![deny(missing_docs)]

pub mod calls;
mod card;
mod date_time;
mod entry;
mod file;
mod form;
mod long_name;
mod name;
mod operation;
pub mod raw;
mod refusal;
mod view;

pub use calls::Answer;
pub use card::Card;
pub use date_time::{Date, DateTime, ParseDateTimeError};
pub use entry::{Entry, ENTRY_BYTES};
pub use file::File;
pub use form::Form;
pub use long_name::LongName;
pub use name::{printed, Name};
pub use operation::{Operation, NO_LIMIT};
pub use refusal::Refusal;
pub use view::CardView;

/// The count of a call that gives one, or its refusal.
fn count(answer: Answer) -> Result<u32, Refusal> {
    match answer {
        Answer::Done(count) | Answer::Stopped(count) => Ok(count),
        // Fits alone says no, and does not come here.
        Answer::No => Err(Refusal::Unknown(254)),
        Answer::Refused(refusal) => Err(refusal),
    }
}
