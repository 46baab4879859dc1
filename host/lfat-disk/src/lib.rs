//! Files on FAT16 cards with a TI-LFAT journal, on real disks: images, block devices and their partitions.
//!
//! A call is made by the proved library on the card in memory; the stores that it makes there are then written to the disk in an
//! order that keeps the library's promise: a power cut at any moment, of the card or of this machine, leaves each file as it was
//! or as it was to be, once the card is recovered.
//!
//! ```no_run
//! use lfat_disk::{clock, Access, DiskCard};
//!
//! let seconds = clock::now()?.seconds()?;
//! let mut card = DiskCard::open("/dev/sdX".as_ref(), Access::Write)?;
//! card.recover()?;
//! card.create(b"ROUTE   CUT", seconds)?;
//! card.append(b"ROUTE   CUT", b"G0\n", seconds)?;
//! card.replace(b"ROUTE   CUT", b"G1 X9\n", seconds)?;
//! # Ok::<(), Box<dyn std::error::Error>>(())
//! ```
//!
//! An empty card as large as the disk, over whatever is there:
//!
//! ```no_run
//! use lfat_disk::{Access, DiskCard, Form};
//!
//! let mut card = DiskCard::open("/dev/sdX".as_ref(), Access::Write)?;
//! let sectors = u32::try_from(card.sectors()).unwrap_or(u32::MAX);
//! let form = Form::for_sectors(sectors).ok_or("no FAT16 card has this size")?;
//! card.format(form)?;
//! # Ok::<(), Box<dyn std::error::Error>>(())
//! ```
//!
//! Where to look:
//! - `card`: the calls; `card/format.rs`: making a new card;
//! - `lists`: the list of stores of a call, held against the library; `writer`: writing it by segments;
//! - `disk`, `partition`: images, block devices, partitions;
//! - `window`, `memory`, `areas`: the card in memory, of which only a part is read;
//! - `layout`, `volume`, `entry`, `long_name`: looking into a card;
//! - `clock`: the time of this machine, by which files are dated;
//! - `c`: the C interface, `include/lfat_disk.h`.

#![deny(missing_docs)]

pub mod areas;
mod c;
mod card;
pub mod clock;
pub mod disk;
pub mod entry;
mod error;
pub mod layout;
pub mod lists;
pub mod long_name;
pub mod memory;
pub mod partition;
mod slot;
pub mod sys;
pub mod volume;
pub mod window;
pub mod writer;

pub use card::{formatting, DiskCard, Opening};
pub use disk::{Access, Disk, Wait};
pub use entry::Entry;
pub use error::Error;
pub use lfat_card::Form;
pub use long_name::{InUse, Named, RemovedName};
pub use reference::{Extent, Operation, Program, Segment};
