//! A FAT16 writer that keeps a TI-LFAT journal on the card.
//!
//! This crate is written from the requirements alone, in plain Rust. It serves
//! as an oracle for tests and as the baseline for benchmarks. A card is a slice
//! of bytes; every writing call first fixes its whole list of sector stores
//! from the card as it stands, then makes the first `limit` of them.
//!
//! Where to look:
//! - `check`: grounds 1 to 7, which judge the card, and 18, which judges the clock;
//! - `calendar`: the dates and times of a number of seconds;
//! - `lookup`: grounds 8 to 10, 13 and 16, which judge a name and its file;
//! - `long_entries`: the entries of a long name that go with its slot;
//! - `long_name`: its characters, written and read;
//! - `operation`: the seven writing operations that the log holds, and format;
//! - `data`: the sectors that get new bytes, in append and replace;
//! - `transaction`, `program`: the order of stores, as a list and in segments;
//! - `recovery`: redo of a pending group, undo of anything else;
//! - `reading`: read, list, fits and the reading of long names;
//! - `listing`: the text of the log listing program;
//! - `builder`, `inspect`: making cards for tests and looking into them.

#![forbid(unsafe_code)]

mod answer;
mod builder;
mod bytes;
mod calendar;
mod chain;
mod check;
mod data;
mod fat;
mod fat_draft;
mod geometry;
mod inspect;
mod journal;
mod listing;
mod long_entries;
mod long_name;
mod lookup;
mod name;
mod operation;
mod program;
mod reading;
mod recovery;
mod root;
mod root_change;
mod store;
mod transaction;
mod volume;

pub use answer::{Answer, Ground};
pub use builder::{card_k, CardSpec};
pub use calendar::{stamp, Stamp};
pub use geometry::Geometry;
pub use inspect::{file_bytes, file_chain, free_clusters, is_sound};
pub use listing::log_listing;
pub use long_entries::checksum;
pub use operation::{
    append, create, create_long, delete, format, plan, program, recover, rename, replace, run,
    truncate, Operation,
};
pub use program::{Extent, Program, Segment};
pub use reading::{fits, list, long_name, read};
pub use store::{Sector, Store, SECTOR_BYTES};
