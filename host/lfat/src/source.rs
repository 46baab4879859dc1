//! The bytes of a file of this machine that go to a card.
//!
//! A large file is mapped, not read: it takes no memory of its own. What comes through a pipe goes to a file without a name first,
//! since its length has to be known. Neither is longer than what a card could hold.

use crate::failure::Failure;
use crate::progress::Progress;
use crate::target::Target;
use lfat_disk::sys::{self, Mapping};
use std::ffi::OsStr;
use std::fs::File;
use std::io::{self, Read, Write};
use std::path::Path;

/// Files up to this length are read.
const SMALL: u64 = 1 << 20;

pub enum Source {
    Read(Vec<u8>),
    Mapped(Mapping),
}

impl Source {
    /// Opens a file; `-` is standard input. Of one that is longer than the most bytes, one more is taken: the library refuses it.
    pub fn open(path: &OsStr, most: usize, card: &Target) -> Result<Source, Failure> {
        let most = most as u64 + 1;
        let failed = |error| Failure::host(path.display(), error);
        if path == "-" {
            return spooled(io::stdin().lock(), most)
                .map_err(|error| Failure::host("standard input", error));
        }
        card.check_other(Path::new(path), "FILE")?;
        let file = File::open(path).map_err(failed)?;
        let about = file.metadata().map_err(failed)?;
        if !about.is_file() {
            return spooled(file, most).map_err(failed);
        }
        match about.len() {
            length if length > SMALL => mapped(&file, length.min(most)).map_err(failed),
            _ => read(file, most).map_err(failed),
        }
    }

    pub fn bytes(&self) -> &[u8] {
        match self {
            Source::Read(bytes) => bytes,
            Source::Mapped(mapping) => mapping.bytes(),
        }
    }
}

fn read(file: impl Read, most: u64) -> io::Result<Source> {
    let mut bytes = Vec::new();
    file.take(most).read_to_end(&mut bytes)?;
    Ok(Source::Read(bytes))
}

fn mapped(file: &File, length: u64) -> io::Result<Source> {
    Mapping::new(file, length as usize, false).map(Source::Mapped)
}

/// Copies what comes into a file without a name, and maps that.
fn spooled(input: impl Read, most: u64) -> io::Result<Source> {
    let mut start = Vec::new();
    let mut input = input.take(most);
    (&mut input).take(SMALL).read_to_end(&mut start)?;
    if (start.len() as u64) < SMALL {
        return Ok(Source::Read(start));
    }
    let room = || {
        io::Error::new(
            io::ErrorKind::StorageFull,
            "no room for it in TMPDIR or /var/tmp",
        )
    };
    let mut file = sys::nameless_file(SMALL)?.ok_or_else(room)?;
    file.write_all(&start)?;
    let mut length = start.len() as u64;
    let mut progress = Progress::new("byte");
    loop {
        // The buffer that the start was read into serves on.
        let count = match input.read(&mut start) {
            Err(error) if error.kind() == io::ErrorKind::Interrupted => continue,
            read => read?,
        };
        if count == 0 {
            return mapped(&file, length);
        }
        file.write_all(&start[..count])?;
        length += count as u64;
        progress.step(length as usize, most as usize);
    }
}
