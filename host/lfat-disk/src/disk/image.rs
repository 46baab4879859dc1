//! A card image in a file.

use super::{past_the_end, Disk};
use crate::layout::SECTOR;
use crate::sys;
use std::fs::File;
use std::io;
use std::os::unix::fs::FileExt;

/// An image, locked.
pub struct Image {
    file: File,
    bytes: u64,
}

impl Image {
    /// The file is locked already.
    pub fn new(file: File) -> io::Result<Image> {
        let bytes = file.metadata()?.len();
        Ok(Image { file, bytes })
    }

    fn place(&self, sector: u64, len: usize) -> io::Result<u64> {
        let start = sector * SECTOR as u64;
        let fits = start + len as u64 <= self.bytes;
        fits.then_some(start).ok_or_else(past_the_end)
    }
}

impl Disk for Image {
    fn bytes(&self) -> u64 {
        self.bytes
    }

    fn read(&mut self, sector: u64, buffer: &mut [u8]) -> io::Result<()> {
        let start = self.place(sector, buffer.len())?;
        self.file.read_exact_at(buffer, start)
    }

    fn write(&mut self, sector: u64, bytes: &[u8]) -> io::Result<()> {
        let start = self.place(sector, bytes.len())?;
        self.file.write_all_at(bytes, start)
    }

    fn flush(&mut self) -> io::Result<()> {
        self.file.sync_data()
    }

    /// After a flush that failed the system may hold pages that it takes for written, though they are not on the disk.
    fn settle(&mut self) -> io::Result<()> {
        self.flush()?;
        sys::forget_cached(&self.file);
        Ok(())
    }
}
