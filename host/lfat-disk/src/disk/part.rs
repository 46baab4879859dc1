//! A part of a disk, such as a partition.

use super::{past_the_end, Disk};
use crate::layout::SECTOR;
use std::io;

/// Some neighbouring sectors of a disk.
pub struct Part<D> {
    disk: D,
    first: u64,
    bytes: u64,
}

impl<D: Disk> Part<D> {
    /// The part from a sector on. It ends where the disk does, if not before.
    pub fn new(disk: D, first: u64, sectors: u64) -> Part<D> {
        let start = first.saturating_mul(SECTOR as u64);
        let there = disk.bytes().saturating_sub(start);
        Part {
            first,
            bytes: there.min(sectors.saturating_mul(SECTOR as u64)),
            disk,
        }
    }

    /// The whole disk.
    pub fn whole(disk: D) -> Part<D> {
        let bytes = disk.bytes();
        Part {
            disk,
            first: 0,
            bytes,
        }
    }

    fn place(&self, sector: u64, len: usize) -> io::Result<u64> {
        let fits = sector * SECTOR as u64 + len as u64 <= self.bytes;
        fits.then_some(self.first + sector).ok_or_else(past_the_end)
    }
}

impl<D: Disk> Disk for Part<D> {
    fn bytes(&self) -> u64 {
        self.bytes
    }

    fn read(&mut self, sector: u64, buffer: &mut [u8]) -> io::Result<()> {
        let sector = self.place(sector, buffer.len())?;
        self.disk.read(sector, buffer)
    }

    fn write(&mut self, sector: u64, bytes: &[u8]) -> io::Result<()> {
        let sector = self.place(sector, bytes.len())?;
        self.disk.write(sector, bytes)
    }

    fn flush(&mut self) -> io::Result<()> {
        self.disk.flush()
    }

    fn settle(&mut self) -> io::Result<()> {
        self.disk.settle()
    }

    fn block_sectors(&self) -> u64 {
        self.disk.block_sectors()
    }
}
