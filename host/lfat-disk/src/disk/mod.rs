//! Disks: what holds a card. An image or a block device, a part of one, and in tests one that lies.

mod device;
mod image;
mod open;
mod part;

pub use device::Device;
pub use image::Image;
pub use open::{open, Access, Wait};
pub use part::Part;

use std::io;

/// A row of sectors of 512 bytes. What is written may be kept back, in any order, until a flush.
pub trait Disk {
    /// How many bytes there are. What comes after the last whole sector is never touched.
    fn bytes(&self) -> u64;

    /// Fills the buffer, whole sectors, from a sector on.
    fn read(&mut self, sector: u64, buffer: &mut [u8]) -> io::Result<()>;

    /// Writes whole sectors from a sector on. Each of them happens wholly or not at all.
    fn write(&mut self, sector: u64, bytes: &[u8]) -> io::Result<()>;

    /// Comes back once all that was written is kept, whoever wrote it.
    fn flush(&mut self) -> io::Result<()>;

    /// A flush, after which reading gives what is kept and not what a cache still has.
    fn settle(&mut self) -> io::Result<()> {
        self.flush()
    }

    /// The sectors of a block, the unit in which a partition table counts.
    fn block_sectors(&self) -> u64 {
        1
    }
}

impl<D: Disk + ?Sized> Disk for &mut D {
    fn bytes(&self) -> u64 {
        (**self).bytes()
    }

    fn read(&mut self, sector: u64, buffer: &mut [u8]) -> io::Result<()> {
        (**self).read(sector, buffer)
    }

    fn write(&mut self, sector: u64, bytes: &[u8]) -> io::Result<()> {
        (**self).write(sector, bytes)
    }

    fn flush(&mut self) -> io::Result<()> {
        (**self).flush()
    }

    fn settle(&mut self) -> io::Result<()> {
        (**self).settle()
    }

    fn block_sectors(&self) -> u64 {
        (**self).block_sectors()
    }
}

impl<D: Disk + ?Sized> Disk for Box<D> {
    fn bytes(&self) -> u64 {
        (**self).bytes()
    }

    fn read(&mut self, sector: u64, buffer: &mut [u8]) -> io::Result<()> {
        (**self).read(sector, buffer)
    }

    fn write(&mut self, sector: u64, bytes: &[u8]) -> io::Result<()> {
        (**self).write(sector, bytes)
    }

    fn flush(&mut self) -> io::Result<()> {
        (**self).flush()
    }

    fn settle(&mut self) -> io::Result<()> {
        (**self).settle()
    }

    fn block_sectors(&self) -> u64 {
        (**self).block_sectors()
    }
}

/// An error for sectors that are not there: a disk does not grow.
fn past_the_end() -> io::Error {
    io::Error::new(
        io::ErrorKind::UnexpectedEof,
        "the disk ends before that sector",
    )
}
