//! A disk in memory.

use lfat_disk::Disk;
use std::io;

pub struct Ram(pub Vec<u8>);

impl Disk for Ram {
    fn bytes(&self) -> u64 {
        self.0.len() as u64
    }

    fn read(&mut self, sector: u64, buffer: &mut [u8]) -> io::Result<()> {
        let start = sector as usize * 512;
        buffer.copy_from_slice(&self.0[start..start + buffer.len()]);
        Ok(())
    }

    fn write(&mut self, sector: u64, bytes: &[u8]) -> io::Result<()> {
        let start = sector as usize * 512;
        self.0[start..start + bytes.len()].copy_from_slice(bytes);
        Ok(())
    }

    fn flush(&mut self) -> io::Result<()> {
        Ok(())
    }
}
