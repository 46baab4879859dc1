//! Writing lists of stores to a disk, so that pulling this machine's plug is as safe as pulling the router's.

use crate::disk::Disk;
use crate::layout::SECTOR;
use reference::{Extent, Program, Segment};
use std::io;

/// The most sectors in one write, so that progress can be told.
const PIECE: usize = 2_048;

/// Writes lists of stores.
pub struct Writer<'a, D> {
    /// The disk that is written to.
    pub disk: D,
    /// The most stores to make.
    pub limit: usize,
    /// Is told how many stores were made.
    pub progress: &'a mut dyn FnMut(usize),
    /// How many stores were made so far.
    pub made: usize,
    /// Something was written since the last flush.
    pub kept_back: bool,
}

impl<D: Disk> Writer<'_, D> {
    /// Writes the stores of a list, up to the limit; all of them are on the disk when this comes back.
    pub fn write(&mut self, program: &Program) -> io::Result<()> {
        for segment in &program.segments {
            self.segment(segment)?;
        }
        self.flush()
    }

    /// The stores before a barrier may reach the disk in any order, or not at all; so may those after it. None passes the
    /// barrier, since the disk is flushed before it and after it. That this order is enough is the theorem `held-back`
    /// (crates/safety/specs/Demand3.antt): on a card that lets no store pass a barrier, any choice of the stores since the
    /// last one, then any recoveries cut in the same way, end in the state before the call or in the one after it. The root sectors
    /// of a new long name are barriers as well: they reach the disk in the list's order, of which `demand3` speaks. Of a format the two
    /// stores of the boot sector are barriers: while it is zeros there is no card, whatever else has reached the disk (`format-held-back`,
    /// crates/safety/specs/Formatted.antt).
    fn segment(&mut self, segment: &Segment) -> io::Result<()> {
        for extent in &segment.stores {
            self.extent(extent)?;
        }
        if let Some(barrier) = &segment.barrier {
            self.flush()?;
            self.sectors(barrier.sector, &barrier.bytes)?;
            self.flush()?;
        }
        Ok(())
    }

    fn extent(&mut self, extent: &Extent) -> io::Result<()> {
        let pieces = extent.bytes.chunks(PIECE * SECTOR);
        for (index, piece) in pieces.enumerate() {
            self.sectors(extent.first + index * PIECE, piece)?;
        }
        Ok(())
    }

    /// One write, of as many sectors as the limit leaves.
    fn sectors(&mut self, first: usize, bytes: &[u8]) -> io::Result<()> {
        let count = (bytes.len() / SECTOR).min(self.limit - self.made);
        if count == 0 {
            return Ok(());
        }
        self.disk.write(first as u64, &bytes[..count * SECTOR])?;
        self.kept_back = true;
        self.made += count;
        (self.progress)(self.made);
        Ok(())
    }

    fn flush(&mut self) -> io::Result<()> {
        if std::mem::take(&mut self.kept_back) {
            self.disk.flush()?;
        }
        Ok(())
    }
}
