//! A block device, past the page cache.
//!
//! Reads and writes are of whole blocks of the device's logical size, out of a buffer that is aligned to pages. Where blocks are
//! sectors of 512 bytes, as on nearly every card, a store is one write of its sector and of nothing else. Where they are larger
//! (4,096), the block is read, the sector changed in it, and the block written back in one aligned write: the neighbours get the
//! bytes they have. Nobody else can write in between, since the device is open exclusively.

use super::{past_the_end, Disk};
use crate::layout::SECTOR;
use crate::sys;
use std::alloc::{alloc_zeroed, dealloc, handle_alloc_error, Layout};
use std::fs::File;
use std::io::{self, Seek, SeekFrom};
use std::ops::Range;
use std::os::unix::fs::FileExt;

const PAGE: usize = 4_096;
const BUFFER: usize = 1 << 20;

/// A device, open exclusively.
pub struct Device {
    file: File,
    bytes: u64,
    block: usize,
    buffer: Aligned,
}

impl Device {
    /// The device is open exclusively and past the page cache already.
    pub fn new(mut file: File) -> io::Result<Device> {
        let block = sys::logical_block(&file)?;
        Device::with_block(file.seek(SeekFrom::End(0))?, file, block)
    }

    /// With blocks of a given size; a file will do, for tests.
    pub fn with_block(bytes: u64, file: File, block: usize) -> io::Result<Device> {
        if !block.is_power_of_two() || !(SECTOR..=BUFFER).contains(&block) {
            let what = format!("its logical sectors of {block} bytes are not covered");
            return Err(io::Error::other(what));
        }
        Ok(Device {
            file,
            bytes,
            block,
            buffer: Aligned::new(),
        })
    }

    /// The whole blocks around some bytes of the device, cut where the buffer ends.
    fn blocks(&self, bytes: Range<u64>) -> io::Result<Range<u64>> {
        let block = self.block as u64;
        let start = bytes.start - bytes.start % block;
        let end = bytes.end.next_multiple_of(block).min(start + BUFFER as u64);
        if bytes.end > self.bytes || end > self.bytes {
            return Err(past_the_end());
        }
        Ok(start..end)
    }

    /// Goes through the bytes of some sectors, a buffer at a time.
    fn pieces(&self, sector: u64, len: usize) -> io::Result<Vec<Piece>> {
        let start = sector * SECTOR as u64;
        let mut pieces = Vec::new();
        let mut done = 0;
        while done < len {
            let from = start + done as u64;
            let blocks = self.blocks(from..start + len as u64)?;
            let at = (from - blocks.start) as usize;
            let count = (len - done).min((blocks.end - from) as usize);
            pieces.push(Piece {
                blocks,
                at,
                part: done..done + count,
            });
            done += count;
        }
        Ok(pieces)
    }
}

/// What is read or written at once.
struct Piece {
    /// The blocks, in bytes of the device.
    blocks: Range<u64>,
    /// Where the wanted bytes begin in them.
    at: usize,
    /// Which of the caller's bytes they are.
    part: Range<usize>,
}

impl Disk for Device {
    fn bytes(&self) -> u64 {
        self.bytes
    }

    fn read(&mut self, sector: u64, buffer: &mut [u8]) -> io::Result<()> {
        for Piece { blocks, at, part } in self.pieces(sector, buffer.len())? {
            let own = &mut self.buffer.bytes()[..(blocks.end - blocks.start) as usize];
            self.file.read_exact_at(own, blocks.start)?;
            let count = part.len();
            buffer[part].copy_from_slice(&own[at..at + count]);
        }
        Ok(())
    }

    fn write(&mut self, sector: u64, bytes: &[u8]) -> io::Result<()> {
        for Piece { blocks, at, part } in self.pieces(sector, bytes.len())? {
            let own = &mut self.buffer.bytes()[..(blocks.end - blocks.start) as usize];
            if part.len() < own.len() {
                self.file.read_exact_at(own, blocks.start)?;
            }
            own[at..at + part.len()].copy_from_slice(&bytes[part]);
            self.file.write_all_at(own, blocks.start)?;
        }
        Ok(())
    }

    fn flush(&mut self) -> io::Result<()> {
        self.file.sync_data()
    }

    fn block_sectors(&self) -> u64 {
        (self.block / SECTOR) as u64
    }
}

/// A buffer that begins at a page.
struct Aligned(*mut u8);

// The buffer belongs to its owner.
unsafe impl Send for Aligned {}

impl Aligned {
    const LAYOUT: Layout = match Layout::from_size_align(BUFFER, PAGE) {
        Ok(layout) => layout,
        Err(_) => panic!("a page is a power of two"),
    };

    fn new() -> Aligned {
        // The layout is not of size 0.
        let start = unsafe { alloc_zeroed(Aligned::LAYOUT) };
        if start.is_null() {
            handle_alloc_error(Aligned::LAYOUT);
        }
        Aligned(start)
    }

    fn bytes(&mut self) -> &mut [u8] {
        unsafe { std::slice::from_raw_parts_mut(self.0, BUFFER) }
    }
}

impl Drop for Aligned {
    fn drop(&mut self) {
        unsafe { dealloc(self.0, Aligned::LAYOUT) };
    }
}
