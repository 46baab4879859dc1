//! A card in memory: its window, with the tables and the log read from the disk, and such data sectors as a call looks at.

use crate::areas::{Areas, Snapshot};
use crate::disk::Disk;
use crate::layout::{bytes, Layout, SECTOR};
use crate::lists;
use crate::window::Window;
use lfat_card::{Form, NO_LIMIT};
use reference::Operation;
use std::io;
use std::ops::Range;

/// A card in memory.
pub struct Memory {
    /// The window that the library is lent.
    pub window: Window,
    /// Where tables and log are; `None` on what the library refuses as no card, or for its log.
    pub areas: Option<Areas>,
    /// The other sectors that were read, with their bytes: all else outside the areas stands as zeros.
    pub loaded: Vec<(usize, Vec<u8>)>,
    is_in_file: bool,
}

/// What sectors are filled with before a new card is made: none of its sectors is so.
const UNMADE: u8 = 0xA5;

/// The most data of a call that is held in memory.
const MOST_IN_MEMORY: usize = 16 << 20;

impl Memory {
    /// Reads the boot sector, the tables and the log.
    pub fn load(disk: &mut impl Disk) -> io::Result<Memory> {
        let there = usize::try_from(disk.bytes()).unwrap_or(usize::MAX);
        let mut boot = vec![0; SECTOR];
        if there >= SECTOR {
            disk.read(0, &mut boot)?;
        }
        // A first sector is enough for the library to refuse what is no card.
        let layout = Layout::parse(&boot).filter(|_| there >= SECTOR);
        let size = layout.map_or(SECTOR, |layout| layout.total_sectors * SECTOR);
        let mut memory = Memory {
            window: Window::new(there.min(size))?,
            areas: None,
            loaded: Vec::new(),
            is_in_file: false,
        };
        let len = memory.window.len().min(SECTOR);
        memory.window[..len].copy_from_slice(&boot[..len]);
        memory.loaded.push((0, boot));
        if let Some(layout) = layout.filter(|_| there >= size) {
            memory.read(disk, layout.fat1().start..layout.data_start())?;
            let log = crate::volume::Volume::open(&memory.window).and_then(|volume| volume.log());
            if let Some(log) = log {
                memory.read(disk, log)?;
            }
            memory.areas = Areas::of(&memory.window);
        }
        Ok(memory)
    }

    /// A card that is to be made on a disk of so many bytes, in which nothing is read from the disk. Where the library will store, the
    /// window holds bytes that no store leaves as they are; all else stands as zeros.
    pub fn blank(there: u64, format: &Operation, total: u32) -> io::Result<Memory> {
        // No window is needed for a card that is larger than any.
        let size = u64::from(total.min(Form::MOST_SECTORS)) * SECTOR as u64;
        let mut memory = Memory {
            window: Window::new(there.min(size) as usize)?,
            areas: None,
            loaded: Vec::new(),
            is_in_file: false,
        };
        // The library's own card tells where its tables and its log are.
        lists::call(&mut memory.window, format, NO_LIMIT);
        memory.areas = Areas::of_new(&memory.window);
        if let Some(areas) = &memory.areas {
            for part in [areas.tables(), areas.log.clone()] {
                memory.window[bytes(&part)].fill(UNMADE);
            }
        }
        Ok(memory)
    }

    /// The new card is made: it stands as one that was read from the disk.
    pub fn finish(&mut self) {
        self.loaded = vec![(0, self.window[..SECTOR].to_vec())];
        self.areas = Areas::of(&self.window);
    }

    /// Reads sectors from the disk into the window.
    pub fn read(&mut self, disk: &mut impl Disk, sectors: Range<usize>) -> io::Result<()> {
        let part = bytes(&sectors);
        disk.read(sectors.start as u64, &mut self.window[part])
    }

    /// Reads a data sector that a call looks at, and remembers it.
    pub fn read_data(&mut self, disk: &mut impl Disk, sector: usize) -> io::Result<()> {
        self.read(disk, sector..sector + 1)?;
        let part = bytes(&(sector..sector + 1));
        self.loaded.push((sector, self.window[part].to_vec()));
        Ok(())
    }

    /// Moves the window into a file on a disk, if it is to hold so many bytes of data that memory is not the place for them.
    pub fn make_room(&mut self, data: usize) -> io::Result<()> {
        if self.is_in_file || data <= MOST_IN_MEMORY {
            return Ok(());
        }
        if let Some(mut window) = Window::in_file(self.window.len(), data)? {
            for part in self.window.touched()? {
                window[part.clone()].copy_from_slice(&self.window[part]);
            }
            self.window = window;
            self.is_in_file = true;
        }
        Ok(())
    }

    /// The tables and the log as they stand.
    pub fn save(&self) -> Option<Snapshot> {
        self.areas.as_ref().map(|areas| areas.save(&self.window))
    }

    /// Puts back tables, log and the data sectors that were read.
    pub fn restore(&mut self, saved: &Snapshot) {
        if let Some(areas) = &self.areas {
            areas.restore(&mut self.window, saved);
        }
        for (sector, stored) in &self.loaded {
            let part = bytes(&(*sector..sector + 1));
            if let Some(place) = self.window.get_mut(part) {
                place.copy_from_slice(stored);
            }
        }
    }

    /// Whether the sectors outside those known are as they were: read from the disk, or zeros.
    pub fn rest_is_as_read(&self, mut known: Vec<Range<usize>>) -> io::Result<bool> {
        known.sort_by_key(|part| part.start);
        let mut known = known.into_iter().peekable();
        for touched in self.window.touched()? {
            let mut at = touched.start / SECTOR;
            let end = touched.end.div_ceil(SECTOR);
            while at < end {
                while known.peek().is_some_and(|part| part.end <= at) {
                    known.next();
                }
                match known.peek() {
                    Some(part) if part.start <= at => at = part.end,
                    _ if !self.is_as_read(at) => return Ok(false),
                    _ => at += 1,
                }
            }
        }
        Ok(true)
    }

    fn is_as_read(&self, sector: usize) -> bool {
        let start = sector * SECTOR;
        let end = (start + SECTOR).min(self.window.len());
        let stored = &self.window[start..end];
        let mut loaded = self.loaded.iter().rev();
        match loaded.find(|(at, _)| *at == sector) {
            Some((_, as_read)) => as_read.starts_with(stored),
            None => stored.iter().all(|&byte| byte == 0),
        }
    }

    /// Turns all data sectors into zeros, and gives their memory back.
    pub fn clear_data(&mut self) -> io::Result<()> {
        let Some(areas) = &self.areas else {
            return Ok(());
        };
        let data = bytes(&(areas.layout.data_start()..areas.layout.total_sectors));
        let log = bytes(&areas.log);
        self.window.release(data.start..log.start)?;
        self.window.release(log.end..data.end)
    }

    /// The same, and the sectors that were read are no longer known.
    pub fn release_data(&mut self) -> io::Result<()> {
        self.loaded.truncate(1);
        self.clear_data()
    }
}
