//! An open card: the calls, on a disk.

mod format;

pub use format::formatting;

use crate::disk::{self, Access, Disk, Part, Wait};
use crate::entry::{Entry, ENTRY};
use crate::error::Error;
use crate::layout::SECTOR;
use crate::lists::{self, Lists, Planned};
use crate::memory::Memory;
use crate::partition::{self, Partition};
use crate::volume::{is_entry, Volume};
use crate::writer::Writer;
use lfat_card::{calls, Answer, CardView, Refusal, NO_LIMIT};
use reference::{Operation, Program};
use std::borrow::Cow;
use std::path::Path;

/// The most bytes of a file that are held in memory while it is read.
const PIECE: usize = 1 << 20;

/// How a card is opened.
pub struct Opening<'a> {
    /// What is done with it.
    pub access: Access,
    /// A partition's number. Without one the whole disk is taken if it is a card, else the first partition that is one.
    pub partition: Option<u32>,
    /// Whether another program is waited for.
    pub wait: Wait<'a>,
}

/// A card on a disk, open for this program alone. Calls that change it give the number of stores made. Those that date a file take
/// the seconds since 1980 began, as `lfat_card::DateTime` has them.
pub struct DiskCard<D = Part<Box<dyn Disk>>, L = Planned> {
    disk: D,
    lists: L,
    access: Access,
    memory: Memory,
    state: State,
    partition: Option<Partition>,
    progress: Box<dyn FnMut(usize, usize) + Send>,
}

/// How the card in memory and the one on the disk are.
#[derive(Clone, Copy, PartialEq, Eq)]
enum State {
    Same,
    /// A call was made in memory only.
    Rehearsed,
    /// A call ended in mid-save.
    Ended,
}

impl DiskCard {
    /// Opens an image, a block device or a partition of one.
    pub fn open(path: &Path, access: Access) -> Result<DiskCard, Error> {
        DiskCard::open_with(
            path,
            &Opening {
                access,
                partition: None,
                wait: Wait::No,
            },
        )
    }

    /// Opens one in a given way.
    pub fn open_with(path: &Path, how: &Opening) -> Result<DiskCard, Error> {
        let mut disk = disk::open(path, how.access, &how.wait)?;
        let found = partition::find(&mut disk, how.partition)?;
        let part = match &found {
            Some(found) => Part::new(disk, found.first, found.sectors),
            None => Part::whole(disk),
        };
        let mut card = DiskCard::on(part, Planned, how.access)?;
        card.partition = found;
        Ok(card)
    }
}

impl<D: Disk, L: Lists> DiskCard<D, L> {
    /// A card on a disk that is open already.
    pub fn on(mut disk: D, lists: L, access: Access) -> Result<DiskCard<D, L>, Error> {
        // What is read next must be on the disk, and not only in a cache that a program before this one has left behind: a
        // recovery acts on the log record that it finds, and any other call on a commit mark.
        if access == Access::Write {
            disk.settle().map_err(Error::Disk)?;
        }
        let memory = Memory::load(&mut disk).map_err(Error::Disk)?;
        Ok(DiskCard {
            disk,
            lists,
            access,
            memory,
            state: State::Same,
            partition: None,
            progress: Box::new(|_, _| {}),
        })
    }

    /// The partition that the card is in, if it is in one.
    pub fn partition(&self) -> Option<&Partition> {
        self.partition.as_ref()
    }

    /// Is told how many stores were made and how many there are, while a call is checked (then none) and written.
    pub fn on_progress(&mut self, progress: impl FnMut(usize, usize) + Send + 'static) {
        self.progress = Box::new(progress);
    }

    /// The card in memory: tables and log are as on the disk, all else stands as zeros.
    pub fn memory(&mut self) -> &mut Memory {
        &mut self.memory
    }

    /// The card's bytes: as many as the boot sector says, if they are there.
    pub fn window(&self) -> &[u8] {
        &self.memory.window
    }

    fn check_open(&self) -> Result<(), Error> {
        match self.state {
            State::Ended => Err(Error::Ended),
            _ => Ok(()),
        }
    }

    /// Finishes what a power cut left behind, or takes it back.
    pub fn recover(&mut self) -> Result<u32, Error> {
        self.save(&[Operation::Recover], NO_LIMIT)
    }

    /// Makes an empty file.
    pub fn create(&mut self, name: &[u8], seconds: u32) -> Result<u32, Error> {
        self.save(&[Operation::Create { name, seconds }], NO_LIMIT)
    }

    /// Makes an empty file with a short name and a long one, of 16-bit characters as bytes, two each.
    pub fn create_long(
        &mut self,
        name: &[u8],
        characters: &[u8],
        seconds: u32,
    ) -> Result<u32, Error> {
        let create = Operation::CreateLong {
            name,
            characters,
            seconds,
        };
        self.save(&[create], NO_LIMIT)
    }

    /// Adds bytes at the end of a file.
    pub fn append(&mut self, name: &[u8], data: &[u8], seconds: u32) -> Result<u32, Error> {
        let append = Operation::Append {
            name,
            data,
            seconds,
        };
        self.save(&[append], NO_LIMIT)
    }

    /// Saves over a file: it then has these bytes and no others. A cut leaves the old bytes or the new ones, whole.
    pub fn replace(&mut self, name: &[u8], data: &[u8], seconds: u32) -> Result<u32, Error> {
        let replace = Operation::Replace {
            name,
            data,
            seconds,
        };
        self.save(&[replace], NO_LIMIT)
    }

    /// Shortens a file.
    pub fn truncate(&mut self, name: &[u8], size: u64, seconds: u32) -> Result<u32, Error> {
        let truncate = Operation::Truncate {
            name,
            size,
            seconds,
        };
        self.save(&[truncate], NO_LIMIT)
    }

    /// Removes a file, with the entries of its long name, and frees its clusters. [`crate::InUse`] tells which name that was.
    pub fn delete(&mut self, name: &[u8]) -> Result<u32, Error> {
        self.save(&[Operation::Delete { name }], NO_LIMIT)
    }

    /// Gives a file another name; the entries of its long name are removed.
    pub fn rename(&mut self, old: &[u8], new: &[u8]) -> Result<u32, Error> {
        self.save(&[Operation::Rename { old, new }], NO_LIMIT)
    }

    /// Makes calls, one after the other, with at most so many stores in all. Nothing is written unless all are granted. A
    /// cut leaves the card as before the calls, or as after one of them; one in mid-format leaves no card.
    pub fn save(&mut self, operations: &[Operation], limit: u32) -> Result<u32, Error> {
        self.check_open()?;
        if self.access == Access::Read {
            return Err(Error::ReadOnly);
        }
        if self.state == State::Rehearsed {
            return Err(Error::Ended);
        }
        let before = self.memory.save();
        let mut programs = Vec::new();
        for operation in operations {
            match self.prepare(operation, &programs) {
                Ok(program) => programs.push(program),
                Err(error) => {
                    self.put_back(before, &operations[..programs.len()])?;
                    return Err(error);
                }
            }
        }
        self.write(&programs, limit)
    }

    /// Makes a call in memory only; gives its list of stores. The card in memory is then no longer the one on the disk.
    pub fn rehearse<'a>(&mut self, operation: &Operation<'a>) -> Result<Program<'a>, Error> {
        self.check_open()?;
        let program = self.prepare(operation, &[]);
        match &program {
            Ok(_) => self.state = State::Rehearsed,
            Err(_) => self.memory.release_data().map_err(Error::Disk)?,
        }
        program
    }

    /// Makes a call in memory; gives its list of stores.
    fn prepare<'a>(
        &mut self,
        operation: &Operation<'a>,
        earlier: &[Program],
    ) -> Result<Program<'a>, Error> {
        if let Operation::Format { total, .. } = *operation {
            return self.prepare_format(operation, total);
        }
        if let (Some(areas), Ok(program)) = (
            self.memory.areas.clone(),
            self.lists.program(&self.memory.window, operation),
        ) {
            let stored = program.count() * SECTOR;
            self.memory.make_room(stored).map_err(Error::Disk)?;
            // A data sector whose bytes are not the caller's alone may keep bytes that it has. It is read, and the list
            // made anew: of all data, calls look at such sectors only.
            let segments = program.segments.iter().flat_map(|segment| &segment.stores);
            for extent in segments.filter(|extent| matches!(extent.bytes, Cow::Owned(_))) {
                for (sector, _) in extent.sectors() {
                    let mut stored = earlier.iter().flat_map(Program::sectors);
                    if areas.is_data(sector) && !stored.any(|(other, _)| other == sector) {
                        self.memory
                            .read_data(&mut self.disk, sector)
                            .map_err(Error::Disk)?;
                    }
                }
            }
        }
        let progress = &mut self.progress;
        let tick = &mut |count| progress(0, count);
        lists::run(&mut self.memory, &self.lists, operation, earlier, tick)
    }

    /// Writes lists of stores that have been made in memory.
    fn write(&mut self, programs: &[Program], limit: u32) -> Result<u32, Error> {
        let count: usize = programs.iter().map(Program::count).sum();
        let progress = &mut self.progress;
        let mut writer = Writer {
            disk: &mut self.disk,
            limit: limit as usize,
            progress: &mut |made| progress(made, count),
            made: 0,
            kept_back: false,
        };
        // Until all is written, memory and disk are not the same.
        self.state = State::Ended;
        for program in programs {
            writer.write(program).map_err(Error::Cut)?;
        }
        let made = writer.made;
        self.memory.release_data().map_err(Error::Disk)?;
        if made < count {
            return Err(Error::Stopped(made as u32));
        }
        // A recovery may even bring another log run into FAT1.
        if areas_moved(&self.memory) {
            self.memory = Memory::load(&mut self.disk).map_err(Error::Disk)?;
        }
        self.state = State::Same;
        Ok(made as u32)
    }

    /// The files and directories in the root directory, in slot order.
    pub fn list(&self) -> Result<Vec<Entry>, Error> {
        self.check_open()?;
        let there = count(calls::list(&self.memory.window, &mut []))?;
        let mut listed = vec![0; there * ENTRY];
        count(calls::list(&self.memory.window, &mut listed))?;
        let volume = Volume::open(&self.memory.window).ok_or(Refusal::Window)?;
        let slots = volume.slots().enumerate();
        let slots = slots.filter(|(_, slot)| is_entry(slot));
        let entries = slots
            .zip(listed.chunks_exact(ENTRY))
            .map(|((slot, _), entry)| {
                let mut bytes = [0; ENTRY];
                bytes.copy_from_slice(entry);
                Entry { slot, bytes }
            });
        Ok(entries.collect())
    }

    /// The lowest entry that has the name, a file or a directory.
    pub fn find(&self, name: &[u8]) -> Result<Option<Entry>, Error> {
        let mut entries = self.list()?.into_iter();
        Ok(entries.find(|entry| entry.name_bytes() == name))
    }

    /// Copies the characters of a file's long name into the buffer, two bytes each, as many as fit; gives how many there are.
    pub fn long_name(&self, name: &[u8], buffer: &mut [u8]) -> Result<usize, Error> {
        self.check_open()?;
        count(calls::long_name(&self.memory.window, name, buffer))
    }

    /// Whether so many bytes fit, by free clusters alone: the highest cluster that they would take, 0 for no bytes; `None` is no.
    pub fn fits(&self, bytes: u64) -> Result<Option<u32>, Error> {
        self.check_open()?;
        Ok(CardView::new(&self.memory.window).fits(bytes)?)
    }

    /// Copies a file's bytes from an offset on into the buffer; gives how many there were.
    pub fn read(&mut self, name: &[u8], offset: u64, buffer: &mut [u8]) -> Result<usize, Error> {
        self.check_open()?;
        let mut done = 0;
        loop {
            let end = buffer.len().min(done + PIECE);
            let piece = &mut buffer[done..end];
            let at = offset.saturating_add(done as u64);
            let loaded = self.load_piece(name, at, piece.len());
            let read =
                loaded.and_then(|()| count(calls::read(&self.memory.window, name, at, piece)));
            self.memory.release_data().map_err(Error::Disk)?;
            let read = read?;
            done += read;
            if done == buffer.len() || read < PIECE {
                return Ok(done);
            }
        }
    }

    /// Reads the sectors that hold a piece of a file. One that breaks the chain rule is refused without a look at them.
    fn load_piece(&mut self, name: &[u8], offset: u64, len: usize) -> Result<(), Error> {
        let Some(volume) = Volume::open(&self.memory.window) else {
            return Ok(());
        };
        let Some(slot) = volume.find(name) else {
            return Ok(());
        };
        let size = crate::layout::get32(slot, 28);
        let start = usize::try_from(offset).unwrap_or(usize::MAX).min(size);
        let sectors = volume.file_sectors(slot, start..size.min(start.saturating_add(len)));
        for run in sectors.unwrap_or_default().chunk_by(|a, b| a + 1 == *b) {
            let run = run[0]..run[run.len() - 1] + 1;
            self.memory.read(&mut self.disk, run).map_err(Error::Disk)?;
        }
        Ok(())
    }

    /// The first of the grounds 1 to 6 on which recovery would be refused. Nothing is stored.
    pub fn refusal(&mut self) -> Option<Refusal> {
        match calls::recover(&mut self.memory.window, 0) {
            Answer::Refused(refusal) => Some(refusal),
            _ => None,
        }
    }
}

/// Whether tables and log are where they were when the card was read.
fn areas_moved(memory: &Memory) -> bool {
    crate::areas::Areas::of(&memory.window) != memory.areas
}

fn count(answer: Answer) -> Result<usize, Error> {
    match answer {
        Answer::Done(count) | Answer::Stopped(count) => Ok(count as usize),
        // Fits alone says no, and does not come here.
        Answer::No => Err(Refusal::Unknown(254).into()),
        Answer::Refused(refusal) => Err(refusal.into()),
    }
}
