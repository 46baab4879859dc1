//! A disk that lies: it keeps what is written back until a flush, and at a cut any choice of that may be lost.

use super::kept::Kept;
use super::random::Random;
use lfat_disk::Disk;
use std::io;

const SECTOR: usize = 512;

/// What was done to a disk. A write of several sectors is so many of one: it is torn between sectors, and nowhere else.
#[derive(Clone, PartialEq, Eq, Debug)]
pub enum Event {
    Write(usize, Vec<u8>),
    Flush,
}

/// What fails, and at which event, counted from 0.
#[derive(Clone, Copy)]
pub struct Fault {
    pub at: usize,
    pub error: io::ErrorKind,
}

#[derive(Clone, Default)]
pub struct Lying {
    /// What is there whatever happens.
    pub kept: Kept,
    /// What was written since the last flush, oldest first.
    pub back: Vec<(usize, Vec<u8>)>,
    /// All that was done, in order.
    pub events: Vec<Event>,
    pub fault: Option<Fault>,
}

impl Lying {
    pub fn new(card: &[u8]) -> Lying {
        Lying::on(Kept::new(card))
    }

    pub fn on(kept: Kept) -> Lying {
        Lying {
            kept,
            ..Lying::default()
        }
    }

    /// The disk as it was after the first of the events that were done to it.
    pub fn after(&self, start: &Lying, events: usize) -> Lying {
        let mut disk = start.clone();
        for event in &self.events[..events] {
            match event {
                Event::Write(sector, bytes) => disk.back.push((*sector, bytes.clone())),
                Event::Flush => disk.settle_down(),
            }
        }
        disk
    }

    fn settle_down(&mut self) {
        for (sector, bytes) in std::mem::take(&mut self.back) {
            self.kept.store(sector, bytes);
        }
    }

    /// What the card holds when the power goes and, of what was kept back, only the chosen writes have arrived.
    pub fn cut(&self, chosen: impl Fn(usize) -> bool) -> Kept {
        let mut card = self.kept.clone();
        for (index, (sector, bytes)) in self.back.iter().enumerate() {
            if chosen(index) {
                card.store(*sector, bytes.clone());
            }
        }
        card
    }

    /// What a cut may leave: every choice where few writes are kept back; else none, all, one, all but one, and random ones.
    pub fn cuts(&self, all_below: usize, random: &mut Random) -> Vec<Kept> {
        let count = self.back.len();
        if count <= all_below {
            return (0..1_usize << count)
                .map(|choice| self.cut(|index| choice >> index & 1 == 1))
                .collect();
        }
        let one = random.below(count);
        let mut cards = vec![
            self.cut(|_| false),
            self.cut(|_| true),
            self.cut(|index| index == one),
            self.cut(|index| index != one),
            self.cut(|index| index == count - 1),
        ];
        for _ in 0..6 {
            let choice = random.next();
            cards.push(self.cut(|index| choice >> (index % 64) & 1 == 1));
        }
        cards
    }

    fn fail(&self) -> io::Result<()> {
        match self.fault {
            Some(fault) if fault.at <= self.events.len() => Err(fault.error.into()),
            _ => Ok(()),
        }
    }
}

impl Disk for Lying {
    fn bytes(&self) -> u64 {
        self.kept.len() as u64
    }

    /// A reader sees what was written, kept back or not.
    fn read(&mut self, sector: u64, buffer: &mut [u8]) -> io::Result<()> {
        let start = sector as usize * SECTOR;
        let end = start + buffer.len();
        if end > self.kept.len() {
            return Err(io::ErrorKind::UnexpectedEof.into());
        }
        self.kept.read(start, buffer);
        for (sector, bytes) in &self.back {
            let at = sector * SECTOR;
            if (start..end).contains(&at) {
                buffer[at - start..][..SECTOR].copy_from_slice(bytes);
            }
        }
        Ok(())
    }

    fn write(&mut self, sector: u64, bytes: &[u8]) -> io::Result<()> {
        assert!(
            !bytes.is_empty() && bytes.len().is_multiple_of(SECTOR),
            "whole sectors"
        );
        assert!((sector as usize * SECTOR) + bytes.len() <= self.kept.len());
        for (sector, bytes) in (sector as usize..).zip(bytes.chunks_exact(SECTOR)) {
            self.fail()?;
            self.events.push(Event::Write(sector, bytes.to_vec()));
            self.back.push((sector, bytes.to_vec()));
        }
        Ok(())
    }

    fn flush(&mut self) -> io::Result<()> {
        self.fail()?;
        self.events.push(Event::Flush);
        self.settle_down();
        Ok(())
    }
}
