//! The cuts of a format. No recovery follows them: what is cut is formatted again.

use super::random::Random;
use super::report::{Cut, Report};
use super::run::{make_swap, Settings};
use super::stage::Stage;
use crate::content;
use crate::progress::Progress;
use lfat_card::{calls, Answer, Form, Refusal, NO_LIMIT};
use lfat_disk::areas::Areas;
use lfat_disk::disk::Disk;
use lfat_disk::layout::{bytes, SECTOR};
use lfat_disk::lists::{call, Planned};
use lfat_disk::memory::Memory;
use lfat_disk::{formatting, Access, DiskCard, Error, Operation};
use std::io;

/// Of longer lists, a format that is begun again is not cut in every place.
const WIDE: usize = 160;

/// A call by name, made on a card.
type Call = (&'static str, fn(&mut [u8]) -> Answer);

/// Every other call, first of all those that store nothing.
const OTHERS: [Call; 12] = [
    ("list", |card| calls::list(card, &mut [])),
    ("read", |card| calls::read(card, NAME, 0, &mut [])),
    ("long_name", |card| calls::long_name(card, NAME, &mut [])),
    ("fits", |card| calls::fits(card, 0)),
    ("recover", |card| calls::recover(card, NO_LIMIT)),
    ("create", |card| calls::create(card, NAME, 0, NO_LIMIT)),
    ("create_long", |card| {
        calls::create_long(card, NAME, b"a\0", 0, NO_LIMIT)
    }),
    ("append", |card| {
        calls::append(card, NAME, b"G0", 0, NO_LIMIT)
    }),
    ("replace", |card| {
        calls::replace(card, NAME, b"G0", 0, NO_LIMIT)
    }),
    ("truncate", |card| {
        calls::truncate(card, NAME, 0, 0, NO_LIMIT)
    }),
    ("rename", |card| {
        calls::rename(card, NAME, b"PANEL   CUT", NO_LIMIT)
    }),
    ("delete", |card| calls::delete(card, NAME, NO_LIMIT)),
];

const NAME: &[u8] = b"ROUTE   CUT";

/// A format on the rack. It stores the first sectors of the card, up to the end of the log, and the first of them once more.
struct Rack<'a> {
    operation: &'a Operation<'a>,
    settings: &'a Settings,
    areas: Areas,
    /// Each store's sector and bytes.
    stores: Vec<(usize, &'a [u8])>,
    memory: &'a mut Memory,
    /// The sectors that are stored, as they were and as they are to be.
    old: &'a [u8],
    new: Vec<u8>,
    random: Random,
    mismatch: Option<String>,
}

/// What a card is found to be.
#[derive(Clone, Copy)]
enum Found {
    Old,
    /// Every other call refuses it.
    Refused,
    New,
}

/// Cuts a format after every number of stores, looks, and begins it again. The disk is left alone.
pub fn run(
    disk: &mut impl Disk,
    form: Form,
    settings: &Settings,
) -> Result<Report<'static>, Error> {
    let operation = formatting(form);
    let front = content::front(disk).map_err(Error::Disk)?;
    let mut card = DiskCard::on(disk, Planned, Access::Read)?;
    let program = card.rehearse(&operation)?;
    let memory = card.memory();
    let areas = memory.areas.clone().ok_or(Error::Disagree)?;
    let stored = bytes(&(0..areas.log.end));
    let mut stores: Vec<(usize, &[u8])> = program.sectors().collect();
    if let Some(swap) = settings.swap {
        make_swap(&mut stores, swap);
    }
    let mut rack = Rack {
        operation: &operation,
        settings,
        areas,
        stores,
        new: memory.window[stored.clone()].to_vec(),
        old: &front[stored],
        memory,
        random: Random::new(settings.seed),
        mismatch: None,
    };
    let count = rack.stores.len();
    let mut progress = Progress::new("cut");
    let mut cuts = Vec::new();
    for made in 0..=count {
        progress.step(made, count);
        cuts.push(rack.cut(made).map_err(Error::Disk)?);
    }
    Ok(Report {
        operation,
        stores: count,
        long_entries: 0,
        sound: true,
        cuts,
        mismatch: rack.mismatch,
    })
}

impl Rack<'_> {
    /// Cuts the format after so many stores, looks, and begins it again in many ways.
    fn cut(&mut self, made: usize) -> io::Result<Cut> {
        let last = made.checked_sub(1).map(|at| self.stores[at]);
        let last = last.map(|(sector, stored)| Stage::of(&self.areas, sector, stored));
        let mut cut = Cut::after(made, last);
        if let Err(what) = self.make(made) {
            self.fail(&mut cut, &what);
            return Ok(cut);
        }
        let here = self.front().to_vec();
        let is_refused = made > 0 && self.look(Found::Refused).is_ok();
        if is_refused && self.front() != here {
            self.fail(&mut cut, "a call that is refused stores something");
        }
        self.begin_again(&mut cut, &[]);
        let count = self.stores.len();
        if self.settings.depth > 0 && count <= WIDE {
            for limit in 0..count {
                self.front().copy_from_slice(&here);
                self.begin_again(&mut cut, &[limit as u32]);
            }
        }
        for _ in 0..self.settings.random {
            self.front().copy_from_slice(&here);
            self.keep_back(made);
            let limit = self.random.below(count as u32);
            self.begin_again(&mut cut, &[limit]);
        }
        let stored = 0..self.areas.log.end;
        if !self.memory.rest_is_as_read(Vec::from([stored]))? {
            self.fail(&mut cut, "a sector is touched that a format does not store");
        }
        Ok(cut)
    }

    /// The sectors that are stored.
    fn front(&mut self) -> &mut [u8] {
        &mut self.memory.window[..self.areas.log.end * SECTOR]
    }

    /// Makes the first stores on what was there: those of the list, and unless two are swapped the library makes the same.
    fn make(&mut self, made: usize) -> Result<(), String> {
        let old = self.old;
        self.front().copy_from_slice(old);
        self.play(|at| at < made);
        if self.settings.swap.is_some() {
            return Ok(());
        }
        let played = self.front().to_vec();
        self.front().copy_from_slice(old);
        self.format(made as u32)?;
        match self.front() == played {
            true => Ok(()),
            false => Err("the stores are not those of the list".to_string()),
        }
    }

    /// Makes some stores of the list.
    fn play(&mut self, mut is_made: impl FnMut(usize) -> bool) {
        for at in (0..self.stores.len()).filter(|&at| is_made(at)) {
            let (sector, stored) = self.stores[at];
            self.memory.window[bytes(&(sector..sector + 1))].copy_from_slice(stored);
        }
    }

    /// On a disk that keeps stores back, some of those since the first are not made, and some after them are; none passes the first
    /// or the last, which a list with two swapped does not have.
    fn keep_back(&mut self, made: usize) {
        let count = self.stores.len();
        if (1..count).contains(&made) && self.settings.swap.is_none() {
            let old = self.old;
            self.front().copy_from_slice(old);
            let chosen: Vec<bool> = (0..count).map(|_| self.random.below(2) == 0).collect();
            self.play(|at| at == 0 || at + 1 < count && chosen[at]);
        }
    }

    /// Makes a format with a limit, which must answer how many stores that leaves.
    fn format(&mut self, limit: u32) -> Result<(), String> {
        let count = self.stores.len() as u32;
        let wanted = match limit < count {
            true => Answer::Stopped(limit),
            false => Answer::Done(count),
        };
        let answer = call(&mut self.memory.window, self.operation, limit);
        match answer == wanted {
            true => Ok(()),
            false => Err(format!("the format answered {answer:?}")),
        }
    }

    /// Looks at what a cut left, then formats again, cut with these limits and then whole.
    fn begin_again(&mut self, cut: &mut Cut, limits: &[u32]) {
        let found = match cut.made {
            0 => Found::Old,
            made if made < self.stores.len() => Found::Refused,
            _ => Found::New,
        };
        let mut ended = self.look(found);
        let mut left = found;
        for &limit in limits.iter().chain([&NO_LIMIT]) {
            left = match limit {
                0 => left,
                NO_LIMIT => Found::New,
                _ => Found::Refused,
            };
            cut.recoveries += 1;
            ended = ended.and_then(|()| {
                let made = self.format(limit).and_then(|()| self.look(left));
                made.map_err(|what| format!("formatted again, with limits {limits:?}: {what}"))
            });
        }
        match (ended, found) {
            (Err(what), _) => self.fail(cut, &what),
            (_, Found::Old) => cut.old += 1,
            (_, Found::Refused) => cut.refused += 1,
            (_, Found::New) => cut.new += 1,
        }
    }

    /// Whether the card is what it has to be; if not, what is wrong.
    fn look(&mut self, wanted: Found) -> Result<(), String> {
        let (old, end) = (self.old, self.old.len());
        let wrong = match wanted {
            Found::Old => (self.front() != old).then(|| "not what was there before".to_string()),
            Found::New if self.memory.window[..end] != self.new => {
                Some("not the new card".to_string())
            }
            Found::New => {
                let answer = calls::list(&self.memory.window, &mut []);
                (answer != Answer::Done(0)).then(|| format!("list answers {answer:?}"))
            }
            Found::Refused => {
                let mut answers = OTHERS
                    .iter()
                    .map(|(call, answer)| (call, answer(&mut self.memory.window)));
                let other = answers.find(|(_, answer)| *answer != Answer::Refused(Refusal::Boot));
                other.map(|(call, answer)| format!("{call} answers {answer:?}, not BOOT"))
            }
        };
        wrong.map_or(Ok(()), Err)
    }

    fn fail(&mut self, cut: &mut Cut, what: &str) {
        cut.mismatch += 1;
        if self.mismatch.is_none() {
            let (made, stage) = (cut.made, cut.stage());
            self.mismatch = Some(format!("cut after {made} stores ({stage}): {what}"));
        }
    }
}
