//! Cuts of a verb after every disk operation, with what each may leave, recovered: old or new, never else.

use super::cards::{card_over, state, State, Verb};
use super::kept::Kept;
use super::lying::Lying;
use super::random::Random;
use lfat_disk::lists::{Lists, Planned};
use lfat_disk::{Access, Disk, DiskCard, Error};
use std::io;

/// The disk layer under test: the one that ships, or one with something left out.
pub trait Build {
    /// The disk as this build uses it.
    type Disk<'a>: Disk;
    type Lists: Lists;

    fn disk<'a>(&self, disk: &'a mut Lying) -> Self::Disk<'a>;
    fn lists(&self) -> Self::Lists;
}

/// The one that ships.
pub struct Ships;

impl Build for Ships {
    type Disk<'a> = &'a mut Lying;
    type Lists = Planned;

    fn disk<'a>(&self, disk: &'a mut Lying) -> &'a mut Lying {
        disk
    }

    fn lists(&self) -> Planned {
        Planned
    }
}

/// A disk that lacks some of its flushes: those that a build does not make.
pub struct Unflushed<'a> {
    pub disk: &'a mut Lying,
    pub at_opening_only: bool,
}

impl Disk for Unflushed<'_> {
    fn bytes(&self) -> u64 {
        self.disk.bytes()
    }

    fn read(&mut self, sector: u64, buffer: &mut [u8]) -> io::Result<()> {
        self.disk.read(sector, buffer)
    }

    fn write(&mut self, sector: u64, bytes: &[u8]) -> io::Result<()> {
        self.disk.write(sector, bytes)
    }

    fn flush(&mut self) -> io::Result<()> {
        match self.at_opening_only {
            true => self.disk.flush(),
            false => Ok(()),
        }
    }

    fn settle(&mut self) -> io::Result<()> {
        Ok(())
    }
}

/// What was tried.
#[derive(Default, Debug)]
pub struct Tried {
    pub cuts: usize,
    pub old: usize,
    pub new: usize,
}

/// How thoroughly a verb is cut.
#[derive(Clone, Copy)]
pub struct Depth {
    /// All choices are tried of so many writes that are kept back.
    pub all_below: usize,
    /// Recoveries are cut too.
    pub recoveries: bool,
}

/// Runs a verb to its end; gives the disk with its events.
pub fn run(build: &impl Build, start: &Lying, verb: &Verb) -> (Lying, Result<u32, Error>) {
    let mut disk = start.clone();
    disk.events.clear();
    let opened = DiskCard::on(build.disk(&mut disk), build.lists(), Access::Write);
    let answer = opened.and_then(|mut card| verb.run(&mut card));
    (disk, answer)
}

/// Opens a card and recovers it, to the end.
pub fn recovered(build: &impl Build, start: &Lying) -> Result<Lying, String> {
    let mut disk = start.clone();
    disk.events.clear();
    DiskCard::on(build.disk(&mut disk), build.lists(), Access::Write)
        .and_then(|mut card| card.recover())
        .map_err(|error| format!("recovery: {error}"))?;
    Ok(disk)
}

/// The states that a verb may leave: the one before it, and those after each of its calls.
pub fn states(card: &[u8], verb: &Verb) -> Result<Vec<State>, String> {
    let mut states = vec![state(card)?];
    let mut now = card.to_vec();
    match verb {
        Verb::Calls(calls) => {
            for call in calls {
                reference::run(&mut now, call, u32::MAX);
                states.push(state(&now)?);
            }
        }
        Verb::DeleteSlot(slot) => {
            let mut after = states[0].clone();
            let ended = ended(card, *slot);
            after.retain(|entry| !ended.contains(&entry.0));
            states.push(after);
        }
        Verb::RenameSlot(slot, new) => {
            let mut after = states[0].clone();
            // The new slot is the lowest free one.
            let lowest = (0..).find(|slot| after.iter().all(|entry| entry.0 != *slot));
            let at = after.iter().position(|entry| entry.0 == *slot);
            let mut entry = after[at.ok_or("no such slot")?].clone();
            (entry.0, entry.1) = (lowest.ok_or("no free slot")?, new.to_vec());
            let ended = ended(card, *slot);
            after.retain(|entry| !ended.contains(&entry.0));
            after.push(entry);
            after.sort();
            states.push(after);
        }
    }
    Ok(states)
}

/// A slot and the long entries that belong to it.
fn ended(card: &[u8], slot: usize) -> std::ops::RangeInclusive<usize> {
    slot - card_over(card).long_entries(slot)..=slot
}

/// Cuts a verb after every event, and judges what recoveries make of it. An error in words is what went wrong.
pub fn examine(
    build: &impl Build,
    card: &[u8],
    verb: &Verb,
    depth: Depth,
) -> Result<Tried, String> {
    let allowed = states(card, verb)?;
    let start = Lying::new(card);
    let (run, answer) = run(build, &start, verb);
    let mut tried = Tried::default();
    let mut random = Random::new(0x6A09_E667_F3BC_C908);
    if let Err(error) = answer {
        // What is not done must leave no trace.
        let is_as_before = run.kept == *card && run.back.is_empty();
        return match is_as_before {
            true => Ok(tried),
            false => Err(format!("{verb:?}: {error}, but the card has changed")),
        };
    }
    for events in 0..=run.events.len() {
        let disk = run.after(&start, events);
        let is_ended = events == run.events.len();
        for left in disk.cuts(depth.all_below, &mut random) {
            let allowed = match is_ended {
                // What is done stays done.
                true => &allowed[allowed.len() - 1..],
                false => &allowed[..],
            };
            let what =
                |found: String| format!("{verb:?}, cut after {events} disk operations: {found}");
            judge(build, &Lying::on(left.clone()), allowed, &mut tried).map_err(what)?;
            if depth.recoveries {
                cut_recoveries(build, &left, allowed, &mut random, &mut tried).map_err(what)?;
                wander(build, left, allowed, &mut random, &mut tried).map_err(what)?;
            }
        }
    }
    Ok(tried)
}

/// Cuts the recovery of a card after every event, then recovers to the end.
fn cut_recoveries(
    build: &impl Build,
    card: &Kept,
    allowed: &[State],
    random: &mut Random,
    tried: &mut Tried,
) -> Result<(), String> {
    let start = Lying::on(card.clone());
    let run = recovered(build, &start)?;
    for events in 0..=run.events.len() {
        let disk = run.after(&start, events);
        for left in disk.cuts(2, random) {
            judge(build, &Lying::on(left), allowed, tried)
                .map_err(|found| format!("recovery cut after {events}: {found}"))?;
        }
    }
    Ok(())
}

/// Some recoveries in a row, each cut somewhere, then one to the end.
fn wander(
    build: &impl Build,
    mut card: Kept,
    allowed: &[State],
    random: &mut Random,
    tried: &mut Tried,
) -> Result<(), String> {
    for _ in 0..random.below(5) {
        let start = Lying::on(card);
        let run = recovered(build, &start)?;
        let disk = run.after(&start, random.below(run.events.len() + 1));
        let choice = random.next();
        card = disk.cut(|index| choice >> (index % 64) & 1 == 1);
    }
    judge(build, &Lying::on(card), allowed, tried)
        .map_err(|found| format!("recoveries cut in a row: {found}"))
}

/// Recovers to the end: the card is then in one of the states, and one more recovery writes nothing.
pub fn judge(
    build: &impl Build,
    disk: &Lying,
    allowed: &[State],
    tried: &mut Tried,
) -> Result<(), String> {
    tried.cuts += 1;
    let done = recovered(build, disk)?;
    let found = done.cut(|_| true).with(state)?;
    match allowed.iter().position(|state| *state == found) {
        Some(at) if at + 1 == allowed.len() => tried.new += 1,
        Some(_) => tried.old += 1,
        None => return Err(difference(&allowed[0], &found)),
    }
    Ok(())
}

/// What is neither old nor new, in words.
fn difference(old: &State, found: &State) -> String {
    let names = |state: &State| {
        let words = state.iter().map(|entry| {
            let name = String::from_utf8_lossy(&entry.1).into_owned();
            format!("{name} {} bytes", entry.3.len())
        });
        words.collect::<Vec<_>>().join(", ")
    };
    format!(
        "neither old nor new: was [{}], is [{}]",
        names(old),
        names(found)
    )
}
