//! The cuts and recoveries of one operation.

use super::random::Random;
use super::report::{Cut, Report};
use super::stage::Stage;
use super::state::{is_sound, State};
use crate::failure::Failure;
use crate::progress::Progress;
use lfat_card::{Answer, Refusal, NO_LIMIT};
use lfat_disk::areas::{Areas, Snapshot};
use lfat_disk::disk::Disk;
use lfat_disk::layout::bytes;
use lfat_disk::lists::{add, call, Lists};
use lfat_disk::memory::Memory;
use lfat_disk::volume::Volume;
use lfat_disk::{DiskCard, Error, Operation, Program};
use std::ops::Range;

/// Longer lists are played, not run by the library anew for each cut; of longer runs of data, cuts are tried in half as many
/// places.
const LONG: usize = 4_096;

/// Where a log record has its long-name count.
const LONG_NAME_COUNT: usize = 12;

#[derive(Clone, Copy, Debug)]
pub struct Settings {
    /// How many recoveries in a row are cut in every place.
    pub depth: usize,
    /// Random sequences of cut recoveries for each cut.
    pub random: usize,
    pub seed: u64,
    /// Swaps two stores, to see that the rack notices.
    pub swap: Option<Swap>,
}

/// Which two stores are swapped.
#[derive(Clone, Copy, Debug, PartialEq, Eq)]
pub enum Swap {
    /// The last two: root directory and commit mark, or of a format the end of the log and the boot sector.
    Last,
    /// Two of them, counted from 1.
    Two(usize, usize),
}

/// One operation on the rack.
pub struct Rack<'a> {
    pub operation: &'a Operation<'a>,
    pub settings: &'a Settings,
    pub areas: Areas,
    /// Each store's sector and bytes.
    pub stores: Vec<(usize, &'a [u8])>,
    /// How many stores there are up to the log record's.
    pub recorded: usize,
    pub old: State<'a>,
    pub new: State<'a>,
    pub memory: &'a mut Memory,
    /// The sectors that the operation may store.
    known: Vec<Range<usize>>,
    /// Tables and log as they were at the start.
    start: &'a Snapshot,
    /// How many stores of the list have been played, where it is.
    played: usize,
    pub random: Random,
    /// The limits of the recoveries in the present sequence.
    pub limits: Vec<u32>,
    pub mismatch: Option<String>,
}

/// Cuts an operation after every number of stores and recovers in many ways. The disk is left alone; in memory the operation
/// is made in the end.
pub fn run<'d, D: Disk, L: Lists>(
    card: &mut DiskCard<D, L>,
    operation: &Operation<'d>,
    settings: &Settings,
) -> Result<Report<'d>, Error> {
    let start = card.memory().save();
    let program = card.rehearse(operation)?;
    let memory = card.memory();
    let (Some(areas), Some(start), Some(after)) = (memory.areas.clone(), start, memory.save())
    else {
        return Err(Error::Disagree);
    };
    memory.restore(&start);
    let read = memory.loaded.clone();
    let volume = Volume::open(&memory.window).ok_or(Refusal::Window)?;
    let sound = is_sound(&volume);
    let right: Vec<(usize, &[u8])> = program.sectors().collect();
    let mut old = State::before(&volume, &start, &read);
    let mut new = State::after(&areas, &after, &right);
    if !sound {
        (old, new) = (old.without_files(), new.without_files());
    }
    let stage = |store: &(usize, &[u8])| Stage::of(&areas, store.0, store.1);
    let record = right.iter().find(|store| stage(store) == Stage::Record);
    let long_entries = record.map_or(0, |(_, stored)| usize::from(stored[LONG_NAME_COUNT]));
    let mut stores = right;
    if let Some(swap) = settings.swap {
        make_swap(&mut stores, swap);
    }
    let record = stores
        .iter()
        .position(|store| stage(store) == Stage::Record);
    let places = places(&stores, |store| stage(store) == Stage::Data);
    let mut rack = Rack {
        operation,
        settings,
        areas: areas.clone(),
        recorded: record.map_or(usize::MAX, |at| at + 1),
        old,
        new,
        stores,
        memory,
        known: known(&areas, &program),
        start: &start,
        played: 0,
        random: Random::new(settings.seed),
        limits: Vec::new(),
        mismatch: None,
    };
    rack.start_again().map_err(Error::Disk)?;
    let mut progress = Progress::new("cut");
    let mut cuts = Vec::new();
    for (index, &made) in places.iter().enumerate() {
        progress.step(index, places.len());
        cuts.push(rack.cut(made).map_err(Error::Disk)?);
    }
    drop(progress);
    let (count, mismatch) = (rack.stores.len(), rack.mismatch.take());
    rack.start_again().map_err(Error::Disk)?;
    call(&mut rack.memory.window, operation, NO_LIMIT);
    Ok(Report {
        operation: *operation,
        stores: count,
        long_entries,
        sound,
        cuts,
        mismatch,
    })
}

/// After how many stores the power goes: after every number, but in a long run of data stores only here and there.
fn places(stores: &[(usize, &[u8])], is_data: impl Fn(&(usize, &[u8])) -> bool) -> Vec<usize> {
    let data = stores.iter().take_while(|store| is_data(store)).count();
    let step = if data > LONG {
        data.div_ceil(LONG / 2)
    } else {
        1
    };
    let mut places: Vec<usize> = (0..data).step_by(step).collect();
    places.extend(data..=stores.len());
    places
}

/// The sectors that an operation may store.
fn known(areas: &Areas, program: &Program) -> Vec<Range<usize>> {
    let mut known = vec![areas.tables(), areas.log.clone()];
    let sectors = program.sectors().map(|(sector, _)| sector);
    sectors
        .filter(|&sector| areas.is_data(sector))
        .for_each(|sector| add(&mut known, sector));
    known
}

/// Which stores a swap means, counted from 1; an error in words if they are not there.
pub fn swapped(count: usize, swap: Swap) -> Result<(usize, usize), Failure> {
    let (one, other) = match swap {
        Swap::Last => (count.saturating_sub(1), count),
        Swap::Two(one, other) => (one, other),
    };
    let there = 1..=count;
    if one == other || !there.contains(&one) || !there.contains(&other) {
        let what = format!("--break: no two of the {count} stores are {one} and {other}");
        return Err(Failure::Usage(what));
    }
    Ok((one, other))
}

pub fn make_swap(stores: &mut [(usize, &[u8])], swap: Swap) {
    if let Ok((one, other)) = swapped(stores.len(), swap) {
        stores.swap(one - 1, other - 1);
    }
}

impl Rack<'_> {
    /// Cuts the operation after so many stores, then recovers to the end in all the ways.
    fn cut(&mut self, made: usize) -> std::io::Result<Cut> {
        let last = made.checked_sub(1).map(|at| self.stores[at]);
        let last = last.map(|(sector, stored)| Stage::of(&self.areas, sector, stored));
        let mut cut = Cut::after(made, last);
        self.limits.clear();
        if let Err(what) = self.make(made)? {
            self.fail(&mut cut, &what);
            return Ok(cut);
        }
        let here = self.areas.save(&self.memory.window);
        if let Some(needed) = self.explore(&mut cut, self.settings.depth, 0) {
            for _ in 0..self.settings.random {
                self.areas.restore(&mut self.memory.window, &here);
                self.wander(&mut cut, needed + 2);
            }
        }
        self.areas.restore(&mut self.memory.window, &here);
        if !self.memory.rest_is_as_read(self.known.clone())? {
            self.fail(
                &mut cut,
                "a sector is touched that the operation does not store",
            );
        }
        Ok(cut)
    }

    /// The card as it was at the start.
    fn start_again(&mut self) -> std::io::Result<()> {
        self.memory.clear_data()?;
        self.memory.restore(self.start);
        self.played = 0;
        Ok(())
    }

    /// Makes the first stores: the library does, with a limit, unless two are swapped or there are very many.
    fn make(&mut self, made: usize) -> std::io::Result<Result<(), String>> {
        if self.settings.swap.is_some() || self.stores.len() > LONG {
            for (sector, stored) in &self.stores[self.played..made] {
                self.memory.window[bytes(&(*sector..sector + 1))].copy_from_slice(stored);
            }
            self.played = made;
            return Ok(Ok(()));
        }
        self.start_again()?;
        let expected = match made < self.stores.len() {
            true => Answer::Stopped(made as u32),
            false => Answer::Done(made as u32),
        };
        let answer = call(&mut self.memory.window, self.operation, made as u32);
        Ok(match answer == expected {
            true => Ok(()),
            false => Err(format!("the operation answered {answer:?}")),
        })
    }
}
