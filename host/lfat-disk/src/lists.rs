//! Where a call's list of stores comes from, and how it is held against the proved library.
//!
//! The library makes its stores itself, in memory. To make the same ones on a disk, they must be known one by one, and where
//! the barriers stand among them. The list is that of the plain implementation, which knows what each call is; here no kind of
//! call is told from another, but for a format, whose card is not there yet. Before anything is written, the list is held against the
//! library:
//!
//! - the barriers are the stores into the log that are no clearing, and perhaps some into the root directory, whose order counts; of a
//!   format they are the two stores of the boot sector, and no others;
//! - the library, stopped before and after each barrier and then left to its end, answers as many stores as the list has up to there;
//! - and each time the list, played on the card as it was, gives the library's card: every sector of it.

use crate::areas::{Areas, Snapshot};
use crate::error::Error;
use crate::layout::bytes;
use crate::memory::Memory;
use lfat_card::{calls, Answer, NO_LIMIT};
use reference::{Ground, Operation, Program};
use std::ops::Range;

/// The source of lists. `Planned` is the one in use; tests put wrong ones in its place.
pub trait Lists {
    /// The call's list of stores on the card as it stands.
    fn program<'a>(&self, card: &[u8], operation: &Operation<'a>) -> Result<Program<'a>, Ground> {
        reference::program(card, operation)
    }

    /// Whether a list is used, given whether it agrees with the library.
    fn is_used(&self, agrees: bool) -> bool {
        agrees
    }
}

/// The plain implementation's lists, each of which must agree.
pub struct Planned;

impl Lists for Planned {}

/// Makes a call of the library, with at most so many stores.
pub fn call(card: &mut [u8], operation: &Operation, limit: u32) -> Answer {
    match *operation {
        Operation::Create { name, seconds } => calls::create(card, name, seconds, limit),
        Operation::CreateLong {
            name,
            characters,
            seconds,
        } => calls::create_long(card, name, characters, seconds, limit),
        Operation::Append {
            name,
            data,
            seconds,
        } => calls::append(card, name, data, seconds, limit),
        Operation::Replace {
            name,
            data,
            seconds,
        } => calls::replace(card, name, data, seconds, limit),
        Operation::Truncate {
            name,
            size,
            seconds,
        } => calls::truncate(card, name, size, seconds, limit),
        Operation::Delete { name } => calls::delete(card, name, limit),
        Operation::Rename { old, new } => calls::rename(card, old, new, limit),
        Operation::Recover => calls::recover(card, limit),
        Operation::Format {
            total,
            per_cluster,
            log_clusters,
        } => calls::format(card, total, per_cluster, log_clusters, limit),
    }
}

/// Runs a call to its end on a card in memory; gives its list of stores. A refused call leaves the card as it was, and so
/// does a list that does not agree. `earlier` are the lists of calls made since the data was last as on the disk; `tick` is told the
/// number of stores from time to time, while they are checked.
pub fn run<'a>(
    memory: &mut Memory,
    lists: &impl Lists,
    operation: &Operation<'a>,
    earlier: &[Program],
    tick: &mut dyn FnMut(usize),
) -> Result<Program<'a>, Error> {
    // A refusal is the same under every limit.
    if let Answer::Refused(refusal) = call(&mut memory.window, operation, 0) {
        return Err(refusal.into());
    }
    let planned = lists.program(&memory.window, operation);
    let (Some(areas), Some(before), Ok(program)) = (memory.areas.clone(), memory.save(), planned)
    else {
        return Err(Error::Disagree);
    };
    let mut check = Check {
        memory,
        areas,
        before,
        earlier,
        tick,
    };
    let agrees = check.holds(operation, &program).map_err(Error::Disk)?;
    if !lists.is_used(agrees) {
        check.start_again();
        return Err(Error::Disagree);
    }
    Ok(program)
}

/// A card in memory on which the library is run, and what it was before.
struct Check<'a, 'p> {
    memory: &'a mut Memory,
    areas: Areas,
    before: Snapshot,
    earlier: &'a [Program<'p>],
    tick: &'a mut dyn FnMut(usize),
}

impl Check<'_, '_> {
    fn start_again(&mut self) {
        self.memory.restore(&self.before);
    }

    /// Whether the list agrees with the library. The library has made the whole call in the end.
    fn holds(&mut self, operation: &Operation, program: &Program) -> std::io::Result<bool> {
        let count = program.count();
        let mut agrees = self.barriers_stand(program);
        let mut made = 0;
        for segment in &program.segments {
            made += segment.count();
            // Just before the barrier, and with it; the last one ends the list.
            let stops = [made.saturating_sub(1), made];
            for stop in stops.into_iter().filter(|_| made < count) {
                agrees = agrees && self.holds_up_to(operation, program, stop)?;
                (self.tick)(count);
            }
        }
        let answer = call(&mut self.memory.window, operation, NO_LIMIT);
        Ok(agrees && answer == Answer::Done(count as u32) && self.is_played(program, count)?)
    }

    /// Whether the library, stopped after so many stores, has made those of the list.
    fn holds_up_to(
        &mut self,
        operation: &Operation,
        program: &Program,
        stop: usize,
    ) -> std::io::Result<bool> {
        let answer = call(&mut self.memory.window, operation, stop as u32);
        let holds = answer == Answer::Stopped(stop as u32) && self.is_played(program, stop)?;
        self.start_again();
        Ok(holds)
    }

    /// Every segment but the last ends in a barrier. All marks are barriers, and no others but some stores into the root directory,
    /// of a format not even those.
    fn barriers_stand(&self, program: &Program) -> bool {
        let areas = &self.areas;
        let is_root = |sector| !areas.is_new && areas.layout.root().contains(&sector);
        let last = program.segments.len().saturating_sub(1);
        program.segments.iter().enumerate().all(|(at, segment)| {
            let mut others = segment.stores.iter().flat_map(|extent| extent.sectors());
            let barrier = match &segment.barrier {
                Some(store) => is_root(store.sector) || areas.is_mark(store.sector, &store.bytes),
                None => at == last,
            };
            barrier && !others.any(|(sector, stored)| areas.is_mark(sector, stored))
        })
    }

    /// Whether the window is what the first stores of the list make of the card as it was.
    fn is_played(&self, program: &Program, made: usize) -> std::io::Result<bool> {
        let window = &self.memory.window;
        let mut played = self.before.clone();
        let mut known = vec![self.areas.tables(), self.areas.log.clone()];
        for (sector, stored) in program.sectors().take(made) {
            if self.areas.play(&mut played, sector, stored) {
                continue;
            }
            if window.get(bytes(&(sector..sector + 1))) != Some(stored) {
                return Ok(false);
            }
            add(&mut known, sector);
        }
        for (sector, _) in self.earlier.iter().flat_map(Program::sectors) {
            add(&mut known, sector);
        }
        Ok(played == self.areas.save(window) && self.memory.rest_is_as_read(known)?)
    }
}

/// Adds a sector to a list of runs; one that follows the last joins it.
pub fn add(runs: &mut Vec<Range<usize>>, sector: usize) {
    match runs.last_mut() {
        Some(last) if last.end == sector => last.end += 1,
        _ => runs.push(sector..sector + 1),
    }
}
