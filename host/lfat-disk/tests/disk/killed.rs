//! A program that is killed in mid-save: the machine goes on, and what was written is still kept back when the next program
//! opens the card. Then the power goes.

use crate::support::cards::{state, two_files, verbs, Verb, NEW};
use crate::support::cuts::{judge, run, states, Build, Ships, Tried, Unflushed};
use crate::support::lying::Lying;
use crate::support::random::Random;
use lfat_disk::lists::Planned;
use lfat_disk::{Access, DiskCard, Operation};
use testkit::AT;

/// A build that flushes while it writes, but not before it reads.
struct NoFlushAtOpening;

impl Build for NoFlushAtOpening {
    type Disk<'a> = Unflushed<'a>;
    type Lists = Planned;

    fn disk<'a>(&self, disk: &'a mut Lying) -> Unflushed<'a> {
        Unflushed {
            disk,
            at_opening_only: true,
        }
    }

    fn lists(&self) -> Planned {
        Planned
    }
}

/// Kills a verb after every disk operation; the next program recovers the card and makes another call; cuts that everywhere.
fn examine(build: &impl Build, verb: &Verb) -> Result<Tried, String> {
    let card = two_files();
    let next = Operation::Create {
        name: NEW,
        seconds: AT,
    };
    let mut allowed = states(&card, verb)?;
    let mut random = Random::new(0x3C6E_F372_FE94_F82B);
    let mut tried = Tried::default();
    let start = Lying::new(&card);
    let (first, answer) = run(build, &start, verb);
    answer.map_err(|error| error.to_string())?;
    // The next call may come on top of the old state or of a new one.
    for state in allowed.clone() {
        if !state.iter().any(|entry| entry.1 == NEW) {
            allowed.push(with_new(&card, verb, &state)?);
        }
    }
    for events in 0..=first.events.len() {
        let killed = first.after(&start, events);
        let mut disk = killed.clone();
        disk.events.clear();
        let mut opened = DiskCard::on(build.disk(&mut disk), build.lists(), Access::Write)
            .map_err(|error| error.to_string())?;
        opened.recover().map_err(|error| error.to_string())?;
        // Where the name is there already, it is refused.
        let _ = opened.save(&[next], u32::MAX);
        drop(opened);
        for later in 0..=disk.events.len() {
            for left in disk.after(&killed, later).cuts(4, &mut random) {
                judge(&Ships, &Lying::on(left), &allowed, &mut tried).map_err(|found| {
                    format!("{verb:?}, killed after {events}, cut after {later}: {found}")
                })?;
            }
        }
    }
    Ok(tried)
}

/// A state, with the empty file that the next call makes.
fn with_new(
    card: &[u8],
    verb: &Verb,
    wanted: &crate::support::cards::State,
) -> Result<crate::support::cards::State, String> {
    let mut now = card.to_vec();
    if let Verb::Calls(calls) = verb {
        for call in calls {
            if state(&now)? == *wanted {
                break;
            }
            reference::run(&mut now, call, u32::MAX);
        }
    }
    reference::create(&mut now, NEW, AT, u32::MAX);
    state(&now)
}

fn calls() -> Vec<Verb> {
    let verbs = verbs().into_iter();
    verbs
        .filter(|verb| matches!(verb, Verb::Calls(_)))
        .collect()
}

#[test]
fn every_verb_killed() {
    for verb in calls() {
        let tried = examine(&Ships, &verb).unwrap_or_else(|what| panic!("{what}"));
        assert!(tried.cuts > 20, "{verb:?}: {tried:?}");
    }
}

#[test]
fn without_a_flush_at_opening() {
    let faults: Vec<String> = calls()
        .iter()
        .filter_map(|verb| examine(&NoFlushAtOpening, verb).err())
        .collect();
    faults.iter().for_each(|fault| println!("{fault}"));
    assert!(faults.len() > 3, "{faults:?}");
}
