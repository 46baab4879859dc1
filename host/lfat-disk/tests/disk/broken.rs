//! Builds with something left out must fail the tests: each is found out by the same examination that finds nothing in the
//! one that ships.

use crate::support::cards::{two_files, verbs, ROUTE};
use crate::support::cuts::{examine, Build, Depth, Ships, Unflushed};
use crate::support::lying::Lying;
use lfat_disk::lists::{Lists, Planned};
use lfat_disk::{Operation, Program};
use reference::Ground;
use testkit::AT;

const DEPTH: Depth = Depth {
    all_below: 4,
    recoveries: false,
};

/// What the examination runs into, for each verb that fails.
fn faults(build: &impl Build) -> Vec<String> {
    let card = two_files();
    let verbs = verbs();
    let faults = verbs
        .iter()
        .filter_map(|verb| examine(build, &card, verb, DEPTH).err());
    faults.collect()
}

/// A build that never flushes.
pub struct NoFlushes;

impl Build for NoFlushes {
    type Disk<'a> = Unflushed<'a>;
    type Lists = Planned;

    fn disk<'a>(&self, disk: &'a mut Lying) -> Unflushed<'a> {
        Unflushed {
            disk,
            at_opening_only: false,
        }
    }

    fn lists(&self) -> Planned {
        Planned
    }
}

#[test]
fn without_flushes() {
    let faults = faults(&NoFlushes);
    faults.iter().for_each(|fault| println!("{fault}"));
    assert_eq!(faults.len(), verbs().len(), "every verb is found out");
}

/// A list that is wrong in one way.
#[derive(Clone, Copy, Debug)]
enum Wrong {
    /// The first store of FAT2 or data is left out.
    Dropped,
    /// Data goes one sector too far.
    Shifted,
    /// The root directory is stored before the log record.
    Early,
    /// The log record is no barrier.
    NoBarrier,
    /// One byte of the first store is another.
    Altered,
}

/// Lists that are wrong, held against the library or not.
#[derive(Clone, Copy)]
struct WrongLists {
    wrong: Wrong,
    is_checked: bool,
}

impl Lists for WrongLists {
    fn program<'a>(&self, card: &[u8], operation: &Operation<'a>) -> Result<Program<'a>, Ground> {
        let mut program = reference::program(card, operation)?;
        if *operation != Operation::Recover && program.segments.len() >= 2 {
            spoil(&mut program, self.wrong);
        }
        Ok(program)
    }

    fn is_used(&self, agrees: bool) -> bool {
        agrees || !self.is_checked
    }
}

fn spoil(program: &mut Program, wrong: Wrong) {
    let mut finish = program.segments.pop().expect("two segments");
    let prepare = &mut program.segments[0];
    match wrong {
        Wrong::Dropped if prepare.stores.is_empty() => drop(finish.stores.pop()),
        Wrong::Dropped => drop(prepare.stores.remove(0)),
        Wrong::Shifted => match prepare.stores.first_mut() {
            Some(first) => first.first += 1,
            None => finish.stores[0].first += 1,
        },
        Wrong::Early => prepare.stores.extend(finish.stores.pop()),
        Wrong::NoBarrier => {
            let mut joined = std::mem::take(prepare);
            let record = joined.barrier.take().expect("the log record");
            joined.push(record);
            joined.stores.append(&mut finish.stores);
            finish.stores = joined.stores;
            program.segments.clear();
        }
        Wrong::Altered => match prepare.stores.first_mut() {
            Some(first) => first.bytes.to_mut()[30] ^= 1,
            None => finish.stores[0].bytes.to_mut()[30] ^= 1,
        },
    }
    program.segments.push(finish);
}

impl Build for WrongLists {
    type Disk<'a> = &'a mut Lying;
    type Lists = WrongLists;

    fn disk<'a>(&self, disk: &'a mut Lying) -> &'a mut Lying {
        disk
    }

    fn lists(&self) -> WrongLists {
        *self
    }
}

const WRONG: [Wrong; 5] = [
    Wrong::Dropped,
    Wrong::Shifted,
    Wrong::Early,
    Wrong::NoBarrier,
    Wrong::Altered,
];

/// With the check, a wrong list writes nothing, and the call says so.
#[test]
fn wrong_lists_write_nothing() {
    for wrong in WRONG {
        let build = WrongLists {
            wrong,
            is_checked: true,
        };
        assert_eq!(faults(&build), Vec::<String>::new());
        for verb in verbs() {
            let start = Lying::new(&two_files());
            let (disk, answer) = crate::support::cuts::run(&build, &start, &verb);
            assert!(
                matches!(answer, Err(lfat_disk::Error::Disagree)),
                "{wrong:?}, {verb:?}: {answer:?}"
            );
            assert!(disk.kept == *two_files() && disk.back.is_empty());
        }
    }
}

/// Without it, the same lists are found out by what they leave on the card.
#[test]
fn without_the_replay_check() {
    for wrong in WRONG {
        let faults = faults(&WrongLists {
            wrong,
            is_checked: false,
        });
        println!("{wrong:?}: {} verbs", faults.len());
        faults.iter().for_each(|fault| println!("  {fault}"));
        assert!(!faults.is_empty(), "{wrong:?} is found out");
    }
}

/// The library in another state than the list was made for: after a refusal and after a list that does not agree, the card
/// in memory is as on the disk, and the next call is right.
#[test]
fn the_next_call_is_right() {
    let mut disk = Lying::new(&two_files());
    let lists = WrongLists {
        wrong: Wrong::Altered,
        is_checked: true,
    };
    let mut card =
        lfat_disk::DiskCard::on(&mut disk, lists, lfat_disk::Access::Write).expect("opened");
    let before = card.window().to_vec();
    assert!(matches!(
        card.append(ROUTE, &[1; 900], AT),
        Err(lfat_disk::Error::Disagree)
    ));
    assert!(card.window() == before);
    assert!(matches!(
        card.create(ROUTE, AT),
        Err(lfat_disk::Error::Refused(_))
    ));
    assert!(card.window() == before);
    assert_eq!(card.recover().expect("nothing to do"), 0);
    drop(card);
    let tried = examine(&Ships, &disk.kept.to_vec(), &verbs()[4], DEPTH).expect("old or new");
    assert!(tried.new > 0);
}
