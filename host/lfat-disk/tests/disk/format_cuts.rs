//! Formats on a disk that lies, cut after every disk operation: the old card is left, or no card, or the new one; and format again
//! ends the same. Builds with something left out are found out by the same examination.

use crate::broken::NoFlushes;
use crate::format::{disks, formatted, K};
use crate::support::cards::{two_files, verbs, Verb, ROUTE};
use crate::support::cuts::{run, Build, Ships};
use crate::support::kept::Kept;
use crate::support::lying::{Event, Fault, Lying};
use crate::support::random::Random;
use lfat_card::Refusal;
use lfat_disk::lists::{Lists, Planned};
use lfat_disk::{formatting, Access, DiskCard, Error, Operation, Program, Segment};
use reference::{Ground, Store};
use std::io::ErrorKind;

/// What cuts have left.
#[derive(Default, Debug)]
struct Tried {
    old: usize,
    none: usize,
    new: usize,
    /// After how many disk operations the old card was last left, and the new one first.
    last_old: usize,
    first_new: usize,
}

fn format() -> Verb {
    Verb::Calls(vec![formatting(K)])
}

/// Formats to the end; an error if that does not give the new card.
fn format_again(build: &impl Build, left: &Kept, new: &[u8]) -> Result<Lying, String> {
    let (disk, answer) = run(build, &Lying::on(left.clone()), &format());
    answer.map_err(|error| format!("format again: {error}"))?;
    match disk.kept == *new && disk.back.is_empty() {
        true => Ok(disk),
        false => Err("format again ends otherwise".to_string()),
    }
}

/// Cuts a format after every event, and judges what is left. An error in words is what went wrong.
fn examine(build: &impl Build, start: &[u8]) -> Result<Tried, String> {
    let new = formatted(start, K);
    let first = Lying::new(start);
    let (whole, answer) = run(build, &first, &format());
    answer.map_err(|error| error.to_string())?;
    let mut random = Random::new(0x6A09_E667_F3BC_C908);
    let mut tried = Tried {
        first_new: usize::MAX,
        ..Tried::default()
    };
    for events in 0..=whole.events.len() {
        for left in whole.after(&first, events).cuts(4, &mut random) {
            let what = |found: &str| format!("cut after {events} disk operations: {found}");
            let is_ended = events == whole.events.len();
            if left == *new {
                tried.new += 1;
                tried.first_new = tried.first_new.min(events);
            } else if is_ended {
                return Err(what("what is done does not stay"));
            } else if left == *start {
                tried.old += 1;
                tried.last_old = events;
            } else {
                is_no_card(build, &left).map_err(|found| what(&found))?;
                tried.none += 1;
            }
            wander(build, left, &new, &mut random).map_err(|found| what(&found))?;
        }
    }
    Ok(tried)
}

/// Its boot sector is zeros; all other calls refuse it with BOOT, and write nothing.
fn is_no_card(build: &impl Build, left: &Kept) -> Result<(), String> {
    let mut boot = [1; 512];
    left.read(0, &mut boot);
    if boot != [0; 512] {
        return Err("neither a card nor none: the boot sector is not zeros".to_string());
    }
    let mut disk = Lying::on(left.clone());
    let opened = DiskCard::on(build.disk(&mut disk), build.lists(), Access::Write);
    let mut card = opened.map_err(|error| error.to_string())?;
    let recovered = Verb::Calls(vec![Operation::Recover]).run(&mut card);
    let verb = verbs()[left.len() % verbs().len()].run(&mut card);
    let read = card.read(ROUTE, 0, &mut []);
    for answer in [recovered, verb, read.map(|count| count as u32)] {
        if !matches!(answer, Err(Error::Refused(Refusal::Boot))) {
            return Err(format!("no card is answered with {answer:?}"));
        }
    }
    drop(card);
    let is_written = |event: &Event| matches!(event, Event::Write(..));
    match disk.events.iter().any(is_written) {
        true => Err("what is no card was written to".to_string()),
        false => Ok(()),
    }
}

/// Some formats in a row, each cut somewhere, then one to the end.
fn wander(
    build: &impl Build,
    mut left: Kept,
    new: &[u8],
    random: &mut Random,
) -> Result<(), String> {
    for _ in 0..random.below(3) {
        let whole = format_again(build, &left, new)?;
        let cut = whole.after(&Lying::on(left), random.below(whole.events.len() + 1));
        let choice = random.next();
        left = cut.cut(|index| choice >> (index % 64) & 1 == 1);
    }
    format_again(build, &left, new).map(drop)
}

/// Any choice of the stores between two barriers: the old card until the first store is on the disk, then none until the last is.
#[test]
fn old_none_or_new() {
    for start in [two_files(), disks()[5].clone()] {
        let tried = examine(&Ships, &start).unwrap_or_else(|what| panic!("{what}"));
        // The flush at opening, the first store and its flush; 72 stores and a flush, the last store and its flush.
        assert_eq!((tried.last_old, tried.first_new), (2, 77), "{tried:?}");
        assert!(
            tried.old > 2 && tried.none > 500 && tried.new > 1,
            "{tried:?}"
        );
    }
}

/// With an error at every disk operation: the call says so, the handle does nothing more, and the card is formatted again.
#[test]
fn an_error_at_every_operation() {
    let start = two_files();
    let new = formatted(&start, K);
    let mut random = Random::new(0x1F83_D9AB_FB41_BD6B);
    for at in 1..79 {
        let mut disk = Lying::new(&start);
        let error = ErrorKind::StorageFull;
        disk.fault = Some(Fault { at, error });
        let mut card = DiskCard::on(&mut disk, Planned, Access::Write).expect("opened");
        let answer = card.format(K);
        if at == 78 {
            assert_eq!(answer.expect("no event is left to fail"), 74);
            break;
        }
        assert!(
            matches!(&answer, Err(Error::Cut(found)) if found.kind() == error),
            "{at}"
        );
        assert!(matches!(card.format(K), Err(Error::Ended)));
        assert!(matches!(card.list(), Err(Error::Ended)));
        drop(card);
        disk.fault = None;
        for left in disk.cuts(4, &mut random) {
            if left != *start && left != *new {
                is_no_card(&Ships, &left).unwrap_or_else(|what| panic!("{at}: {what}"));
            }
            format_again(&Ships, &left, &new).unwrap_or_else(|what| panic!("{at}: {what}"));
        }
    }
}

#[test]
fn without_flushes() {
    let found = examine(&NoFlushes, &two_files()).expect_err("found out");
    assert!(found.contains("cut after"), "{found}");
}

/// A list that is wrong in one way.
#[derive(Clone, Copy, Debug)]
enum Wrong {
    /// The zeros are not stored first.
    NoZeros,
    /// The zeros are no barrier.
    ZerosAnywhere,
    /// The true boot sector is stored in place of the zeros.
    TrueTwice,
    /// The true boot sector comes right after the zeros.
    TrueEarly,
    /// The true boot sector is no barrier.
    TrueAnywhere,
    /// The tables come before the zeros.
    ZerosLate,
    /// One of the zeros is a one.
    NotAllZeros,
    /// The last sector of the log is left out.
    Dropped,
    /// It is stored one sector too far.
    Shifted,
    /// A sector of the root directory is stored twice, the next one not at all.
    Twice,
    /// One byte of a FAT is another.
    Altered,
    /// A byte of the root directory is not zero.
    Slot,
    /// One byte of the true boot sector is another.
    OtherBoot,
    /// A store of the root directory is a barrier too: no harm, but not the rule.
    RootBarrier,
    /// A sector of data is stored as well.
    OneMore,
}

const WRONG: [Wrong; 15] = [
    Wrong::NoZeros,
    Wrong::ZerosAnywhere,
    Wrong::TrueTwice,
    Wrong::TrueEarly,
    Wrong::TrueAnywhere,
    Wrong::ZerosLate,
    Wrong::NotAllZeros,
    Wrong::Dropped,
    Wrong::Shifted,
    Wrong::Twice,
    Wrong::Altered,
    Wrong::Slot,
    Wrong::OtherBoot,
    Wrong::RootBarrier,
    Wrong::OneMore,
];

fn spoil(stores: Vec<Store>, wrong: Wrong) -> Vec<Segment<'static>> {
    let (mut zeros, mut boot) = (stores[0].clone(), stores[73].clone());
    let mut tables = stores[1..73].to_vec();
    let segments = |first: &[Store], zeros: &Store, rest: &[Store], boot: &Store| {
        vec![
            Segment::new(first.to_vec(), Some(zeros.clone())),
            Segment::new(rest.to_vec(), Some(boot.clone())),
        ]
    };
    match wrong {
        Wrong::NoZeros => return segments(&[], &zeros, &tables, &boot).split_off(1),
        Wrong::ZerosAnywhere => return vec![Segment::new(stores[..73].to_vec(), Some(boot))],
        Wrong::TrueTwice => zeros = boot.clone(),
        Wrong::TrueEarly => {
            let mut early = segments(&[], &zeros, &[], &boot);
            early.push(Segment::new(tables, None));
            return early;
        }
        Wrong::TrueAnywhere => {
            let mut segments = segments(&[], &zeros, &tables, &boot);
            segments[1] = Segment::new(stores[1..].to_vec(), None);
            return segments;
        }
        Wrong::ZerosLate => return segments(&tables, &zeros, &[], &boot),
        Wrong::NotAllZeros => zeros.bytes[511] = 1,
        Wrong::Dropped => drop(tables.pop()),
        Wrong::Shifted => tables[71].sector += 1,
        Wrong::Twice => tables[50].sector -= 1,
        Wrong::Altered => tables[0].bytes[30] ^= 1,
        Wrong::Slot => tables[40].bytes[0] = 0xE5,
        Wrong::OtherBoot => boot.bytes[3] = b'M',
        Wrong::RootBarrier => {
            let mut three = segments(&[], &zeros, &tables[41..], &boot);
            let root = Segment::new(tables[..40].to_vec(), Some(tables[40].clone()));
            three.insert(1, root);
            return three;
        }
        Wrong::OneMore => {
            let mut more = zeros.clone();
            more.sector = 100;
            tables.push(more);
        }
    }
    segments(&[], &zeros, &tables, &boot)
}

/// Lists that are wrong, held against the library or not.
#[derive(Clone, Copy)]
struct WrongLists {
    wrong: Wrong,
    is_checked: bool,
}

impl Lists for WrongLists {
    fn program<'a>(&self, card: &[u8], operation: &Operation<'a>) -> Result<Program<'a>, Ground> {
        match operation {
            Operation::Format { .. } => reference::plan(card, operation).map(|stores| Program {
                segments: spoil(stores, self.wrong),
            }),
            _ => reference::program(card, operation),
        }
    }

    fn is_used(&self, agrees: bool) -> bool {
        agrees || !self.is_checked
    }
}

impl Build for WrongLists {
    type Disk<'a> = &'a mut Lying;
    type Lists = WrongLists;

    fn disk<'a>(&self, disk: &'a mut Lying) -> &'a mut Lying {
        disk
    }

    fn lists(&self) -> WrongLists {
        *self
    }
}

/// With the check, a wrong list writes nothing, the call says so, and the card that was there is used as before.
#[test]
fn wrong_lists_write_nothing() {
    for wrong in WRONG {
        let lists = WrongLists {
            wrong,
            is_checked: true,
        };
        for start in [two_files(), vec![0; 4_150 * 512]] {
            let mut disk = Lying::new(&start);
            let mut card = DiskCard::on(&mut disk, lists, Access::Write).expect("opened");
            let answer = card.format(K);
            assert!(
                matches!(answer, Err(Error::Disagree)),
                "{wrong:?}: {answer:?}"
            );
            let listed = card.list().map(|entries| entries.len()).ok();
            assert_eq!(listed, (start[510] == 0x55).then_some(2));
            drop(card);
            assert!(disk.kept == *start && disk.events == [Event::Flush]);
        }
    }
}

/// Without it, the same lists are found out by what they leave on the card, but for the one that does no harm.
#[test]
fn without_the_check() {
    for wrong in WRONG {
        let build = WrongLists {
            wrong,
            is_checked: false,
        };
        let found = examine(&build, &disks()[5]).err();
        println!("{wrong:?}: {found:?}");
        let is_harmless = matches!(wrong, Wrong::RootBarrier);
        assert_eq!(found.is_none(), is_harmless, "{wrong:?}");
    }
}

/// The right list in the wrong one's place agrees, so that it is the list that is refused above.
#[test]
fn the_right_list() {
    let start = two_files();
    let program = reference::program(&start, &formatting(K)).expect("a card");
    let stores = reference::plan(&start, &formatting(K)).expect("a card");
    let own = vec![
        Segment::new([], Some(stores[0].clone())),
        Segment::new(stores[1..73].to_vec(), Some(stores[73].clone())),
    ];
    assert_eq!(program.segments, own);
}
