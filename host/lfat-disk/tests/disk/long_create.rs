//! Files created with long names on a disk that lies, and long names read. The entries may lie in two root sectors: the first must be
//! on the disk before the second, or a cut could leave a slot in use after one that begins 0, which no call accepts.

use crate::support::cards::{card_over, characters, two_files, Verb, ALL, NEW, PANEL, ROUTE};
use crate::support::cuts::{examine, run, Build, Depth, Ships};
use crate::support::lying::{Event, Lying};
use lfat_disk::lists::{Lists, Planned};
use lfat_disk::{Access, DiskCard, Error, Operation, Program, Segment};
use reference::Ground;
use testkit::cards::Card;
use testkit::AT;

const DEPTH: Depth = Depth {
    all_below: 5,
    recoveries: true,
};

fn create(count: usize) -> Verb {
    Verb::Calls(vec![Operation::CreateLong {
        name: NEW,
        characters: characters(count),
        seconds: AT,
    }])
}

/// The two files, deleted slots from the third on, and unused ones from a slot on.
fn card(unused: usize) -> Card {
    let mut card = card_over(&two_files());
    card.mark_deleted(2..unused);
    card
}

/// Cut after every disk operation, with every choice of what was kept back, and in recovery: both names or none.
#[test]
fn cut_everywhere() {
    for unused in [2, 12, 15, 20] {
        for count in [22, 208] {
            let card = card(unused);
            let tried = examine(&Ships, &card.bytes, &create(count), DEPTH);
            let tried = tried.unwrap_or_else(|what| panic!("{unused} {count}: {what}"));
            assert!(tried.old > 1 && tried.new > 3, "{tried:?}");
        }
    }
    let long_put = Verb::Calls(vec![
        Operation::CreateLong {
            name: NEW,
            characters: characters(208),
            seconds: AT,
        },
        Operation::Append {
            name: NEW,
            data: &[7; 700],
            seconds: AT,
        },
    ]);
    let tried = examine(&Ships, &card(2).bytes, &long_put, DEPTH);
    tried.unwrap_or_else(|what| panic!("{what}"));
}

/// Lists whose root stores may reach the disk in any order, as those of all other calls may.
struct Unordered;

impl Lists for Unordered {
    fn program<'a>(&self, card: &[u8], operation: &Operation<'a>) -> Result<Program<'a>, Ground> {
        let mut program = reference::program(card, operation)?;
        let mut segments: Vec<Segment> = Vec::new();
        let mut open: Option<Segment> = None;
        for mut segment in program.segments.drain(..) {
            if let Some(mut before) = open.take() {
                before.stores.append(&mut segment.stores);
                segment.stores = before.stores;
            }
            match segment.barrier.take() {
                Some(store) if (33..65).contains(&store.sector) => {
                    segment.push(store);
                    open = Some(segment);
                }
                barrier => {
                    segment.barrier = barrier;
                    segments.push(segment);
                }
            }
        }
        program.segments = segments;
        Ok(program)
    }
}

impl Build for Unordered {
    type Disk<'a> = &'a mut Lying;
    type Lists = Unordered;

    fn disk<'a>(&self, disk: &'a mut Lying) -> &'a mut Lying {
        disk
    }

    fn lists(&self) -> Unordered {
        Unordered
    }
}

#[test]
fn without_the_order_of_root_sectors() {
    for unused in [2, 5, 15] {
        let found = examine(&Unordered, &card(unused).bytes, &create(208), DEPTH);
        let words = found.expect_err("a cut is found that nothing recovers");
        assert!(words.contains("recovery: ROOT"), "{unused}: {words}");
    }
    // One root sector has no order.
    let found = examine(&Unordered, &card(2).bytes, &create(22), DEPTH);
    assert!(found.is_ok());
}

/// The first root sector is on the disk before the second is written, in the call and in recovery.
#[test]
fn flushes() {
    let start = Lying::new(&card(2).bytes);
    let (disk, answer) = run(&Ships, &start, &create(208));
    assert_eq!(answer.expect("granted"), 4);
    let order = |disk: &Lying| -> String {
        let words = disk.events.iter().map(|event| match event {
            Event::Write(sector, _) if (33..65).contains(sector) => 'r',
            Event::Write(..) => 'l',
            Event::Flush => '|',
        });
        words.collect()
    };
    assert!(order(&disk).ends_with("l|r|r|l|"), "{}", order(&disk));
    let mut cut = card(2).bytes;
    reference::create_long(&mut cut, NEW, characters(208), AT, 1);
    let recover = Verb::Calls(vec![Operation::Recover]);
    let (disk, answer) = run(&Ships, &Lying::new(&cut), &recover);
    assert_eq!(answer.expect("granted"), 3);
    assert!(order(&disk).ends_with("r|r|l|"), "{}", order(&disk));
}

fn open(disk: &mut Lying) -> DiskCard<&mut Lying, Planned> {
    DiskCard::on(disk, Planned, Access::Write).expect("opened")
}

/// Created and read back, by the short name and in the list; a refusal leaves the disk alone.
#[test]
fn read_back() {
    let mut disk = Lying::new(&two_files());
    let mut card = open(&mut disk);
    assert_eq!(
        card.create_long(NEW, characters(30), AT).expect("granted"),
        3
    );
    let mut buffer = [0xA5; 80];
    assert_eq!(card.long_name(NEW, &mut buffer).expect("granted"), 30);
    assert_eq!(buffer[..60], *characters(30));
    assert_eq!(buffer[60..], [0xA5; 20]);
    assert_eq!(card.long_name(NEW, &mut []).expect("granted"), 30);
    assert_eq!(card.long_name(ROUTE, &mut buffer).expect("granted"), 0);
    for (name, long, ground) in [
        (NEW, 5, "EXISTS"),
        (b"OTHER      ", 30, "EXISTS"),
        (b"OTHER      ", 0, "LONGNAME"),
        (b"OTHER      ", 209, "LONGNAME"),
    ] {
        match card.create_long(name, characters(long), AT) {
            Err(Error::Refused(refusal)) => assert_eq!(refusal.name(), ground),
            other => panic!("{other:?}"),
        }
    }
    let named = card.list_named().expect("clean");
    let lengths: Vec<usize> = named.iter().map(|named| named.characters.len()).collect();
    assert_eq!(lengths, [0, 0, 30]);
    let text = named[2].long_name().expect("a long name");
    assert_eq!(
        text,
        String::from_utf16(&named[2].characters).expect("text")
    );
    assert_eq!(named[0].long_name(), None);
}

/// Long names before names that no rule allows, and before the second file of one name: the list has them, and memory is as before.
#[test]
fn listed_by_slot() {
    let mut card = card_over(&two_files());
    for (name, count) in [(NEW, 22), (b"KEEL       ", 40), (b"STEM       ", 5)] {
        reference::create_long(&mut card.bytes, name, characters(count), AT, ALL);
    }
    // Slots 4 and 9 are NEW and KEEL, 11 is STEM.
    card.slot_mut(4)[0] = 0x80;
    card.slot_mut(9)[..11].copy_from_slice(PANEL);
    for slot in [4, 9] {
        card.put_long_sum(slot);
    }
    let mut disk = Lying::new(&card.bytes);
    let mut open = open(&mut disk);
    let before = open.window().to_vec();
    let named = open.list_named().expect("clean");
    assert!(open.window() == before);
    let lengths: Vec<(usize, usize)> = named
        .iter()
        .map(|named| (named.entry.slot, named.characters.len()))
        .collect();
    assert_eq!(lengths, [(0, 0), (1, 0), (4, 22), (9, 40), (11, 5)]);
}
