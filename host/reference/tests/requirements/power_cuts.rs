//! Power cuts: every cut of every operation, then recoveries which are cut in
//! turn, on small random cards.

use crate::support::history::{random_step, NAMES};
use crate::support::{operation, pattern};
use reference::*;
use testkit::cards::{random_card, Card};
use testkit::random::Random;
use testkit::{ALL, AT, OTHER, PANEL, ROUTE};

/// Both FATs, the root directory and, on a sound card, the files' bytes.
#[derive(PartialEq)]
struct State {
    metadata: Vec<u8>,
    files: Vec<(usize, Vec<u8>)>,
}

/// Whether to compare the files' bytes too.
#[derive(Clone, Copy)]
struct Sound(bool);

impl State {
    fn of(card: &Card, sound: Sound) -> Self {
        let files = if sound.0 {
            root_files(card)
        } else {
            Vec::new()
        };
        State {
            metadata: card.metadata().to_vec(),
            files,
        }
    }
}

fn root_files(card: &Card) -> Vec<(usize, Vec<u8>)> {
    (0..usize::from(card.spec.root_entries))
        .filter(|&slot| {
            let bytes = card.slot(slot);
            ![0, 0xE5].contains(&bytes[0]) && bytes[11] & 0x18 == 0
        })
        .map(|slot| (slot, file_bytes(&card.bytes, slot)))
        .collect()
}

/// The sectors that an operation or a recovery may store, kept to be put back,
/// which is cheaper than a copy of the card.
struct Kept(Vec<(usize, Vec<u8>)>);

impl Kept {
    fn save(card: &Card, stores: &[Store]) -> Self {
        let areas = [card.fat1()..card.data(), card.log()];
        let data = stores.iter().map(|store| store.sector..store.sector + 1);
        let parts = areas.into_iter().chain(data).map(|sectors| {
            let at = sectors.start * 512;
            (at, card.bytes[at..sectors.end * 512].to_vec())
        });
        Kept(parts.collect())
    }

    fn put_back(&self, card: &mut Card) {
        for (at, bytes) in &self.0 {
            card.bytes[*at..at + bytes.len()].copy_from_slice(bytes);
        }
    }
}

/// Where the store of the log record is in the list: the first pending one in
/// the log.
fn group_store(card: &Card, stores: &[Store]) -> Option<usize> {
    stores.iter().position(|store| {
        card.log().contains(&store.sector) && ![0, 0xE5].contains(&store.bytes[0])
    })
}

/// Cuts the operation everywhere. Leaves the card as it was.
fn check_all_cuts(card: &mut Card, operation: &Operation, depth: usize) {
    let sound = Sound(is_sound(&card.bytes));
    let start = State::of(card, sound);
    let stores = match plan(&card.bytes, operation) {
        Ok(stores) => stores,
        Err(ground) => return check_refused(card, operation, ground, &start),
    };
    let kept = Kept::save(card, &stores);
    assert_eq!(
        run(&mut card.bytes, operation, ALL),
        Answer::Done(stores.len() as u32)
    );
    let finished = State::of(card, sound);
    kept.put_back(card);

    let group = group_store(card, &stores);
    assert_eq!(group.is_none(), stores.is_empty());
    for cut in 0..=stores.len() {
        run(&mut card.bytes, operation, cut as u32);
        let is_logged = group.is_some_and(|group| group < cut);
        let expected = if is_logged { &finished } else { &start };
        check_recoveries(card, expected, sound, depth);
        kept.put_back(card);
    }
}

/// A refused operation leaves a clean card, on which recovery stores nothing.
fn check_refused(card: &mut Card, operation: &Operation, ground: Ground, start: &State) {
    for limit in [0, 3, ALL] {
        let answer = run(&mut card.bytes, operation, limit);
        assert_eq!(answer, Answer::Refused(ground));
    }
    assert!(card.metadata() == start.metadata);
    assert_eq!(plan(&card.bytes, &Operation::Recover), Ok(vec![]));
}

/// Recovers with every limit, up to `depth` cut recoveries in a row.
fn check_recoveries(card: &mut Card, expected: &State, sound: Sound, depth: usize) {
    let stores = plan(&card.bytes, &Operation::Recover).expect("never refused");
    for store in &stores {
        let is_metadata = (card.fat1()..card.data()).contains(&store.sector);
        assert!(is_metadata || card.log().contains(&store.sector));
    }
    let kept = Kept::save(card, &stores);
    for limit in 0..=stores.len() {
        match recover(&mut card.bytes, limit as u32) {
            Answer::Done(_) => check_end(card, expected, sound),
            Answer::Stopped(_) if depth > 0 => check_recoveries(card, expected, sound, depth - 1),
            Answer::Stopped(_) => {
                recover(&mut card.bytes, ALL);
                check_end(card, expected, sound);
            }
            other => panic!("{other:?}"),
        }
        kept.put_back(card);
    }
}

/// The state is the expected one, the card is clean, and another recovery
/// stores nothing.
fn check_end(card: &Card, expected: &State, sound: Sound) {
    assert!(State::of(card, sound) == *expected);
    assert_eq!(plan(&card.bytes, &Operation::Recover), Ok(vec![]));
    assert!(matches!(list(&card.bytes, &mut []), Answer::Done(_)));
}

fn cluster_bytes(card: &Card) -> usize {
    usize::from(card.spec.sectors_per_cluster) * 512
}

#[test]
fn every_cut_in_random_histories() {
    for seed in 0..24 {
        let mut random = Random::new(1_000 + seed);
        let mut card = random_card(&mut random);
        for _ in 0..40 {
            let step = random_step(&mut random, cluster_bytes(&card));
            check_all_cuts(&mut card, &operation(&step), 1);
            run(&mut card.bytes, &operation(&step), ALL);
        }
        assert!(is_sound(&card.bytes));
    }
}

#[test]
fn three_cut_recoveries_in_a_row() {
    let mut card = Card::k();
    card.put_slot(0, ROUTE, 0x20, 600, 1_300);
    card.put_chain(&[600, 20, 300], 0xFFF8);
    for slot in 1..20 {
        card.put_slot(slot, b"FILLING    ", 0x20, 0, 0);
    }
    let data = pattern(1_000, 6);
    for operation in [
        Operation::Create {
            name: PANEL,
            seconds: AT,
        },
        Operation::Append {
            name: ROUTE,
            data: &data,
            seconds: AT,
        },
        Operation::Replace {
            name: ROUTE,
            data: &data,
            seconds: AT,
        },
        Operation::Replace {
            name: ROUTE,
            data: &[],
            seconds: AT,
        },
        Operation::Truncate {
            name: ROUTE,
            size: 100,
            seconds: AT,
        },
        Operation::Delete { name: ROUTE },
        Operation::Rename {
            old: ROUTE,
            new: OTHER,
        },
    ] {
        check_all_cuts(&mut card, &operation, 3);
        for sector in 0..8 {
            card.log_sector_mut(sector)[0] = 0xE5;
        }
        check_all_cuts(&mut card, &operation, 1);
        for sector in 0..8 {
            card.log_sector_mut(sector)[0] = 0;
        }
    }
}

/// Clean cards need not be sound: shared clusters, broken chains, stray FAT
/// values, and directories, labels and deleted slots in between. Both FATs and
/// the root directory still come out as they should.
#[test]
fn every_cut_on_unsound_cards() {
    let mut unsound = 0;
    for seed in 0..60 {
        let mut random = Random::new(2_000 + seed);
        let mut card = random_card(&mut random);
        strew_slots(&mut card, &mut random);
        strew_log(&mut card, &mut random);
        assert!(matches!(list(&card.bytes, &mut []), Answer::Done(_)));
        for _ in 0..12 {
            unsound += usize::from(!is_sound(&card.bytes));
            let step = random_step(&mut random, cluster_bytes(&card));
            check_all_cuts(&mut card, &operation(&step), 1);
            run(&mut card.bytes, &operation(&step), ALL);
        }
    }
    assert!(unsound > 100, "{unsound}");
}

/// Random slots on chains that may meet.
fn strew_slots(card: &mut Card, random: &mut Random) {
    let mut free = free_clusters(&card.bytes);
    free.truncate(12);
    for &cluster in &free[..free.len() / 2] {
        let end = random.pick(&[0xFFF8, 0xFFFF]);
        let next = random.pick(&free);
        let value = random.pick(&[end, end, next, 1, 0xFFF7]);
        card.set_fats(cluster, value);
    }
    let entries = usize::from(card.spec.root_entries);
    let slots = random.pick(&[4, 10, entries - 1, entries]);
    for slot in 0..slots {
        let name = random.pick(&NAMES);
        let attributes = random.pick(&[0x20, 0x20, 0x20, 0x21, 0x10, 0x08, 0x0F]);
        let cluster = random.pick(&free);
        let first = random.pick(&[0, cluster, cluster]);
        let full = if first == 0 { 0 } else { cluster_bytes(card) };
        let size = random.pick(&[full, full, full / 2, full * 2]);
        card.put_slot(slot, name, attributes, first, size as u32);
        card.slot_mut(slot)[13..26].copy_from_slice(&random.bytes(13));
        if random.one_in(5) {
            card.slot_mut(slot)[0] = 0xE5;
        }
    }
}

/// Random bytes in the log, with no record pending.
fn strew_log(card: &mut Card, random: &mut Random) {
    for sector in 0..card.log().len() {
        let bytes = random.bytes(512);
        let log = card.log_sector_mut(sector);
        log.copy_from_slice(&bytes);
        for record in log.chunks_exact_mut(32) {
            record[0] = random.pick(&[0, 0xE5, 0xE5]);
        }
    }
}

/// A long row of recoveries with random limits, as a failing supply would give.
#[test]
fn many_short_recoveries() {
    for seed in 0..30 {
        let mut random = Random::new(3_000 + seed);
        let mut card = random_card(&mut random);
        for _ in 0..30 {
            let step = random_step(&mut random, cluster_bytes(&card));
            check_random_cut(&mut card, &operation(&step), &mut random);
        }
    }
}

/// Cuts the operation once and recovers in short steps. Goes on from there.
fn check_random_cut(card: &mut Card, operation: &Operation, random: &mut Random) {
    let Ok(stores) = plan(&card.bytes, operation) else {
        return;
    };
    let start = State::of(card, Sound(true));
    let kept = Kept::save(card, &stores);
    run(&mut card.bytes, operation, ALL);
    let finished = State::of(card, Sound(true));
    kept.put_back(card);

    let cut = random.below(stores.len() + 1);
    let is_logged = group_store(card, &stores).is_some_and(|group| group < cut);
    run(&mut card.bytes, operation, cut as u32);
    let ended = (0..1_000).any(|_| {
        let limit = random.below(9) as u32;
        matches!(recover(&mut card.bytes, limit), Answer::Done(_))
    });
    assert!(ended);
    let expected = if is_logged { finished } else { start };
    check_end(card, &expected, Sound(true));
}
