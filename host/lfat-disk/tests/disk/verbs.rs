//! Every verb on a disk that lies: cut after every disk operation, recovered, cut in recovery, recovered again.

use crate::support::cards::{
    characters, full_log, odd_name, points, scattered, state, two_files, verbs, wide, Verb, NEW,
    PANEL, ROUTE,
};
use crate::support::cuts::{examine, run, Depth, Ships, Tried};
use crate::support::lying::{Event, Lying};
use crate::support::random::Random;
use lfat_card::Refusal;
use lfat_disk::lists::Planned;
use lfat_disk::{Access, DiskCard, Error, Operation};
use testkit::dates::random_seconds;
use testkit::AT;

const THOROUGH: Depth = Depth {
    all_below: 5,
    recoveries: true,
};
const QUICK: Depth = Depth {
    all_below: 3,
    recoveries: false,
};

#[test]
fn every_verb() {
    let mut all = 0;
    for card in [two_files(), full_log(), odd_name()] {
        for verb in verbs() {
            let tried = found_nothing(examine(&Ships, &card, &verb, THOROUGH));
            let is_odd = card == odd_name();
            assert!(
                is_odd || tried.old > 3 && tried.new > 3,
                "{verb:?}: {tried:?}"
            );
            all += tried.cuts;
        }
    }
    println!("{all} cuts, each recovered");
}

fn found_nothing(tried: Result<Tried, String>) -> Tried {
    tried.unwrap_or_else(|what| panic!("{what}"))
}

#[test]
fn larger_clusters_and_scattered_files() {
    for card in [scattered(), wide()] {
        for verb in verbs() {
            found_nothing(examine(&Ships, &card, &verb, QUICK));
        }
    }
}

/// Histories: each verb of a random row is cut everywhere, then made.
#[test]
fn random_histories() {
    let data: &'static [u8] = points(6_000).leak();
    let mut random = Random::new(0xBB67_AE85_84CA_A73B);
    let mut times = Random::new(0x510E_527F_ADE6_82D1);
    let mut card = two_files();
    let mut locked = 0;
    for _ in 0..60 {
        // Another machine marks one of the first slots read-only, or takes the mark away.
        if random.one_in(3) {
            let at = 33 * 512 + random.below(3) * 32 + 11;
            card[at] = card[at] & !0x01 | u8::from(random.one_in(3));
        }
        let (name, other) = (
            random.pick(&[ROUTE, PANEL, NEW]),
            random.pick(&[ROUTE, NEW]),
        );
        let data = &data[..random.pick(&[1, 100, 512, 1_700])];
        let size = random.below(2_000) as u64;
        let seconds = random_seconds(&mut times);
        let operation = match random.below(11) {
            0 => Operation::Create { name, seconds },
            1 => Operation::CreateLong {
                name,
                characters: characters(random.pick(&[1, 13, 30, 208])),
                seconds,
            },
            2..=4 => Operation::Append {
                name,
                data,
                seconds,
            },
            5 => Operation::Truncate {
                name,
                size,
                seconds,
            },
            6 => Operation::Delete { name },
            7..=9 => Operation::Replace {
                name,
                data,
                seconds,
            },
            _ => Operation::Rename {
                old: name,
                new: other,
            },
        };
        let verb = Verb::Calls(vec![operation]);
        found_nothing(examine(&Ships, &card, &verb, QUICK));
        let (disk, answer) = run(&Ships, &Lying::new(&card), &verb);
        locked += usize::from(matches!(answer, Err(Error::Refused(Refusal::Locked))));
        card = disk.kept.to_vec();
    }
    assert!(locked > 3, "{locked}");
}

/// A file marked read-only is read; no verb changes it, and no byte is written. Other files are changed beside it.
#[test]
fn locked_files() {
    let mut start = two_files();
    for slot in 0..2 {
        start[33 * 512 + slot * 32 + 11] |= 0x01;
    }
    let mut refused = 0;
    for verb in verbs() {
        let is_new = matches!(&verb, Verb::Calls(calls) if matches!(calls[0], Operation::Create { .. } | Operation::CreateLong { .. }));
        let (disk, answer) = run(&Ships, &Lying::new(&start), &verb);
        if is_new {
            assert!(answer.is_ok(), "{verb:?}: {answer:?}");
            continue;
        }
        let is_locked = matches!(answer, Err(Error::Refused(Refusal::Locked)));
        assert!(is_locked, "{verb:?}: {answer:?}");
        assert!(disk.kept == *start && disk.back.is_empty(), "{verb:?}");
        let is_written = |event: &Event| matches!(event, Event::Write(..));
        assert!(!disk.events.iter().any(is_written), "{verb:?}");
        refused += 1;
    }
    assert_eq!(refused, verbs().len() - 4);

    let mut disk = Lying::new(&start);
    let mut card = DiskCard::on(&mut disk, Planned, Access::Write).expect("opened");
    let entries = card.list().expect("clean");
    assert!(entries[0].is_read_only() && entries[1].is_read_only());
    // A slot that was refused has its own name again.
    for slot in 0..2 {
        let deleted = card.delete_slot(slot, u32::MAX);
        assert!(matches!(deleted, Err(Error::Refused(Refusal::Locked))));
        let renamed = card.rename_slot(slot, NEW, u32::MAX);
        assert!(matches!(renamed, Err(Error::Refused(Refusal::Locked))));
    }
    assert_eq!(card.list().expect("clean"), entries);
    let mut buffer = vec![0; 6_000];
    assert_eq!(card.read(PANEL, 0, &mut buffer).expect("read"), 5_000);
    assert!(buffer[..5_000] == points(5_000));
    assert_eq!(card.read_slot(0, 0, &mut buffer).expect("read"), 1_300);
    assert!(buffer[..1_300] == points(1_300));
    card.create(NEW, AT).expect("granted");
    card.append(NEW, &points(900), AT).expect("granted");
    card.delete(NEW).expect("granted");
    assert_eq!(card.list().expect("clean"), entries);
}

/// A flush before and after each log record and commit mark, at the end, and before anything is read; no write else than the
/// list's stores.
#[test]
fn where_the_flushes_stand() {
    let (name, data) = (ROUTE, &points(1_300)[..]);
    flushes_stand(&Operation::Append {
        name,
        data,
        seconds: AT,
    });
    flushes_stand(&Operation::Replace {
        name,
        data,
        seconds: AT,
    });
}

/// Of a call whose list ends with the log record, FAT1, root directory and commit mark.
fn flushes_stand(operation: &Operation) {
    let card = two_files();
    let stores = reference::plan(&card, operation).expect("granted");
    let words: Vec<String> = stores
        .iter()
        .map(|store| store.sector.to_string())
        .collect();
    let mut wanted = vec!["flush".to_string()];
    let record = stores.len() - 4;
    for (index, sector) in words.into_iter().enumerate() {
        let is_barrier = index == record || index == stores.len() - 1;
        let flush = || is_barrier.then(|| "flush".to_string());
        wanted.extend(flush());
        wanted.push(sector);
        wanted.extend(flush());
    }
    let mut disk = Lying::new(&card);
    DiskCard::on(&mut disk, Planned, Access::Write)
        .and_then(|mut card| card.save(&[*operation], u32::MAX))
        .expect("granted");
    let events = disk.events.iter().map(|event| match event {
        Event::Write(sector, _) => sector.to_string(),
        Event::Flush => "flush".to_string(),
    });
    assert_eq!(events.collect::<Vec<_>>(), wanted);
}

/// A card that is only read is not written to, flushes included; one that is opened to be read refuses to be changed.
#[test]
fn reading() {
    let mut disk = Lying::new(&two_files());
    let mut card = DiskCard::on(&mut disk, Planned, Access::Read).expect("opened");
    let entries = card.list().expect("clean");
    assert_eq!(entries.len(), 2);
    assert_eq!(
        (
            entries[1].slot,
            entries[1].name().as_str(),
            entries[1].size()
        ),
        (1, "PANEL.CUT", 5_000)
    );
    let mut buffer = vec![7; 6_000];
    assert_eq!(card.read(PANEL, 100, &mut buffer).expect("read"), 4_900);
    assert!(
        buffer[..4_900] == points(5_000)[100..] && buffer[4_900..].iter().all(|&byte| byte == 7)
    );
    assert_eq!(card.read(PANEL, 5_000, &mut buffer).expect("read"), 0);
    assert_eq!(card.read(PANEL, u64::MAX, &mut buffer).expect("read"), 0);
    assert!(matches!(
        card.delete(PANEL),
        Err(lfat_disk::Error::ReadOnly)
    ));
    assert!(matches!(card.recover(), Err(lfat_disk::Error::ReadOnly)));
    drop(card);
    assert!(disk.events.is_empty());
}

/// A file whose name no rule allows: read, renamed and removed by its slot.
#[test]
fn by_slot() {
    let mut disk = Lying::new(&odd_name());
    let mut card = DiskCard::on(&mut disk, Planned, Access::Write).expect("opened");
    let odd = card.list().expect("clean")[1];
    assert!(!odd.has_name() && odd.name() == "??NEL.CUT");
    let mut buffer = vec![0; 5_000];
    assert_eq!(card.read_slot(1, 0, &mut buffer).expect("read"), 5_000);
    assert!(buffer == points(5_000));
    assert_eq!(card.list().expect("clean")[1], odd);
    assert_eq!(card.rename_slot(1, NEW, u32::MAX).expect("granted"), 3);
    assert_eq!(card.list().expect("clean")[1].name(), "NEW.CUT");
    assert_eq!(card.delete_slot(2, u32::MAX).expect("granted"), 5);
    for slot in [1, 2, 511, 512, usize::MAX] {
        let refused = card.delete_slot(slot, u32::MAX);
        assert!(matches!(refused, Err(lfat_disk::Error::Refused(_))));
    }
    drop(card);
    let after = disk.kept.with(state).expect("clean");
    assert_eq!(after.len(), 1);
}
