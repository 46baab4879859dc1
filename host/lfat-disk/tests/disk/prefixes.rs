//! Pulling this machine's plug: after so many writes the image is what the library leaves with that limit, in the list's order.

use crate::support::cards::{characters, points, state, EARLIER, PANEL, ROUTE};
use crate::support::lying::{Event, Lying};
use crate::support::random::Random;
use lfat_card::{Answer, NO_LIMIT};
use lfat_disk::lists::{call, Planned};
use lfat_disk::{Access, DiskCard, Error, Operation};
use reference::CardSpec;
use testkit::dates::random_seconds;
use testkit::AT;

const SECTOR: usize = 512;

/// The writes of a call, in order; none if it is refused.
pub fn writes(card: &[u8], operation: &Operation) -> Option<Vec<(usize, Vec<u8>)>> {
    let mut disk = Lying::new(card);
    let mut open = DiskCard::on(&mut disk, Planned, Access::Write).expect("opened");
    match open.save(&[*operation], NO_LIMIT) {
        Ok(_) => {}
        Err(Error::Refused(_)) => return None,
        Err(error) => panic!("{operation:?}: {error}"),
    }
    drop(open);
    assert!(disk.back.is_empty(), "all is flushed in the end");
    let events = disk.events.into_iter().filter_map(|event| match event {
        Event::Write(sector, bytes) => Some((sector, bytes)),
        Event::Flush => None,
    });
    Some(events.collect())
}

/// The cards that the writes leave, one after the other, are those that the library leaves with limits 1, 2, ..; gives the
/// number of writes.
pub fn check_prefixes(card: &[u8], operation: &Operation) -> usize {
    let mut library = card.to_vec();
    let Some(writes) = writes(card, operation) else {
        call(&mut library, operation, NO_LIMIT);
        assert!(library == card, "a refused call changes nothing");
        return 0;
    };
    let mut own = card.to_vec();
    for (made, (sector, bytes)) in (1..).zip(&writes) {
        own[sector * SECTOR..][..SECTOR].copy_from_slice(bytes);
        library.copy_from_slice(card);
        call(&mut library, operation, made);
        assert!(own == library, "{operation:?}, limit {made}");
    }
    library.copy_from_slice(card);
    let answer = call(&mut library, operation, NO_LIMIT);
    assert_eq!(answer, Answer::Done(writes.len() as u32), "{operation:?}");
    assert!(own == library, "{operation:?}");
    writes.len()
}

/// An operation, the recovery of each of its cuts, and that of a cut recovery; then makes the operation.
pub fn check_with_recoveries(card: &mut [u8], operation: &Operation) {
    let count = check_prefixes(card, operation);
    for limit in 0..=count as u32 {
        let mut cut = card.to_vec();
        call(&mut cut, operation, limit);
        check_prefixes(&cut, &Operation::Recover);
        call(&mut cut, &Operation::Recover, 1 + limit % 3);
        check_prefixes(&cut, &Operation::Recover);
    }
    call(card, operation, NO_LIMIT);
}

fn random_operation<'a>(random: &mut Random, data: &'a [u8]) -> Operation<'a> {
    let names: [&[u8; 11]; 4] = [ROUTE, PANEL, b"KEEL       ", b"STEM    1  "];
    let (name, new) = (random.pick(&names), random.pick(&names));
    let start = random.below(data.len());
    let length = [100, 512, 1_700, 4_000][random.below(4)];
    let data = &data[start..(start + length).min(data.len())];
    let seconds = random_seconds(random);
    match random.below(12) {
        0 => Operation::Create { name, seconds },
        1 => Operation::CreateLong {
            name,
            characters: characters(random.pick(&[1, 22, 26, 150])),
            seconds,
        },
        2..=5 => Operation::Append {
            name,
            data,
            seconds,
        },
        6 => Operation::Truncate {
            name,
            size: random.below(3_000) as u64,
            seconds,
        },
        7 => Operation::Delete { name },
        8 | 9 => Operation::Replace {
            name,
            data,
            seconds,
        },
        10 => Operation::Replace {
            name,
            data: &[],
            seconds,
        },
        _ => Operation::Rename { old: name, new },
    }
}

/// The log is of two clusters, so that it is cleared every few operations.
#[test]
fn every_write_of_random_histories() {
    let data = points(6_000);
    for (sectors_per_cluster, operations) in [(1, 40), (4, 8)] {
        let mut random = Random::new(0xA54F_F53A_5F1D_36F1 + u64::from(sectors_per_cluster));
        let mut card = spec(sectors_per_cluster).build();
        for _ in 0..operations {
            check_with_recoveries(&mut card, &random_operation(&mut random, &data));
        }
        assert!(reference::is_sound(&card));
    }
}

/// Card K with larger clusters, and a log of two clusters.
fn spec(sectors_per_cluster: u8) -> CardSpec {
    CardSpec {
        sectors_per_cluster,
        total_sectors: 65 + 4_085 * u32::from(sectors_per_cluster),
        log_clusters: 2,
        ..CardSpec::K
    }
}

/// A replace writes its group, also where nothing else changes: log record, root directory, commit mark.
#[test]
fn nothing_to_replace() {
    let mut card = reference::card_k();
    reference::create(&mut card, ROUTE, EARLIER, NO_LIMIT);
    let replace = Operation::Replace {
        name: ROUTE,
        data: &[],
        seconds: AT,
    };
    let writes = writes(&card, &replace).expect("granted");
    let sectors: Vec<usize> = writes.iter().map(|(sector, _)| *sector).collect();
    assert_eq!(sectors, [66, 33, 66]);
    check_with_recoveries(&mut card, &replace);
}

/// A call that stores nothing writes nothing.
#[test]
fn nothing_to_store() {
    let mut card = reference::card_k();
    reference::create(&mut card, ROUTE, EARLIER, NO_LIMIT);
    reference::append(&mut card, ROUTE, &points(700), EARLIER, NO_LIMIT);
    assert_eq!(state(&card).expect("clean").len(), 1);
    for operation in [
        Operation::Append {
            name: ROUTE,
            data: &[],
            seconds: AT,
        },
        Operation::Truncate {
            name: ROUTE,
            size: 700,
            seconds: AT,
        },
        Operation::Recover,
    ] {
        assert_eq!(writes(&card, &operation), Some(Vec::new()));
    }
}
