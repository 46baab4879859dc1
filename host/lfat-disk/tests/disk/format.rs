//! New cards on a disk: over a card with files, over anything else; what is written, and what is refused.

use crate::faults::Unreadable;
use crate::prefixes::check_prefixes;
use crate::support::cards::{points, state, two_files, wide, NEW, PANEL, ROUTE};
use crate::support::lying::{Event, Lying};
use crate::support::random::Random;
use lfat_card::Refusal;
use lfat_disk::lists::Planned;
use lfat_disk::{formatting, Access, DiskCard, Error, Form, Operation};
use testkit::AT;

/// The form of card K.
pub const K: Form = Form {
    total: 4_150,
    per_cluster: 1,
    log_clusters: 8,
};

/// The bytes of a disk once it is formatted.
pub fn formatted(disk: &[u8], form: Form) -> Vec<u8> {
    let mut disk = disk.to_vec();
    let answer = reference::run(&mut disk, &formatting(form), u32::MAX);
    assert!(matches!(answer, reference::Answer::Done(_)), "{form:?}");
    disk
}

/// Disks with all kinds of things on them, each larger than card K by some sectors and a piece of one.
pub fn disks() -> Vec<Vec<u8>> {
    let mut random = Random::new(0x3C6E_F372_FE94_F82B);
    let length = 4_170 * 512 + 300;
    let with = |start: &[u8]| {
        let mut disk = start[..start.len().min(length)].to_vec();
        disk.resize(length, 0x5A);
        disk
    };
    // A save that was cut, and a card of four sectors per cluster that goes past this disk.
    let mut unclean = two_files();
    reference::append(&mut unclean, ROUTE, &points(900), AT, 4);
    // The boot sector of another file system, which ends as that of a card does.
    let mut other = vec![0xF6; 3_000];
    other[..11].copy_from_slice(b"\xEB\x52\x90NTFS    ");
    other[510..512].copy_from_slice(&[0x55, 0xAA]);
    let mut no_log = two_files();
    no_log[512 + 4..][..16].fill(0);
    vec![
        with(&two_files()),
        with(&unclean),
        with(&wide()),
        with(&no_log),
        with(&other),
        with(&random.bytes(length)),
        vec![0; length],
        vec![0xFF; length],
    ]
}

#[test]
fn over_anything() {
    for start in disks() {
        let due = formatted(&start, K);
        let mut disk = Lying::new(&start);
        let mut card = DiskCard::on(&mut disk, Planned, Access::Write).expect("opened");
        assert_eq!(card.sectors(), 4_170);
        assert_eq!(card.format(K).expect("granted"), 74);
        assert!(card.window() == [&due[..73 * 512], &vec![0; (4_150 - 73) * 512]].concat());
        assert_eq!(card.list().expect("clean"), []);
        drop(card);
        assert!(disk.back.is_empty() && disk.kept == *due);
        // Once more, by a handle that has used the card.
        let mut card = DiskCard::on(&mut disk, Planned, Access::Write).expect("opened");
        card.create(NEW, AT).expect("granted");
        card.append(NEW, &points(5_000), AT).expect("granted");
        assert_eq!(card.format(K).expect("granted"), 74);
        assert!(matches!(
            card.delete(NEW),
            Err(Error::Refused(Refusal::Absent))
        ));
        drop(card);
        assert!(disk.kept.to_vec()[..73 * 512] == due[..73 * 512]);
    }
}

/// The card is used at once, by the handle that made it, as one that was opened.
#[test]
fn used_at_once() {
    let mut disk = Lying::new(&disks()[4]);
    let mut card = DiskCard::on(&mut disk, Planned, Access::Write).expect("opened");
    assert!(matches!(card.recover(), Err(Error::Refused(Refusal::Boot))));
    let form = Form {
        log_clusters: 3,
        ..K
    };
    card.format(form).expect("granted");
    let mut due = formatted(&disks()[4], form);
    let long = b"P\0o\0r\0t\0 \x007\0";
    for round in 0..7 {
        let (name, data) = ([ROUTE, PANEL][round % 2], points(700 + round * 311));
        let created = card.create(name, AT).is_ok();
        assert_eq!(created, round < 2);
        card.append(name, &data, AT).expect("granted");
        reference::create(&mut due, name, AT, u32::MAX);
        reference::append(&mut due, name, &data, AT, u32::MAX);
    }
    card.create_long(NEW, long, AT).expect("granted");
    card.delete(ROUTE).expect("granted");
    reference::create_long(&mut due, NEW, long, AT, u32::MAX);
    reference::delete(&mut due, ROUTE, u32::MAX);
    assert_eq!(card.list().expect("clean").len(), 2);
    let mut back = vec![0; 10_000];
    let size = card.read(PANEL, 0, &mut back).expect("read");
    assert_eq!(size, 1_011 + 1_633 + 2_255);
    drop(card);
    assert!(disk.kept == *due && disk.back.is_empty());
}

/// Every write is the library's, in its order, also for larger clusters and another log.
#[test]
fn every_write() {
    for (total, per_cluster, log_clusters) in [
        (4_150, 1, 8),
        (4_161, 1, 128),
        (8_401, 2, 16),
        (16_420, 4, 1),
    ] {
        let form = Form {
            total,
            per_cluster,
            log_clusters,
        };
        let garbage = Random::new(total.into()).bytes(total as usize * 512);
        let count = check_prefixes(&garbage, &formatting(form));
        let due = reference::plan(&garbage, &formatting(form)).expect("a card");
        assert_eq!(count, due.len());
    }
}

/// A flush before and after each of the two stores of the boot sector.
#[test]
fn where_the_flushes_stand() {
    let mut disk = Lying::new(&two_files());
    let mut card = DiskCard::on(&mut disk, Planned, Access::Write).expect("opened");
    card.format(K).expect("granted");
    drop(card);
    let events = disk.events.iter().map(|event| match event {
        Event::Write(sector, _) => Some(*sector),
        Event::Flush => None,
    });
    let mut wanted = vec![None, Some(0), None];
    wanted.extend((1..73).map(Some));
    wanted.extend([None, Some(0), None]);
    assert_eq!(events.collect::<Vec<_>>(), wanted);
}

/// Nothing of the disk is looked at but what opening needs: here its first sector, which is no card's.
#[test]
fn nothing_is_read() {
    let start = &disks()[5];
    let disk = Unreadable {
        disk: Lying::new(start),
        from: 1,
    };
    let mut card = DiskCard::on(disk, Planned, Access::Write).expect("opened");
    assert_eq!(card.format(K).expect("granted"), 74);
    assert_eq!(card.create(NEW, AT).expect("granted"), 3);
}

/// What is refused has written nothing, and the card that was there is as before, on the disk and in memory.
#[test]
fn refused() {
    let larger = |total| Form { total, ..K };
    let cases = [
        (
            Form {
                per_cluster: 3,
                ..K
            },
            Refusal::Size,
        ),
        (
            Form {
                log_clusters: 129,
                ..K
            },
            Refusal::Size,
        ),
        (larger(4_149), Refusal::Size),
        (larger(u32::MAX), Refusal::Size),
        (larger(4_151), Refusal::Window),
        (
            Form::for_sectors(4_194_144).expect("a card"),
            Refusal::Window,
        ),
    ];
    let mut disk = Lying::new(&[&two_files()[..], &[1; 511]].concat());
    let mut card = DiskCard::on(&mut disk, Planned, Access::Write).expect("opened");
    let window = card.window().to_vec();
    for (form, refusal) in cases {
        let answer = card.format(form);
        assert!(
            matches!(answer, Err(Error::Refused(found)) if found == refusal),
            "{form:?}: {answer:?}"
        );
        assert!(card.window() == window);
    }
    assert_eq!(card.list().expect("clean").len(), 2);
    card.append(ROUTE, b"G0\n", AT).expect("granted");
    drop(card);
    assert_eq!(
        state(&disk.kept.to_vec()[..4_150 * 512])
            .expect("clean")
            .len(),
        2
    );

    let mut disk = Lying::new(&[7; 100]);
    let mut card = DiskCard::on(&mut disk, Planned, Access::Write).expect("opened");
    assert!(matches!(
        card.format(K),
        Err(Error::Refused(Refusal::Window))
    ));
    drop(card);
    let mut card = DiskCard::on(&mut disk, Planned, Access::Read).expect("opened");
    assert!(matches!(card.format(K), Err(Error::ReadOnly)));
    drop(card);
    assert!(disk.events.iter().all(|event| *event == Event::Flush));
}

/// With other calls in one save: all are granted, or nothing is written.
#[test]
fn with_other_calls() {
    let (data, seconds) = (&points(1_700)[..], AT);
    let create = |name| Operation::Create { name, seconds };
    let append = Operation::Append {
        name: NEW,
        data,
        seconds,
    };
    let start = two_files();
    let mut due = formatted(&start, K);
    reference::run(&mut due, &create(NEW), u32::MAX);
    reference::run(&mut due, &append, u32::MAX);
    for calls in [
        vec![formatting(K), create(NEW), append],
        vec![create(NEW), formatting(K), create(NEW), append],
    ] {
        let mut disk = Lying::new(&start);
        let mut card = DiskCard::on(&mut disk, Planned, Access::Write).expect("opened");
        card.save(&calls, u32::MAX).expect("granted");
        assert_eq!(card.list().expect("clean").len(), 1);
        drop(card);
        assert!(disk.kept == *due);
    }
    let mut disk = Lying::new(&start);
    let mut card = DiskCard::on(&mut disk, Planned, Access::Write).expect("opened");
    let window = card.window().to_vec();
    let delete = Operation::Delete { name: ROUTE };
    for calls in [
        vec![formatting(K), create(NEW), delete],
        vec![delete, formatting(K), delete],
    ] {
        let answer = card.save(&calls, u32::MAX);
        assert!(matches!(answer, Err(Error::Refused(Refusal::Absent))));
        assert!(card.window() == window);
    }
    let none = formatting(Form { total: 4_149, ..K });
    let answer = card.save(&[create(NEW), none], u32::MAX);
    assert!(matches!(answer, Err(Error::Refused(Refusal::Size))));
    assert!(card.window() == window);
    assert_eq!(card.delete(ROUTE).expect("still there"), 5);
    drop(card);
    assert_eq!(disk.kept.with(state).expect("clean").len(), 1);
}

/// A limit cuts the stores short; a rehearsal makes none.
#[test]
fn cut_short_and_rehearsed() {
    for limit in [0, 1, 2, 40, 73] {
        let mut disk = Lying::new(&two_files());
        let mut card = DiskCard::on(&mut disk, Planned, Access::Write).expect("opened");
        let answer = card.save(&[formatting(K)], limit);
        assert!(matches!(answer, Err(Error::Stopped(made)) if made == limit));
        assert!(matches!(card.format(K), Err(Error::Ended)));
        drop(card);
        let mut due = two_files();
        reference::run(&mut due, &formatting(K), limit);
        assert!(disk.kept == *due && disk.back.is_empty());
    }
    let mut disk = Lying::new(&two_files());
    let mut card = DiskCard::on(&mut disk, Planned, Access::Write).expect("opened");
    assert_eq!(card.rehearse(&formatting(K)).expect("granted").count(), 74);
    assert_eq!(card.list().expect("clean"), []);
    assert!(matches!(card.format(K), Err(Error::Ended)));
    drop(card);
    assert!(disk.kept == *two_files() && disk.back.is_empty());
}
