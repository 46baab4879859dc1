//! The checking order, with the grounds written down: a card with every fault at once is mended fault by fault; at each step
//! every call refuses on the first ground still standing. These rows do not rely on the reference.

use crate::support::twin::Twin;
use reference::{Answer, Ground};
use testkit::call::Call;
use testkit::cards::Card;
use testkit::fixtures::{BROKEN, FOLDER};
use testkit::{Name, ALL, AT, OTHER, PANEL, ROUTE};

const BAD_NAME: &[u8] = b"lower case ";
/// Seconds past the last of 2107.
const LATE: u32 = 4_039_286_400;
/// A file with the mark that breaks the chain rule, too: LOCKED is asked before CHAIN.
const LOCKED: &Name = b"LOCKED     ";

/// A full card with all faults of grounds 1 to 7.
fn faulty() -> Twin {
    let mut card = Card::k();
    card.put_slot(0, ROUTE, 0x20, 20, 700);
    card.put_chain(&[20, 21], 0xFFFF);
    card.put_slot(1, FOLDER, 0x11, 30, 0);
    card.put_slot(2, BROKEN, 0x20, 0, 700);
    card.put_slot(3, OTHER, 0x20, 0, 0);
    card.put_slot(4, LOCKED, 0x21, 0, 700);
    card.fill();
    card.bytes[511] = 0; // BOOT
    card.set_fat1(100, 0xFFF6); // LOGAREA, UNCLEAN
    card.slot_mut(200)[0] = b'X'; // ROOT
    card.log_sector_mut(0)[0] = b'X'; // RECORD: operation 0
    let mut twin = Twin::new(card);
    twin.lent = 511;
    twin
}

/// Mends one ground of 1 to 7 and leaves the later ones standing.
fn mend(twin: &mut Twin, ground: Ground) {
    twin.edit(|card| match ground {
        Ground::Short | Ground::Window => (),
        Ground::Boot => card.bytes[511] = 0xAA,
        Ground::Logarea => card.set_fat1(100, 0xFFF9),
        Ground::Root => card.slot_mut(200)[0] = 0,
        Ground::Record => card.log_sector_mut(0)[13] = 3,
        Ground::Unclean => {
            card.log_sector_mut(0)[0] = 0xE5;
            card.set_fat1(100, 0xFFF7);
        }
        other => panic!("{other} is the call's"),
    });
    twin.lent = match ground {
        Ground::Short | Ground::Boot => 512,
        _ => twin.card.bytes.len(),
    };
}

fn expect(twin: &mut Twin, call: &Call, ground: Ground) {
    for limit in [0, 1, ALL] {
        let answer = twin.call(call, limit);
        assert_eq!(answer, Answer::Refused(ground), "{call:?}");
    }
}

/// Each call with a bad name and at the seconds, where it takes them. The first five take seconds, the first eight a name.
fn all_calls(name: &[u8], seconds: u32) -> [Call; 12] {
    let name = name.to_vec();
    [
        Call::Create(name.clone(), seconds),
        Call::Append(name.clone(), vec![7; 5_000], seconds),
        Call::Replace(name.clone(), vec![7; 5_000], seconds),
        Call::Truncate(name.clone(), 701, seconds),
        Call::CreateLong(name.clone(), b"*".to_vec(), seconds),
        Call::Delete(name.clone()),
        Call::Rename(name.clone(), ROUTE.to_vec()),
        Call::LongName(name.clone(), 64),
        Call::Recover,
        Call::Read(name, 0, 64),
        Call::List(64),
        Call::Fits(1),
    ]
}

#[test]
fn grounds_of_the_card() {
    let mut twin = faulty();
    for &ground in &Ground::ALL[..7] {
        for call in all_calls(BAD_NAME, LATE) {
            if ground != Ground::Unclean || !matches!(call, Call::Recover) {
                expect(&mut twin, &call, ground);
            }
        }
        mend(&mut twin, ground);
    }
    for call in &all_calls(BAD_NAME, LATE)[..5] {
        expect(&mut twin, call, Ground::Clock);
    }
    for call in &all_calls(BAD_NAME, LATE - 1)[..8] {
        expect(&mut twin, call, Ground::Name);
    }
    twin.done(&Call::Recover);
    twin.done(&Call::List(64));
    assert_eq!(twin.call(&Call::Fits(1), ALL), Answer::No);
    twin.done(&Call::Fits(0));
}

/// The grounds after UNCLEAN, in order, on the full card.
#[test]
fn grounds_of_the_call() {
    let mut twin = faulty();
    for &ground in &Ground::ALL[..7] {
        mend(&mut twin, ground);
    }
    let rows = |make: fn(&[u8]) -> Call, last: Option<Ground>| {
        let locked = match make(LOCKED) {
            Call::Read(..) => Ground::Chain,
            _ => Ground::Locked,
        };
        let mut rows = vec![
            (make(BAD_NAME), Ground::Name),
            (make(PANEL), Ground::Absent),
            (make(FOLDER), Ground::Directory),
            (make(LOCKED), locked),
            (make(BROKEN), Ground::Chain),
        ];
        rows.extend(last.map(|ground| (make(ROUTE), ground)));
        rows
    };
    let mut all = rows(
        |name| Call::Append(name.to_vec(), vec![7; 5_000], AT),
        Some(Ground::Nospace),
    );
    // One byte is too much on a full card, though the old clusters would hold it; none is not.
    all.extend(rows(
        |name| Call::Replace(name.to_vec(), vec![7], AT),
        Some(Ground::Nospace),
    ));
    all.extend(rows(
        |name| Call::Replace(name.to_vec(), Vec::new(), AT),
        None,
    ));
    all.extend(rows(
        |name| Call::Truncate(name.to_vec(), 701, AT),
        Some(Ground::Length),
    ));
    // A size of which the low 32 bits alone would pass.
    all.extend(rows(
        |name| Call::Truncate(name.to_vec(), 1 << 32, AT),
        Some(Ground::Length),
    ));
    all.extend(rows(|name| Call::Delete(name.to_vec()), None));
    all.extend(rows(|name| Call::Read(name.to_vec(), 9, 64), None));
    for (call, ground) in &all {
        expect(&mut twin, call, *ground);
    }
    twin.done(&Call::Read(ROUTE.to_vec(), 0, 800));
    twin.done(&Call::Replace(ROUTE.to_vec(), Vec::new(), AT));
}

#[test]
fn grounds_of_create_and_rename() {
    let mut twin = faulty();
    for &ground in &Ground::ALL[..7] {
        mend(&mut twin, ground);
    }
    twin.edit(|card| card.fill_root(5));
    let create = |name: &[u8]| Call::Create(name.to_vec(), AT);
    let rename = |old: &[u8], new: &[u8]| Call::Rename(old.to_vec(), new.to_vec());
    for (call, ground) in [
        (create(BAD_NAME), Ground::Name),
        (create(ROUTE), Ground::Exists),
        (create(FOLDER), Ground::Exists),
        (create(LOCKED), Ground::Exists),
        (create(PANEL), Ground::Rootfull),
        (rename(BAD_NAME, ROUTE), Ground::Name),
        (rename(PANEL, BAD_NAME), Ground::Name),
        (rename(PANEL, ROUTE), Ground::Absent),
        (rename(FOLDER, ROUTE), Ground::Directory),
        (rename(LOCKED, ROUTE), Ground::Locked),
        (rename(LOCKED, LOCKED), Ground::Locked),
        (rename(LOCKED, PANEL), Ground::Locked),
        (rename(ROUTE, ROUTE), Ground::Exists),
        (rename(ROUTE, FOLDER), Ground::Exists),
        (rename(ROUTE, LOCKED), Ground::Exists),
        (rename(ROUTE, PANEL), Ground::Rootfull),
    ] {
        expect(&mut twin, &call, ground);
    }
    twin.edit(|card| card.slot_mut(9)[0] = 0xE5);
    // Rename does not ask CHAIN.
    twin.done(&rename(BROKEN, PANEL));
}

/// One byte of one FAT is enough, also past the last cluster and in entries 0 and 1.
#[test]
fn fats_that_differ() {
    for at in [0, 3, 5_000, 16 * 512 - 1] {
        for fat in [1, 17] {
            let mut card = Card::k();
            card.bytes[fat * 512 + at] ^= 1;
            let mut twin = Twin::new(card);
            for call in all_calls(BAD_NAME, LATE) {
                if !matches!(call, Call::Recover) {
                    expect(&mut twin, &call, Ground::Unclean);
                }
            }
            twin.all_limits(&Call::Recover, |_| ());
            assert_eq!(twin.call(&Call::Recover, ALL), Answer::Done(1));
        }
    }
}
