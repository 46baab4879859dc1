//! Pending groups made by hand: what RECORD accepts, and the recovery of it with every limit.
//! `LFAT_CASES=N` makes N times as many random groups.

use crate::support::twin::Twin;
use reference::{Answer, Ground};
use testkit::call::Call;
use testkit::cards::Card;
use testkit::dates::{stamp_record, stamp_written};
use testkit::random::Random;
use testkit::{cases, ALL, AT, OTHER, PANEL, ROUTE};

const DELETE: u8 = 3;
const RENAME: u8 = 5;
/// Create, update, delete, truncate, rename and replace.
const OPERATIONS: std::ops::RangeInclusive<u8> = 1..=6;
/// Live slots of the card; the next one is the lowest beginning 0.
const LIVE: u16 = 40;

/// Card K with files, and with FATs that differ.
fn card() -> Card {
    let mut card = Card::k();
    card.fill_root(0);
    card.put_slot(3, ROUTE, 0x27, 20, 1_300);
    card.put_chain(&[20, 300, 21], 0xFFF8);
    for slot in usize::from(LIVE)..512 {
        card.slot_mut(slot).fill(0);
    }
    for (cluster, value) in [(22, 23), (23, 0xFFFF), (300, 0xFFFF), (4_000, 7)] {
        let at = card.fat2() * 512 + cluster * 2;
        card.bytes[at..at + 2].copy_from_slice(&u16::to_le_bytes(value));
    }
    card
}

/// The sector of a group as the calls write it.
fn group(operation: u8) -> [u8; 512] {
    let mut sector = [0; 512];
    sector[..11].copy_from_slice(ROUTE);
    sector[11] = 0x20;
    sector[13] = operation;
    sector[18] = 3;
    sector[22] = 22;
    sector[26] = 21;
    sector[28..30].copy_from_slice(&1_500u16.to_le_bytes());
    match operation {
        RENAME => {
            sector.copy_within(..32, 32);
            sector[32..43].copy_from_slice(PANEL);
            sector[45] = 0;
            sector[50..52].copy_from_slice(&LIVE.to_le_bytes());
        }
        DELETE => (),
        _ => sector[32..64].copy_from_slice(&stamp_record(AT)),
    }
    sector
}

/// Puts the sector into the log, recovers with every limit, and gives what the whole recovery answers.
fn recovered(card: Card, place: usize, sector: &[u8; 512]) -> Answer {
    let mut twin = Twin::new(card);
    twin.edit(|card| card.log_sector_mut(place).copy_from_slice(sector));
    twin.call(&Call::List(96), ALL);
    twin.all_limits(&Call::Recover, |_| ());
    let answer = twin.call(&Call::Recover, ALL);
    if matches!(answer, Answer::Done(_)) {
        assert_eq!(twin.call(&Call::Recover, ALL), Answer::Done(0));
        twin.call(&Call::List(2_000), ALL);
    }
    answer
}

/// Whether each changed byte of the group leaves it acceptable.
fn expect(operation: u8, changes: &[(usize, u8)], accepted: bool) {
    let mut sector = group(operation);
    for &(at, byte) in changes {
        sector[at] = byte;
    }
    let answer = recovered(card(), usize::from(operation), &sector);
    let is_accepted = matches!(answer, Answer::Done(_));
    assert_eq!(is_accepted, accepted, "{operation} {changes:?}: {answer:?}");
    assert!(accepted || answer == Answer::Refused(Ground::Record));
}

#[test]
fn fields_of_record_0() {
    for operation in OPERATIONS {
        // A rename's record 1 has to be alike.
        let both = |at: usize, byte| match operation {
            RENAME => vec![(at, byte), (at + 32, byte)],
            _ => vec![(at, byte)],
        };
        expect(operation, &[], true);
        for not_judged in [
            (11, 0xFF),
            (11, 0x10),
            (22, 0),
            (23, 0xFF),
            (26, 0),
            (31, 9),
        ] {
            expect(operation, &both(not_judged.0, not_judged.1), true);
        }
        for judged in [14, 15, 16, 17, 20, 21, 24, 25] {
            expect(operation, &both(judged, 1), false);
        }
        expect(operation, &[(0, 1), (5, 0), (10, 0xE5)], true);
        // A rename's new slot is the lowest that begins 0, and read as deleted: then the one after it may be named too.
        expect(operation, &[(18, LIVE as u8 + 1)], operation == RENAME);
        expect(operation, &[(18, LIVE as u8 + 2)], false);
        expect(operation, &[(18, 0), (19, 2)], false);
        for unknown in [7, 8, 0x86, 0xFF] {
            expect(operation, &[(13, unknown)], false);
        }
        expect(operation, &[(13, 0)], false);
        let end = if operation == DELETE { 32 } else { 64 };
        for after in [end, end + 31, 480, 511] {
            expect(operation, &[(after, 1)], false);
            expect(operation, &[(after, 0xE5)], false);
        }
        if operation != RENAME {
            expect(operation, &[(18, LIVE as u8)], true);
            expect(operation, &[(13, RENAME)], false);
        }
    }
}

/// The long-name count: in delete and rename at most 20 and at most the old slot's number, else 0.
#[test]
fn long_name_counts() {
    for operation in OPERATIONS {
        for slot in [0, 1, 3, 19, 20, 21, LIVE as u8] {
            for count in (0..=22).chain([0x40, 0x41, 0x80, 0xFF]) {
                let most = match operation {
                    DELETE | RENAME => slot.min(20),
                    _ => 0,
                };
                let mut changes = vec![(12, count), (18, slot)];
                if operation == RENAME {
                    // A new slot that is never among those marked.
                    changes.extend([(44, count), (50, if slot < 30 { 39 } else { 0 })]);
                }
                expect(operation, &changes, count <= most);
            }
        }
    }
}

/// The new slot of a rename is none of those that the count marks, and both records have the count.
#[test]
fn new_slots_beside_marked_ones() {
    for (old, count) in [(30, 0), (30, 1), (30, 20), (20, 20), (17, 3), (1, 1)] {
        for new in 0..LIVE as u8 {
            let changes = [(12, count), (44, count), (18, old), (50, new)];
            expect(RENAME, &changes, new > old || new < old - count);
        }
        let other = [(12, count), (44, count + 1), (18, old)];
        expect(RENAME, &other, false);
        expect(RENAME, &[(12, count + 1), (44, count), (18, old)], false);
    }
}

#[test]
fn fields_of_record_1() {
    for byte in 0..=255 {
        expect(RENAME, &[(45, byte)], true);
    }
    for judged in (11..13).chain(14..18).chain(20..32) {
        expect(RENAME, &[(32 + judged, 0x41)], false);
    }
    for (first_byte, accepted) in [(0, false), (0xE5, false), (1, true), (0xFF, true)] {
        expect(RENAME, &[(32, first_byte)], accepted);
    }
    let slots = [(0, true), (3, false), (15, true), (16, true), (39, true)];
    for (slot, accepted) in slots.into_iter().chain([(41, false), (255, false)]) {
        expect(RENAME, &[(50, slot)], accepted);
    }
    expect(RENAME, &[(51, 2), (50, 0)], false);
    // Both slots at the end, or the old one there.
    expect(RENAME, &[(18, LIVE as u8)], false);
    expect(RENAME, &[(18, LIVE as u8), (50, 5)], true);
}

#[test]
fn groups_elsewhere() {
    for operation in OPERATIONS {
        let plain = group(operation);
        for place in 0..8 {
            let answer = recovered(card(), place, &plain);
            assert!(matches!(answer, Answer::Done(_)));
            // A second group, and pending records that are none.
            for (at, second) in [(0, plain[0]), (32, b'A'), (480, b'A')] {
                let mut twice = card();
                twice.log_sector_mut((place + 3) % 8)[at] = second;
                let answer = recovered(twice, place, &plain);
                assert_eq!(answer, Answer::Refused(Ground::Record));
            }
            let mut old = card();
            old.log_sector_mut((place + 1) % 8).fill(0xE5);
            let answer = recovered(old, place, &plain);
            assert!(matches!(answer, Answer::Done(_)));
        }
        let mut shifted = [0; 512];
        shifted[32..].copy_from_slice(&plain[..480]);
        assert_eq!(
            recovered(card(), 0, &shifted),
            Answer::Refused(Ground::Record)
        );
    }
}

/// First cluster and size of a replace go into the slot unjudged, be they proper or not.
#[test]
fn odd_fields_of_a_replace() {
    for (dir_cluster, size) in [
        (0, 0),
        (0, 1_500),
        (22, 0),
        (1, u32::MAX),
        (0xFFFF, 1),
        (4_087, 512),
        (2, 512),
    ] {
        let mut sector = group(6);
        sector[22..24].copy_from_slice(&u16::to_le_bytes(dir_cluster));
        sector[28..32].copy_from_slice(&u32::to_le_bytes(size));
        let mut twin = Twin::new(card());
        twin.edit(|card| {
            card.log_sector_mut(4).copy_from_slice(&sector);
            // The high word too.
            card.slot_mut(3)[12..26].fill(0x5A);
        });
        let before = twin.card.slot(3).to_vec();
        // FAT1 sectors 0, 1 and 15, the root sector and the commit.
        assert_eq!(twin.call(&Call::Recover, ALL), Answer::Done(5));
        let slot = twin.card.slot(3);
        let mut expected = before;
        stamp_written(&mut expected, AT);
        assert_eq!(slot[..26], expected[..26]);
        assert_eq!(slot[26..28], u16::to_le_bytes(dir_cluster));
        assert_eq!(slot[28..], u32::to_le_bytes(size));
    }
}

/// With no slot beginning 0, the root entries alone bound a record's slots.
#[test]
fn slots_of_a_full_root() {
    for (slot, accepted) in [(511u16, true), (512, false), (u16::MAX, false)] {
        for operation in OPERATIONS {
            let mut full = card();
            full.fill_root(usize::from(LIVE));
            let mut sector = group(operation);
            let at = if operation == RENAME { 50 } else { 18 };
            sector[at..at + 2].copy_from_slice(&slot.to_le_bytes());
            let answer = recovered(full, 2, &sector);
            assert_eq!(matches!(answer, Answer::Done(_)), accepted);
        }
    }
}

#[test]
fn random_groups() {
    let mut random = Random::new(20_000);
    let mut accepted = 0;
    for _ in 0..cases(300) {
        let mut sector = group(1 + random.below(6) as u8);
        for at in [11, 26, 27, 28, 29, 30, 31] {
            sector[at] = random.byte();
            if sector[13] == RENAME {
                sector[at + 32] = sector[at];
            }
        }
        let slots = usize::from(LIVE) + 3;
        sector[18] = random.below(slots) as u8;
        if matches!(sector[13], DELETE | RENAME) {
            sector[12] = random.below(23).min(random.below(45)) as u8;
        }
        if sector[13] == RENAME {
            sector[44] = sector[12];
            sector[45] = random.byte();
            sector[50] = random.below(slots) as u8;
        }
        for _ in 0..random.below(4) {
            let end = random.pick(&[64, 64, 64, 512]);
            let at = random.below(end);
            sector[at] = random.pick(&[0, 1, 3, 0x20, 0xE5, sector[18] ^ 1]);
        }
        if !matches!(sector[13], DELETE | RENAME) && random.one_in(2) {
            // Words of any kind in the stamp.
            sector[46..50].copy_from_slice(&random.bytes(4));
        }
        let mut card = card();
        card.put_slot(9, OTHER, random.byte(), 60, random.byte().into());
        let place = random.below(8);
        if let Answer::Done(_) = recovered(card, place, &sector) {
            accepted += 1;
        }
    }
    assert!(accepted > 50, "{accepted}");
}
