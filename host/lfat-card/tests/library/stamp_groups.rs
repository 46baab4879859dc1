//! Pending groups with stamps made and damaged by hand: library and reference side by side, with every limit of the recovery, and
//! the rule of RECORD written down once more.
//! `LFAT_CASES=N` makes N times as many random groups.

use crate::support::twin::Twin;
use reference::{Answer, Ground};
use testkit::call::Call;
use testkit::cards::Card;
use testkit::characters::{bytes_of, letters};
use testkit::dates::{stamp_of_words, stamp_record};
use testkit::random::Random;
use testkit::{cases, ALL, AT, PANEL, ROUTE};

/// Create, update, truncate and replace.
const STAMPED: [u8; 4] = [1, 2, 4, 6];

/// Files in slots 0 to 39.
fn card() -> Card {
    let mut card = Card::k();
    card.fill_root(0);
    for slot in 40..512 {
        card.slot_mut(slot).fill(0);
    }
    for slot in 0..40 {
        for at in 12..26 {
            card.slot_mut(slot)[at] = (3 * slot + at) as u8;
        }
    }
    card
}

/// Main record for slot 30, and its stamp; with so many characters it creates a long name.
fn group(operation: u8, length: usize) -> [u8; 512] {
    let mut sector = [0; 512];
    sector[..11].copy_from_slice(ROUTE);
    sector[11] = 0x20;
    sector[12] = length.div_ceil(13) as u8;
    sector[13] = operation;
    sector[18] = 30;
    sector[32..64].copy_from_slice(&stamp_record(AT));
    sector[64..64 + 2 * length].copy_from_slice(&bytes_of(&letters(length)));
    sector
}

/// The groups that have a stamp.
fn stamped() -> Vec<[u8; 512]> {
    let mut groups: Vec<_> = STAMPED.iter().map(|&kind| group(kind, 0)).collect();
    groups.extend([1, 20, 208].map(|length| group(1, length)));
    groups
}

/// Recovers on both with every limit. Gives the card, or none if it is RECORD.
fn recovered(sector: &[u8; 512]) -> Option<Card> {
    let mut start = card();
    start.log_sector_mut(4).copy_from_slice(sector);
    let mut twin = Twin::new(start);
    twin.call(&Call::List(64), ALL);
    twin.call(&Call::Create(PANEL.to_vec(), AT), ALL);
    twin.all_limits(&Call::Recover, |_| ());
    match twin.call(&Call::Recover, ALL) {
        Answer::Done(1..) => {
            assert_eq!(twin.call(&Call::Recover, ALL), Answer::Done(0));
            Some(twin.card)
        }
        answer => {
            assert_eq!(answer, Answer::Refused(Ground::Record));
            None
        }
    }
}

/// Each byte of the stamp by itself: only time and date may be others.
#[test]
fn every_byte_of_the_stamp() {
    for sector in stamped() {
        for at in 0..32 {
            for change in [1, 0x80, 0x20] {
                let mut other = sector;
                other[32 + at] ^= change;
                let is_word = (14..18).contains(&at);
                assert_eq!(recovered(&other).is_some(), is_word, "{at} {change}");
            }
        }
        for first in [0, 0x53, 0x55, 0x74, 0xE5, 0xFF] {
            let mut other = sector;
            other[32] = first;
            assert!(recovered(&other).is_none(), "{first}");
        }
    }
}

/// No stamp, one in another place, two, and one where none belongs.
#[test]
fn stamps_elsewhere() {
    for operation in 0..=8 {
        let with = group(operation, 0);
        let mut without = with;
        without[32..].fill(0);
        let mut moved = without;
        moved[64..96].copy_from_slice(&with[32..64]);
        let mut twice = with;
        twice[64..96].copy_from_slice(&with[32..64]);
        let mut swapped = [0; 512];
        swapped[..32].copy_from_slice(&with[32..64]);
        swapped[32..64].copy_from_slice(&with[..32]);
        let is_stamped = STAMPED.contains(&operation);
        assert_eq!(recovered(&with).is_some(), is_stamped, "{operation}");
        assert_eq!(recovered(&without).is_some(), operation == 3, "{operation}");
        for sector in [moved, twice, swapped] {
            assert!(recovered(&sector).is_none(), "{operation}");
        }
    }
    // A rename, with a stamp after its records and between them.
    let mut rename = group(5, 0);
    rename.copy_within(..32, 32);
    rename[45] = 0;
    rename[50] = 33;
    assert!(recovered(&rename).is_some());
    let mut after = rename;
    after[64..96].copy_from_slice(&stamp_record(AT));
    assert!(recovered(&after).is_none());
    let mut between = rename;
    between.copy_within(32..64, 64);
    between[32..64].copy_from_slice(&stamp_record(AT));
    assert!(recovered(&between).is_none());
    // A long name as it was recorded before there were stamps.
    for length in [1, 20, 208] {
        let mut old = group(1, length);
        assert!(recovered(&old).is_some());
        old.copy_within(64.., 32);
        old[480..].fill(0);
        assert!(recovered(&old).is_none());
    }
}

/// Recovery gives the words as they are, proper or not, to the fields of the operation, and to no other slot.
#[test]
fn words_of_all_kinds() {
    let start = card();
    for (time, date) in [
        (0, 0),
        (0xFFFF, 0xFFFF),
        (0x07FF, 0x0001),
        (0xF81F, 0x5DA1),
        (0x1234, 0x805F),
        (0x0100, 0x2840),
    ] {
        for mut sector in stamped() {
            sector[32..64].copy_from_slice(&stamp_of_words(time, date));
            let after = recovered(&sector).expect("a group");
            let (time, date) = (time.to_le_bytes(), date.to_le_bytes());
            let slot = after.slot(30);
            assert_eq!([&slot[18..20], &slot[24..26]], [&date, &date]);
            assert_eq!(slot[22..24], time);
            let creation = match sector[13] {
                1 => [&[0, 0][..], &time, &date].concat(),
                _ => start.slot(30)[12..18].to_vec(),
            };
            assert_eq!(slot[12..18], creation);
            let count = usize::from(sector[12]);
            for other in (0..512).filter(|other| !(30 - count..=30).contains(other)) {
                assert_eq!(after.slot(other), start.slot(other), "{other}");
            }
        }
    }
}

/// Both records are marked, and only they; a long name's characters too.
#[test]
fn the_commit() {
    for sector in stamped() {
        let mut after = recovered(&sector).expect("a group");
        let characters = sector[64..].iter().rposition(|&byte| byte != 0);
        let records = 2 + characters.map_or(0, |last| last / 32 + 1);
        let mut expected = sector;
        for record in 0..records {
            expected[32 * record] = 0xE5;
        }
        assert!(after.log_sector_mut(4) == expected);
    }
}

/// Random changes in the first three records of random groups.
#[test]
fn random_groups() {
    let mut random = Random::new(91_000);
    let mut accepted = 0;
    for _ in 0..cases(400) {
        let mut sector = random.pick(&stamped());
        sector[46..50].copy_from_slice(&random.bytes(4));
        for _ in 0..random.below(3) {
            let at = random.below(96);
            sector[at] = random.pick(&[0, 1, 3, 0x54, 0xE5, sector[at] ^ 1]);
        }
        let mut start = card();
        let place = random.below(8);
        start.log_sector_mut(place).copy_from_slice(&sector);
        let mut twin = Twin::new(start);
        twin.all_limits(&Call::Recover, |_| ());
        accepted += u32::from(matches!(twin.call(&Call::Recover, ALL), Answer::Done(1..)));
    }
    assert!((50..350).contains(&accepted), "{accepted}");
}
