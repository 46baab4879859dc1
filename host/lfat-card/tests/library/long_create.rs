//! Creates with a long name, read back: library and reference side by side, at every bound. A third statement of what the root
//! directory is then stands in `testkit::characters`.
//! `LFAT_CASES=N` tries N times as many random groups.

use crate::support::twin::Twin;
use reference::{Answer, Ground};
use testkit::call::Call;
use testkit::cards::Card;
use testkit::characters::{bytes_of, letters, random_characters, root_with_long_name};
use testkit::dates::stamp_record;
use testkit::random::Random;
use testkit::{cases, ALL, AT, OTHER, PANEL, ROUTE};

fn named(characters: &[u16]) -> Call {
    Call::CreateLong(ROUTE.to_vec(), bytes_of(characters), AT)
}

fn read(room: usize) -> Call {
    Call::LongName(ROUTE.to_vec(), room)
}

/// Files in the first slots, of which some are deleted; the others are unused.
fn card(files: usize, deleted: std::ops::Range<usize>) -> Card {
    let mut card = Card::k();
    card.fill_root(0);
    card.mark_deleted(deleted);
    for slot in files..512 {
        card.slot_mut(slot).fill(0);
    }
    card
}

/// The call with every limit, and what each leaves recovered with every limit.
fn every_cut(card: &Card, call: &Call) {
    let stores = Twin::new(card.clone()).stores(call) as u32;
    for limit in (0..=stores).chain([ALL]) {
        let mut twin = Twin::new(card.clone());
        twin.call(call, limit);
        twin.call(&read(9), ALL);
        twin.all_limits(&Call::Recover, |_| ());
        twin.done(&Call::Recover);
    }
}

/// A create that is granted: the root directory as it was to be, every limit recovered, and the name read back with much room and
/// little.
fn created(card: &Card, characters: &[u16]) {
    let call = named(characters);
    let root = root_with_long_name(card, &call).expect("a run");
    every_cut(card, &call);
    let mut twin = Twin::new(card.clone());
    twin.done(&call);
    assert!(twin.card.bytes[512 * card.root()..512 * card.data()] == root);
    let length = characters.len();
    for room in [0, 1, 2, 3, 26, 27, 2 * length - 1, 2 * length, 600] {
        assert_eq!(twin.call(&read(room), ALL), Answer::Done(length as u32));
    }
    let exists = Answer::Refused(Ground::Exists);
    assert_eq!(twin.call(&call, ALL), exists);
    let other = Call::CreateLong(PANEL.to_vec(), bytes_of(characters), AT);
    assert_eq!(twin.call(&other, ALL), exists);
    twin.all_limits(&Call::Delete(ROUTE.to_vec()), |twin| {
        twin.done(&Call::Recover)
    });
    twin.done(&Call::Rename(ROUTE.to_vec(), PANEL.to_vec()));
    assert_eq!(
        twin.call(&named(characters), ALL),
        Answer::Done(twin_stores(characters))
    );
}

/// The group, root sectors and the commit, where the slots are the lowest of a root directory whose first ones are free.
fn twin_stores(characters: &[u16]) -> u32 {
    2 + 1 + u32::from(characters.len() > 195)
}

#[test]
fn every_length() {
    for length in 1..=208 {
        let mut twin = Twin::new(Card::k());
        twin.done(&named(&letters(length)));
        let there = twin.call(&read(2 * length + 1), ALL);
        assert_eq!(there, Answer::Done(length as u32));
    }
    for length in [1, 13, 14, 16, 17, 26, 33, 195, 196, 208] {
        created(&card(0, 0..0), &letters(length));
    }
}

/// Runs of deleted and unused slots at the borders of root sectors, and at the end of the root directory.
#[test]
fn runs() {
    let refused = Answer::Refused(Ground::Rootfull);
    for (files, deleted) in [
        (14, 0..0),
        (20, 14..20),
        (40, 15..18),
        (40, 30..40),
        (512, 509..512),
        (512, 495..512),
        (512, 10..26),
        (505, 505..505),
    ] {
        let start = card(files, deleted);
        for length in [1, 13, 14, 39, 182, 195, 208] {
            let call = named(&letters(length));
            let mut twin = Twin::new(start.clone());
            let root = root_with_long_name(&start, &call);
            let answer = twin.call(&call, ALL);
            assert_eq!(answer == refused, root.is_none(), "{files} {length}");
            if let Some(root) = root {
                assert!(twin.card.bytes[512 * start.root()..512 * start.data()] == root);
                every_cut(&start, &call);
            }
        }
    }
}

/// Every value of a character, first, in the middle and last.
#[test]
fn every_character() {
    let mut twin = Twin::new(Card::k());
    for character in (0..0x180)
        .chain((0x180..=0xFFFF).step_by(97))
        .chain(0xFFF0..=0xFFFF)
    {
        for at in [0, 15, 19] {
            let mut name = letters(20);
            name[at] = character;
            twin.tried(&named(&name), ALL, |twin| {
                twin.call(&read(40), ALL);
            });
        }
    }
}

/// Lengths and odd numbers of bytes that are refused, before a name that is taken and after one that is bad.
#[test]
fn lengths_and_order() {
    let mut card = card(20, 3..6);
    card.put_slot(0, ROUTE, 0x20, 0, 0);
    let mut twin = Twin::new(card);
    for bytes in (0..6)
        .chain(410..424)
        .chain([1_000, 65_535, 65_536, 131_072, 131_074])
    {
        for name in [&ROUTE[..], PANEL, b"route   cut", b"ROUTE"] {
            for fill in [b'a', 0, b'*'] {
                let call = Call::CreateLong(name.to_vec(), vec![fill; bytes], AT);
                twin.tried(&call, ALL, |_| ());
            }
        }
    }
    let refused = |name: &[u8], bytes: &[u8]| {
        let mut twin = Twin::new(twin.card.clone());
        twin.call(&Call::CreateLong(name.to_vec(), bytes.to_vec(), AT), ALL)
    };
    assert_eq!(refused(b"ROUTE", b"*"), Answer::Refused(Ground::Name));
    assert_eq!(refused(ROUTE, b"*"), Answer::Refused(Ground::Longname));
    assert_eq!(refused(ROUTE, b"a\0"), Answer::Refused(Ground::Exists));
}

/// Names that are there: long ones of our own and of others, of directories, broken ones, with characters changed one by one.
#[test]
fn names_that_are_taken() {
    let mut card = card(40, 0..40);
    card.put_slot(9, OTHER, 0x20, 0, 0);
    card.put_long_entries(9, 3);
    card.put_slot(15, PANEL, 0x10, 0, 0);
    card.put_long_entries(15, 4);
    card.slot_mut(11)[5] = 0;
    let mut twin = Twin::new(card);
    for slot in [9, 15] {
        let name = twin.card.characters(slot);
        let taken = twin.call(&named(&name), 0);
        assert_eq!(taken, Answer::Refused(Ground::Exists));
        for at in 0..name.len() {
            let mut other = name.clone();
            other[at] ^= 0x20;
            assert_eq!(twin.call(&named(&other), 0), Answer::Stopped(0));
            twin.call(&named(&name[..at]), 0);
        }
        for entry in slot - 4..=slot {
            for at in 0..32 {
                let own = twin.card.slot(entry)[at];
                for byte in [own ^ 1, own ^ 0x40, 0xE5, 0xFF] {
                    twin.set_slot_byte(entry, at, byte);
                    twin.call(&named(&name), 0);
                    let short = twin.card.slot(slot)[..11].to_vec();
                    twin.call(&Call::LongName(short, 60), ALL);
                }
                twin.set_slot_byte(entry, at, own);
            }
        }
    }
}

/// The sector of a pending group: main record, stamp, characters.
fn group(count: u8, slot: usize, characters: &[u16]) -> [u8; 512] {
    let mut sector = [0; 512];
    sector[..11].copy_from_slice(ROUTE);
    sector[11..14].copy_from_slice(&[0x20, count, 1]);
    sector[18..20].copy_from_slice(&(slot as u16).to_le_bytes());
    sector[32..64].copy_from_slice(&stamp_record(AT));
    let bytes = bytes_of(characters);
    sector[64..64 + bytes.len()].copy_from_slice(&bytes);
    sector
}

/// What recovery answers.
fn recovered(mut start: Card, place: usize, sector: &[u8; 512]) -> Answer {
    start.log_sector_mut(place).copy_from_slice(sector);
    let mut twin = Twin::new(start);
    let answer = twin.call(&Call::Recover, ALL);
    twin.call(&read(500), ALL);
    answer
}

/// Every byte of a group of 20 characters, and of one that fills all slots.
#[test]
fn every_byte_of_a_group() {
    let (mut good, mut bad) = (0, 0);
    for (length, step) in [(20usize, 1), (208, 11)] {
        let sector = group(length.div_ceil(13) as u8, 30, &letters(length));
        for at in (0..32).chain((32..512).step_by(step)) {
            for byte in [0, 1, sector[at] ^ 0x80, 0xE5] {
                let mut other = sector;
                other[at] = byte;
                match recovered(card(40, 20..25), 2, &other) {
                    Answer::Done(_) => good += 1,
                    _ => bad += 1,
                }
            }
        }
    }
    assert!(good > 300 && bad > 1_000, "{good} {bad}");
}

/// Count, slot and length against each other, with the end of the root directory before, among and after the slots.
#[test]
fn counts_slots_and_ends() {
    let (mut good, mut bad) = (0, 0);
    for files in [0, 12, 20, 40, 512] {
        for count in [1, 2, 15, 16, 17, 255] {
            for slot in [
                0, 1, 2, 13, 14, 16, 17, 20, 21, 22, 36, 37, 56, 57, 511, 512,
            ] {
                for more in [0, 1, 13] {
                    let length = (13 * usize::from(count) + more).saturating_sub(12).min(224);
                    match recovered(card(files, 0..0), 1, &group(count, slot, &letters(length))) {
                        Answer::Done(_) => good += 1,
                        _ => bad += 1,
                    }
                }
            }
        }
    }
    assert!(good > 150 && bad > 500, "{good} {bad}");
}

/// Which sectors are led by their record 0: its first byte, its count, its operation, and another record after it.
#[test]
fn led_sectors() {
    let mut answers = [0; 3];
    for (first, count) in [b'R', 0xE5, 0]
        .into_iter()
        .flat_map(|f| [0, 1, 2, 16, 17, 255].map(|c| (f, c)))
    {
        for operation in [0, 1, 2, 3, 4, 5, 6, 129] {
            for (is_stamped, record, other) in [
                (true, 1, 0x54),
                (true, 1, b'x'),
                (true, 1, 0xE5),
                (true, 2, b'x'),
                (true, 15, b'x'),
                (false, 1, b'x'),
                (false, 1, 0xE5),
                (false, 2, b'x'),
                (false, 1, 0),
            ] {
                let mut sector = group(count, 30, &[]);
                if !is_stamped {
                    sector[32..].fill(0);
                }
                sector[0] = first;
                sector[13] = operation;
                sector[32 * record] = other;
                answers[match recovered(card(40, 0..0), 3, &sector) {
                    Answer::Done(0) => 0,
                    Answer::Done(_) => 1,
                    _ => 2,
                }] += 1;
            }
        }
    }
    assert!(answers.iter().all(|&count| count > 9), "{answers:?}");
}

/// Random sectors in the log: led ones pending and committed, others beside them.
#[test]
fn random_groups() {
    let mut random = Random::new(77_000);
    let mut answers = [0; 3];
    for _ in 0..cases(600) {
        let files = random.pick(&[0, 3, 20, 40]);
        let mut start = card(files, 0..0);
        for _ in 0..1 + random.below(2) {
            let bytes = random_characters(&mut random, &start);
            let mut characters: Vec<u16> = bytes
                .chunks_exact(2)
                .map(|p| u16::from_le_bytes([p[0], p[1]]))
                .collect();
            characters.truncate(224);
            let count = match random.below(6) {
                0 => random.byte(),
                _ => characters.len().div_ceil(13) as u8,
            };
            let slot = random.pick(&[files, files + usize::from(count), 20, 30]);
            let mut sector = group(count, slot, &characters);
            sector[0] = random.pick(&[b'R', b'R', b'R', 0xE5, 0]);
            if random.one_in(3) {
                sector[random.below(512)] = random.pick(&[0, 1, 0xE5, b'x']);
            }
            let place = random.below(4);
            start.log_sector_mut(place).copy_from_slice(&sector);
        }
        let sector: [u8; 512] = start.log_sector_mut(5).try_into().expect("a sector");
        answers[match recovered(start, 5, &sector) {
            Answer::Done(0) => 0,
            Answer::Done(_) => 1,
            _ => 2,
        }] += 1;
    }
    assert!(answers.iter().all(|&count| count > 40), "{answers:?}");
}
