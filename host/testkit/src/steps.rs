//! Random calls on few names, so that refusals come up often too.

use crate::call::Call;
use crate::cards::Card;
use crate::characters::random_characters;
use crate::dates::random_seconds;
use crate::fixtures::{BROKEN, FOLDER};
use crate::long_names::{damage_long_entries, random_count};
use crate::random::Random;
use crate::{Name, OTHER, PANEL, ROUTE};

const NAMES: [&Name; 8] = [
    ROUTE,
    PANEL,
    OTHER,
    b"KEEL    CUT",
    b"!#$%&'()-@^",
    b"_`{}~  1   ",
    b"0       9  ",
    b"SHEER_L CUT",
];

const BAD_NAMES: [&[u8]; 9] = [
    b"",
    b"ROUTE.CUT",
    b"ROUTE   CU",
    b"ROUTE   CUT ",
    b"route   cut",
    b" ROUTE  CUT",
    b"RO UTE  CUT",
    b"ROUTE   C T",
    b"\xE5OUTE   CUT",
];

pub fn random_name(random: &mut Random) -> Vec<u8> {
    match random.below(30) {
        0 => random.pick(&BAD_NAMES).to_vec(),
        1 => FOLDER.to_vec(),
        2 => BROKEN.to_vec(),
        _ => random.pick(&NAMES).to_vec(),
    }
}

/// A length that often meets a sector's or a cluster's edge; now and then one that fills the card.
pub fn random_length(random: &mut Random, cluster_bytes: usize) -> usize {
    match random.below(16) {
        0 => cluster_bytes * random.below(300),
        1 | 2 => random.pick(&[0, 1, 2, 511, 512, 513]),
        3 | 4 => 512 * random.below(4),
        5 | 6 => cluster_bytes * random.below(5),
        7 | 8 => (cluster_bytes * random.below(4)).saturating_sub(1),
        9 | 10 => cluster_bytes * random.below(4) + 1,
        11 | 12 => random.below(600),
        _ => random.below(5 * cluster_bytes),
    }
}

/// The files and directories among the first slots.
fn present_slots(card: &Card) -> Vec<usize> {
    let is_entry = |slot: &[u8]| ![0, 0xE5].contains(&slot[0]) && slot[11] & 0x08 == 0;
    let first = usize::from(card.spec.root_entries).min(40);
    (0..first)
        .filter(|&slot| is_entry(card.slot(slot)))
        .collect()
}

/// The files and directories among the first slots that have long entries.
pub fn long_named(card: &Card) -> Vec<usize> {
    let mut slots = present_slots(card);
    slots.retain(|&slot| card.long_entries(slot) > 0);
    slots
}

/// The name of a file or directory among the first slots, or any name.
fn present_name(random: &mut Random, card: &Card) -> Vec<u8> {
    let present = present_slots(card);
    if present.is_empty() || random.one_in(4) {
        return random_name(random);
    }
    card.slot(random.pick(&present))[..11].to_vec()
}

/// The name of one that has long entries, where there is such a one, or any name.
fn long_name(random: &mut Random, card: &Card, any: Vec<u8>) -> Vec<u8> {
    let long = long_named(card);
    if long.is_empty() || random.one_in(2) {
        return any;
    }
    card.slot(random.pick(&long))[..11].to_vec()
}

/// Another machine marks a file or directory read-only, or takes the mark away, which it does twice as often.
pub fn random_mark(random: &mut Random, card: &mut Card) {
    let present = present_slots(card);
    if !present.is_empty() {
        let slot = random.pick(&present);
        card.mark_read_only(slot, random.one_in(3));
    }
}

/// Another machine gives a file or directory a long name, at another place of the root directory, or damages one that is there.
pub fn random_long_name(random: &mut Random, card: &mut Card) {
    let long = long_named(card);
    if !long.is_empty() && random.one_in(3) {
        return damage_long_entries(card, random.pick(&long), random);
    }
    let present = present_slots(card);
    if !present.is_empty() {
        let slot = random.pick(&present);
        card.give_long_name(slot, random_count(random));
    }
}

/// A call of any kind; recovery is rare.
pub fn random_call(random: &mut Random, card: &Card) -> Call {
    let cluster_bytes = usize::from(card.spec.sectors_per_cluster) * 512;
    let name = present_name(random, card);
    let length = random_length(random, cluster_bytes);
    let seconds = random_seconds(random);
    match random.below(34) {
        0..=2 => Call::Create(random_name(random), seconds),
        3..=5 => {
            let name = random_name(random);
            Call::CreateLong(name, random_characters(random, card), seconds)
        }
        30..=32 => {
            let any = present_name(random, card);
            Call::LongName(long_name(random, card, any), random_room(random))
        }
        6..=9 => Call::Append(name, random.bytes(length), seconds),
        10..=12 => Call::Truncate(name, length as u64, seconds),
        13 | 14 => Call::Delete(long_name(random, card, name)),
        15..=17 => Call::Rename(long_name(random, card, name), random_name(random)),
        18 => Call::Recover,
        19..=21 => Call::Read(name, random_offset(random), length),
        22..=25 => Call::Replace(name, random.bytes(length), seconds),
        26 | 27 => Call::Fits(random_bytes(random, card)),
        _ => Call::List(random_room(random)),
    }
}

/// A number of bytes that may fit: few, near the room that there is, or far too many.
pub fn random_bytes(random: &mut Random, card: &Card) -> u64 {
    let cluster_bytes = usize::from(card.spec.sectors_per_cluster) * 512;
    let clusters = 2..card.clusters() as u16 + 2;
    let free = clusters.filter(|&cluster| card.fat1_entry(cluster) == 0);
    let room = free.count() * cluster_bytes;
    match random.below(6) {
        0 => random.pick(&[0, 1 << 25, 1 << 32, (1 << 32) + 1, u64::MAX - 511, u64::MAX]),
        1 => room as u64 + 1,
        2 => room as u64,
        3 => random_length(random, cluster_bytes) as u64,
        _ => random.below(room + 2 * cluster_bytes) as u64,
    }
}

pub fn random_offset(random: &mut Random) -> u64 {
    match random.below(4) {
        0 => 0,
        1 => random.pick(&[
            1,
            511,
            512,
            513,
            1 << 16,
            1 << 31,
            1 << 32,
            (1 << 32) + 5,
            u64::MAX,
        ]),
        _ => random.below(6_000) as u64,
    }
}

fn random_room(random: &mut Random) -> usize {
    match random.below(3) {
        0 => random.pick(&[0, 1, 31, 32, 33, 63, 64]),
        _ => random.below(600),
    }
}
