//! Characters of long names: made, read from a card by hand, and a third statement of what a create with a long name does.
//! Written apart from the library and from the reference.

use crate::call::Call;
use crate::cards::Card;
use crate::dates::{stamp_created, LAST_SECOND};
use crate::long_names::{checksum, CHARACTERS};
use crate::random::Random;

/// Characters as the calls take them.
pub fn bytes_of(characters: &[u16]) -> Vec<u8> {
    let mut bytes = Vec::new();
    for &character in characters {
        bytes.push((character % 256) as u8);
        bytes.push((character / 256) as u8);
    }
    bytes
}

/// Text as the calls take it.
pub fn bytes_of_text(text: &str) -> Vec<u8> {
    bytes_of(&text.encode_utf16().collect::<Vec<u16>>())
}

/// So many characters that tell their places apart.
pub fn letters(count: usize) -> Vec<u16> {
    (0..count).map(|at| 0x100 + at as u16).collect()
}

/// Lengths at both sides of the bounds of slots and of records.
const LENGTHS: [usize; 14] = [1, 2, 12, 13, 14, 15, 16, 17, 25, 26, 27, 39, 195, 208];

/// Values at both sides of the bounds of what is allowed, and some that mean something elsewhere.
const ODD: [u16; 12] = [
    0x20, 0x21, 0x7F, 0xE5, 0x0100, 0x2E, 0x0122, 0x2F00, 0xD83D, 0xDE00, 0xFFFE, 0xFFFF,
];

/// The characters of a long name to be created: mostly proper and short, at times those of a name that is there, at times such
/// that no rule allows.
pub fn random_characters(random: &mut Random, card: &Card) -> Vec<u8> {
    if random.one_in(3) {
        let entries = usize::from(card.spec.root_entries);
        let names: Vec<Vec<u16>> = (0..entries).map(|slot| card.characters(slot)).collect();
        let names: Vec<&Vec<u16>> = names.iter().filter(|name| !name.is_empty()).collect();
        if !names.is_empty() {
            let mut name = random.pick(&names).clone();
            if random.one_in(3) {
                let last = name.len() - 1;
                name[last] ^= 0x20;
            }
            return bytes_of(&name);
        }
    }
    let length = match random.below(6) {
        0 | 1 => random.pick(&LENGTHS),
        2 => 170 + random.below(39),
        _ => 1 + random.below(40),
    };
    let first = random.below(26) as u16;
    let mut name: Vec<u16> = (0..length)
        .map(|at| 0x61 + (first + at as u16) % 26)
        .collect();
    if random.one_in(3) {
        let at = random.below(length);
        name[at] = random.pick(&ODD);
    }
    if random.one_in(12) {
        let at = random.below(length);
        name[at] = random.pick(&[0, 1, 31, 34, 42, 47, 58, 60, 62, 63, 92, 124]);
    }
    let mut bytes = bytes_of(&name);
    match random.below(30) {
        0 => bytes.push(0x61),
        1 => bytes.clear(),
        2 => bytes = bytes_of(&letters(209)),
        _ => (),
    }
    bytes
}

impl Card {
    /// Gives the long entries of a slot the checksum of its name, which has changed.
    pub fn put_long_sum(&mut self, slot: usize) {
        let sum = checksum(&self.slot(slot)[..11]);
        for entry in (0..slot).rev() {
            if self.slot(entry)[11] != 0x0F {
                break;
            }
            self.slot_mut(entry)[13] = sum;
        }
    }

    /// The characters before the first zero in the long entries of a slot.
    pub fn characters(&self, slot: usize) -> Vec<u16> {
        let first = self.slot(slot)[0];
        if first == 0 || first == 0xE5 || self.slot(slot)[11] & 0x08 != 0 {
            return Vec::new();
        }
        let mut characters = Vec::new();
        for number in 1..=self.long_entries(slot) {
            let entry = self.slot(slot - number);
            for at in CHARACTERS {
                characters.push(u16::from(entry[at]) + 256 * u16::from(entry[at + 1]));
            }
        }
        let end = characters.iter().position(|&character| character == 0);
        characters.truncate(end.unwrap_or(characters.len()));
        characters
    }
}

/// The root directory after a create with a long name that is granted: the lowest long enough run of slots that are free gets the
/// entries, the short one last; nothing else changes.
pub fn root_with_long_name(card: &Card, call: &Call) -> Option<Vec<u8>> {
    let Call::CreateLong(name, characters, seconds) = call else {
        return None;
    };
    if name.len() != 11 || characters.len() % 2 == 1 || *seconds > LAST_SECOND {
        return None;
    }
    let entries = usize::from(card.spec.root_entries);
    let count = (characters.len() / 2).div_ceil(13);
    let is_free = |slot: usize| matches!(card.slot(slot)[0], 0 | 0xE5);
    let mut firsts = 0..entries.saturating_sub(count);
    let first = firsts.find(|&first| (first..=first + count).all(is_free))?;
    let slot = first + count;
    let mut after = card.clone();
    for number in 1..=count {
        let mut entry = [0xFF; 32];
        entry[0] = number as u8 + if number == count { 0x40 } else { 0 };
        entry[11] = 0x0F;
        entry[13] = checksum(name);
        for at in [12, 26, 27] {
            entry[at] = 0;
        }
        for (place, at) in CHARACTERS.into_iter().enumerate() {
            let from = 2 * (13 * (number - 1) + place);
            if from < characters.len() {
                entry[at..at + 2].copy_from_slice(&characters[from..from + 2]);
            } else if from == characters.len() {
                entry[at..at + 2].fill(0);
            }
        }
        after.slot_mut(slot - number).copy_from_slice(&entry);
    }
    let short = after.slot_mut(slot);
    short.fill(0);
    short[..11].copy_from_slice(name);
    short[11] = 0x20;
    stamp_created(short, *seconds);
    Some(after.bytes[512 * card.root()..512 * card.data()].to_vec())
}
