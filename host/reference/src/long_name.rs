//! The characters of a long name: which are allowed, how long entries hold them, and reading them back.

use crate::answer::Ground;
use crate::bytes::{get16, put16};
use crate::long_entries::{self, LAST, LONG_NAME};
use crate::name::Name;
use crate::root::{slot, slots, SLOT_BYTES};

/// The most characters of a long name that is written.
const MOST: usize = 208;

/// The most long slots of a name that is written.
pub const MOST_ENTRIES: usize = 16;

/// Where the characters stand in a long slot, 16 bits each.
const PLACES: [usize; 13] = [1, 3, 5, 7, 9, 14, 16, 18, 20, 22, 24, 28, 30];

/// Fills up the places after the zero that ends a name.
const FILLER: u16 = 0xFFFF;

/// Ground 17, LONGNAME: the characters that the bytes hold, 1 to 208 and all allowed.
pub fn parse(bytes: &[u8]) -> Result<Vec<u16>, Ground> {
    let characters = characters(bytes);
    let accepted = bytes.len().is_multiple_of(2)
        && (1..=MOST).contains(&characters.len())
        && characters.iter().all(|&character| is_allowed(character));
    accepted.then_some(characters).ok_or(Ground::Longname)
}

/// The 16-bit numbers in bytes; an odd last byte is left out.
pub fn characters(bytes: &[u8]) -> Vec<u16> {
    bytes.chunks_exact(2).map(|pair| get16(pair, 0)).collect()
}

/// Neither below 32 nor one of " * / : < > ? \ |.
pub fn is_allowed(character: u16) -> bool {
    let is_forbidden = |forbidden: &u8| u16::from(*forbidden) == character;
    character >= 32 && !b"\"*/:<>?\\|".iter().any(is_forbidden)
}

/// How many long slots so many characters need.
pub fn entries_for(characters: usize) -> usize {
    characters.div_ceil(PLACES.len())
}

/// The long slots of a name, as they stand before the short one: the last characters first.
pub fn entries(name: &Name, characters: &[u16]) -> Vec<[u8; SLOT_BYTES]> {
    let sum = long_entries::checksum(name);
    let last = entries_for(characters.len());
    let pieces = characters.chunks(PLACES.len());
    pieces
        .enumerate()
        .rev()
        .map(|(index, piece)| {
            let number = index + 1;
            let mut entry = [0; SLOT_BYTES];
            entry[0] = number as u8 | if number == last { LAST } else { 0 };
            entry[11] = LONG_NAME;
            entry[13] = sum;
            let ended = piece.iter().copied().chain([0]);
            let filled = ended.chain(std::iter::repeat(FILLER));
            for (at, character) in PLACES.into_iter().zip(filled) {
                put16(&mut entry, at, character);
            }
            entry
        })
        .collect()
}

/// The characters before the first zero in the long entries of a slot; none without such entries.
pub fn of_slot(root: &[u8], index: usize) -> Vec<u16> {
    let count = long_entries::belonging_to(root, index);
    let entries = (1..=count).map(|number| slot(root, index - number).0);
    let characters = entries.flat_map(|entry| PLACES.map(|at| get16(entry, at)));
    characters.take_while(|&character| character != 0).collect()
}

/// A file or a directory has this long name.
pub fn is_taken(root: &[u8], characters: &[u16]) -> bool {
    let mut entries = slots(root).enumerate().filter(|(_, slot)| slot.is_entry());
    entries.any(|(index, _)| of_slot(root, index) == characters)
}
