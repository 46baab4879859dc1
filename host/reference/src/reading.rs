//! The calls that store nothing: read, list, fits and the reading of long names.

use crate::answer::{Answer, Ground};
use crate::bytes::put16;
use crate::check;
use crate::fat::FREE;
use crate::long_name::of_slot;
use crate::lookup::open_to_read;
use crate::name;
use crate::root::{self, slots, SLOT_BYTES};
use crate::volume::Volume;

/// Fills the buffer from the offset up to the end of the file and answers the
/// count of bytes.
pub fn read(card: &[u8], name: &[u8], offset: u64, buffer: &mut [u8]) -> Answer {
    let opened = match open_to_read(card, name) {
        Ok(opened) => opened,
        Err(ground) => return Answer::Refused(ground),
    };
    let left = u64::from(opened.file.size).saturating_sub(offset) as usize;
    let count = left.min(buffer.len());
    let volume = &opened.card.volume;
    copy_along(volume, &opened.chain, offset as usize, &mut buffer[..count]);
    Answer::Done(count as u32)
}

/// Fills the buffer with the chain's bytes from the offset on.
pub fn copy_along(volume: &Volume, chain: &[u16], offset: usize, buffer: &mut [u8]) {
    let cluster_bytes = volume.geometry.cluster_bytes() as usize;
    let mut at = offset;
    let mut rest = buffer;
    while !rest.is_empty() {
        let source = &volume.cluster(chain[at / cluster_bytes])[at % cluster_bytes..];
        let (piece, after) = rest.split_at_mut(source.len().min(rest.len()));
        piece.copy_from_slice(&source[..piece.len()]);
        at += piece.len();
        rest = after;
    }
}

/// Copies the live slots that are neither labels nor long names, as many as fit
/// whole, and answers how many there are.
pub fn list(card: &[u8], buffer: &mut [u8]) -> Answer {
    let root = match check::clean(card) {
        Ok(card) => card.volume.root(),
        Err(ground) => return Answer::Refused(ground),
    };
    let mut places = buffer.chunks_exact_mut(SLOT_BYTES);
    let mut count = 0;
    for slot in slots(root).filter(|slot| slot.is_entry()) {
        if let Some(place) = places.next() {
            place.copy_from_slice(slot.0);
        }
        count += 1;
    }
    Answer::Done(count)
}

/// Copies the characters of a long name, as many as fit, and answers how many
/// there are, 0 without long entries. Of a directory too.
pub fn long_name(card: &[u8], name: &[u8], buffer: &mut [u8]) -> Answer {
    let characters = match characters_of(card, name) {
        Ok(characters) => characters,
        Err(ground) => return Answer::Refused(ground),
    };
    for (place, &character) in buffer.chunks_exact_mut(2).zip(&characters) {
        put16(place, 0, character);
    }
    Answer::Done(characters.len() as u32)
}

/// Grounds 1 to 9.
fn characters_of(card: &[u8], name: &[u8]) -> Result<Vec<u16>, Ground> {
    let card = check::clean(card)?;
    let name = name::parse(name)?;
    let root = card.volume.root();
    let slot = root::find(root, &name).ok_or(Ground::Absent)?;
    Ok(of_slot(root, slot))
}

/// Whether an empty file could be given so many bytes, by free clusters alone.
/// A yes has the lowest cluster up to which FAT1 has enough free, 0 for no
/// bytes; no entry after it is looked at.
pub fn fits(card: &[u8], bytes: u64) -> Answer {
    let volume = match check::clean(card) {
        Ok(card) => card.volume,
        Err(ground) => return Answer::Refused(ground),
    };
    let needed = bytes.div_ceil(u64::from(volume.geometry.cluster_bytes()));
    if needed == 0 {
        return Answer::Done(0);
    }
    let mut seen = 0;
    for cluster in volume.fat1().holding(FREE) {
        seen += 1;
        if seen == needed {
            return Answer::Done(u32::from(cluster));
        }
    }
    Answer::No
}
