//! Long names by hand: the entries before a slot, proper and otherwise. Written apart from the library and from the reference.

use crate::call::Call;
use crate::cards::Card;
use crate::random::Random;
use crate::ROUTE;

/// The bytes of a long entry that decide whether it belongs to a slot: order number, attributes, checksum.
pub const JUDGED: [usize; 3] = [0, 11, 13];

/// Where the characters of a long entry stand, two bytes each.
pub const CHARACTERS: [usize; 13] = [1, 3, 5, 7, 9, 14, 16, 18, 20, 22, 24, 28, 30];

/// The short name's checksum, in plain numbers: half the sum, its odd bit on top, and the byte.
pub fn checksum(name: &[u8]) -> u8 {
    let turned = |sum: u32| sum / 2 + 128 * (sum % 2);
    let sum = name
        .iter()
        .fold(0, |sum, &byte| (turned(sum) + u32::from(byte)) % 256);
    sum as u8
}

/// Files in all slots up to ROUTE.CUT's, which has 700 bytes in clusters 20 and 21 and so many long entries before it. The slots
/// after it are unused.
pub fn card_with(slot: usize, count: usize) -> Card {
    let mut card = Card::k();
    card.fill_root(0);
    for unused in slot + 1..512 {
        card.slot_mut(unused).fill(0);
    }
    card.put_slot(slot, ROUTE, 0x20, 20, 700);
    card.put_chain(&[20, 21], 0xFFFF);
    card.put_long_entries(slot, count);
    card
}

/// An entry as other systems write it, with characters that tell it from others.
pub fn long_entry(number: usize, is_last: bool, sum: u8) -> [u8; 32] {
    let mut entry = [0; 32];
    for (place, at) in CHARACTERS.into_iter().enumerate() {
        entry[at] = b'a' + (place + number) as u8 % 26;
    }
    entry[0] = number as u8 | if is_last { 0x40 } else { 0 };
    entry[11] = 0x0F;
    entry[13] = sum;
    entry
}

impl Card {
    /// Writes so many long entries before a slot, proper but for their number if that is over 20.
    pub fn put_long_entries(&mut self, slot: usize, count: usize) {
        let sum = checksum(&self.slot(slot)[..11]);
        for number in 1..=count {
            let entry = long_entry(number, number == count, sum);
            self.slot_mut(slot - number).copy_from_slice(&entry);
        }
    }

    /// How many long entries belong to a slot: the number for which each of them is as it must be.
    pub fn long_entries(&self, slot: usize) -> usize {
        let sum = checksum(&self.slot(slot)[..11]);
        let is_run = |count: usize| {
            (1..=count).all(|number| {
                let first = number as u8 + if number == count { 0x40 } else { 0 };
                JUDGED.map(|at| self.slot(slot - number)[at]) == [first, 0x0F, sum]
            })
        };
        (1..=slot.min(20)).find(|&count| is_run(count)).unwrap_or(0)
    }

    /// The long name that a slot's entries hold.
    pub fn long_name(&self, slot: usize) -> Option<String> {
        let count = self.long_entries(slot);
        let characters = (1..=count).flat_map(|number| {
            let entry = self.slot(slot - number);
            CHARACTERS.map(|at| u16::from_le_bytes([entry[at], entry[at + 1]]))
        });
        let characters: Vec<u16> = characters.take_while(|&character| character != 0).collect();
        (count > 0).then(|| String::from_utf16_lossy(&characters))
    }

    /// Marks the slots as deleted.
    pub fn mark_deleted(&mut self, slots: impl IntoIterator<Item = usize>) {
        for slot in slots {
            self.slot_mut(slot)[0] = 0xE5;
        }
    }

    /// Moves a file to a place with room for so many long entries before it, as another machine does that gives it a long name:
    /// the lowest such place, of deleted and unused slots. Its old slot is deleted. Gives the new one.
    pub fn give_long_name(&mut self, slot: usize, count: usize) -> Option<usize> {
        let entries = usize::from(self.spec.root_entries);
        let is_free = |slot: usize| matches!(self.slot(slot)[0], 0 | 0xE5);
        let mut places = 0..entries.saturating_sub(count);
        let first = places.find(|&first| (first..=first + count).all(is_free))?;
        let bytes = self.slot(slot).to_vec();
        self.mark_deleted([slot]);
        self.slot_mut(first + count).copy_from_slice(&bytes);
        self.put_long_entries(first + count, count);
        Some(first + count)
    }
}

/// What a delete or rename is about: the slot that has the name.
pub fn ended_slot(card: &Card, call: &Call) -> Option<usize> {
    let (Call::Delete(name) | Call::Rename(name, _)) = call else {
        return None;
    };
    card.slot_named(name)
}

/// The root directory after a delete or rename that is granted: the slot and its long entries marked, the new slot filled, and
/// nothing else changed.
pub fn root_after(card: &Card, call: &Call) -> Option<Vec<u8>> {
    let slot = ended_slot(card, call)?;
    let mut after = card.clone();
    let mut bytes = card.slot(slot).to_vec();
    after.mark_deleted(slot - card.long_entries(slot)..=slot);
    if let Call::Rename(_, new) = call {
        let mut slots = 0..usize::from(card.spec.root_entries);
        let free = slots.find(|&slot| matches!(card.slot(slot)[0], 0 | 0xE5))?;
        bytes[..11].copy_from_slice(new.get(..11)?);
        after.slot_mut(free).copy_from_slice(&bytes);
    }
    Some(after.bytes[512 * card.root()..512 * card.data()].to_vec())
}

/// A number of long entries: mostly few, now and then as many as there may be, or one more.
pub fn random_count(random: &mut Random) -> usize {
    match random.below(12) {
        0 => random.pick(&[19, 20, 21, 22]),
        1 => 1 + random.below(19),
        _ => 1 + random.below(3),
    }
}

/// Damages one of the entries before a slot: a byte that counts, one that does not, or the whole entry deleted.
pub fn damage_long_entries(card: &mut Card, slot: usize, random: &mut Random) {
    let Some(reach) = card.long_entries(slot).min(slot).checked_sub(1) else {
        return;
    };
    let entry = slot - 1 - random.below(reach + 1);
    let at = match random.below(4) {
        0 => random.below(31) + 1,
        _ => random.pick(&JUDGED),
    };
    let byte = &mut card.slot_mut(entry)[at];
    *byte = match random.below(6) {
        0 => *byte ^ 0x40,
        1 => byte.wrapping_add(1),
        2 => *byte ^ 0x80,
        3 if at == 0 => 0xE5,
        4 => *byte ^ 0x20,
        _ => *byte ^ 1 << random.below(8),
    };
    // A first byte of 0 would end the directory.
    if at == 0 && *byte == 0 {
        *byte = 0xE5;
    }
}
