//! Creates with a long name, by hand: the entries as a table of bytes, and groups as they stand in the log.

use super::worked::STAMP;
use reference::Operation;
use testkit::cards::Card;
pub use testkit::characters::{bytes_of, bytes_of_text, letters};
use testkit::{Name, AT};

pub const HULL: &Name = b"HULL7S~1CUT";
/// The checksum of HULL7S~1.CUT, as mtools wrote it.
pub const HULL_SUM: u8 = 0x6D;

/// The create of HULL7S~1.CUT with these characters.
pub fn hull_named(characters: &[u8]) -> Operation<'_> {
    Operation::CreateLong {
        name: HULL,
        characters,
        seconds: AT,
    }
}

/// A long entry of HULL7S~1.CUT with these thirteen characters.
pub fn entry(first: u8, characters: [u16; 13]) -> [u8; 32] {
    let mut bytes = [0; 32];
    bytes[0] = first;
    bytes[11] = 0x0F;
    bytes[13] = HULL_SUM;
    let [a, b, c, d, e, f, g, h, i, j, k, l, m] = characters.map(u16::to_le_bytes);
    bytes[1..11].copy_from_slice(&[a, b, c, d, e].concat());
    bytes[14..26].copy_from_slice(&[f, g, h, i, j, k].concat());
    bytes[28..32].copy_from_slice(&[l, m].concat());
    bytes
}

/// The slot of HULL7S~1.CUT after its create: attributes 0x20, both times 0x6DAF and the three dates 0x5CD1.
pub fn created() -> [u8; 32] {
    *b"HULL7S~1CUT\x20\0\0\xAF\x6D\xD1\x5C\xD1\x5C\0\0\xAF\x6D\xD1\x5C\0\0\0\0\0\0"
}

/// The sector of the group, pending: count and slot in the main record, then the stamp, then the characters.
pub fn group(count: u8, slot: u16, characters: &[u16]) -> [u8; 512] {
    let mut sector = [0; 512];
    sector[..11].copy_from_slice(HULL);
    sector[11] = 0x20;
    sector[12] = count;
    sector[13] = 1;
    sector[18..20].copy_from_slice(&slot.to_le_bytes());
    sector[32..64].copy_from_slice(&STAMP);
    sector[64..64 + 2 * characters.len()].copy_from_slice(&bytes_of(characters));
    sector
}

/// Card K with files in slots 0 up to the given one, and the pending group in log sector 2.
pub fn pending(files: usize, sector: &[u8; 512]) -> Card {
    let mut card = Card::k();
    card.fill_root(0);
    for slot in files..512 {
        card.slot_mut(slot).fill(0);
    }
    card.log_sector_mut(2).copy_from_slice(sector);
    card
}
