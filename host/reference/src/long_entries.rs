//! The long entries of a slot: the name that other systems show, in the slots directly before it.

use crate::root::{slot, Slot};

/// No slot has more long entries.
pub const MOST: usize = 20;

/// The attributes of a long entry.
pub const LONG_NAME: u8 = 0x0F;
/// In the first byte of the last entry, the one farthest back.
pub const LAST: u8 = 0x40;

/// What long entries keep of their slot's name, at offset 13.
pub fn checksum(name: &[u8; 11]) -> u8 {
    name.iter()
        .fold(0, |sum: u8, &byte| sum.rotate_right(1).wrapping_add(byte))
}

/// How many long entries belong to a slot. Going back from it, they are numbered 1, 2, 3 up to the one marked as the last; if
/// that is not met within 20, or anything before it is otherwise, none belong.
pub fn belonging_to(root: &[u8], index: usize) -> usize {
    let sum = checksum(&slot(root, index).name());
    for number in 1..=MOST.min(index) {
        let entry = slot(root, index - number);
        let order = number as u8;
        if !is_long_entry(entry, sum) {
            return 0;
        }
        match entry.0[0] {
            first if first == order | LAST => return number,
            first if first == order => {}
            _ => return 0,
        }
    }
    0
}

/// The whole attribute byte counts; type and first cluster do not.
fn is_long_entry(entry: Slot, sum: u8) -> bool {
    entry.attributes() == LONG_NAME && entry.0[13] == sum
}
