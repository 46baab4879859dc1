//! The text of the program that lists a log.

use crate::bytes::{get16, get32};
use crate::journal::record::{
    is_led, CREATE, DELETE, PART, RECORD_BYTES, RENAME, REPLACE, TRUNCATE, UPDATE,
};
use crate::name::{without_trailing_spaces, BASE_BYTES};
use crate::root::{DELETED, UNUSED};
use crate::store::SECTOR_BYTES;

const MOST_BYTES: usize = 65_536;

/// What the program prints for the given standard input.
pub fn log_listing(input: &[u8]) -> Vec<u8> {
    if !is_log(input) {
        return b"not a log\n".to_vec();
    }
    let mut text = format!("log {} sectors\n", input.len() / SECTOR_BYTES);
    for (sector, bytes) in input.chunks_exact(SECTOR_BYTES).enumerate() {
        let listed = if is_led(bytes) { 1 } else { usize::MAX };
        for (index, record) in bytes.chunks_exact(RECORD_BYTES).enumerate().take(listed) {
            if record[0] != UNUSED {
                text.push_str(&line(sector, index, record));
            }
        }
    }
    text.into_bytes()
}

fn is_log(input: &[u8]) -> bool {
    !input.is_empty() && input.len() <= MOST_BYTES && input.len().is_multiple_of(SECTOR_BYTES)
}

fn line(sector: usize, index: usize, record: &[u8]) -> String {
    let operation = operation_word(record[13]);
    let state = if record[0] == DELETED {
        "committed"
    } else {
        "pending"
    };
    let name = printed_name(&record[..11]);
    let slot = get16(record, 18);
    let first = u32::from(get16(record, 20)) << 16 | u32::from(get16(record, 26));
    let from = get32(record, 22);
    let size = get32(record, 28);
    format!(
        "{sector} {index} {operation} {state} {name} \
         slot {slot} first {first} from {from} size {size}\n"
    )
}

fn operation_word(operation: u8) -> &'static str {
    match operation {
        PART => "part",
        CREATE => "create",
        UPDATE => "update",
        DELETE => "delete",
        TRUNCATE => "truncate",
        RENAME => "rename",
        REPLACE => "replace",
        _ => "unknown",
    }
}

/// Trailing spaces dropped, a dot only before a filled extension.
fn printed_name(name: &[u8]) -> String {
    let (base, extension) = name.split_at(BASE_BYTES);
    let base = printed_part(base);
    let extension = printed_part(extension);
    if extension.is_empty() {
        base
    } else {
        format!("{base}.{extension}")
    }
}

fn printed_part(part: &[u8]) -> String {
    without_trailing_spaces(part)
        .iter()
        .map(|&byte| match byte {
            0x21..=0x7E => char::from(byte),
            _ => '?',
        })
        .collect()
}
