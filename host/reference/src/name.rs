//! The name rule: 8 and 3 bytes, each part filled up with trailing spaces.

use crate::answer::Ground;

pub type Name = [u8; 11];

/// The bytes before the extension.
pub const BASE_BYTES: usize = 8;

/// Ground 8, NAME.
pub fn parse(bytes: &[u8]) -> Result<Name, Ground> {
    let name: Name = bytes.try_into().map_err(|_| Ground::Name)?;
    let (base, extension) = name.split_at(BASE_BYTES);
    let accepted = name[0] != b' ' && is_part(base) && is_part(extension);
    accepted.then_some(name).ok_or(Ground::Name)
}

/// The name with which a root slot or a log record begins, accepted or not.
pub fn name_at_start(bytes: &[u8]) -> Name {
    let mut name = [0; 11];
    name.copy_from_slice(&bytes[..11]);
    name
}

/// Name characters first, spaces after them.
fn is_part(part: &[u8]) -> bool {
    without_trailing_spaces(part)
        .iter()
        .all(|&byte| is_name_byte(byte))
}

pub fn without_trailing_spaces(part: &[u8]) -> &[u8] {
    let last = part.iter().rposition(|&byte| byte != b' ');
    &part[..last.map_or(0, |last| last + 1)]
}

fn is_name_byte(byte: u8) -> bool {
    byte.is_ascii_uppercase() || byte.is_ascii_digit() || b"!#$%&'()-@^_`{}~".contains(&byte)
}
