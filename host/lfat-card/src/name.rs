//! Names of 8 and 3 bytes.

use crate::Refusal;
use std::fmt;
use std::str::FromStr;

const STEM_BYTES: usize = 8;
const EXTENSION_BYTES: usize = 3;
const NAME_BYTES: usize = STEM_BYTES + EXTENSION_BYTES;

/// A name that keeps the name rule: 8 and 3 bytes, each part filled up with trailing spaces.
#[derive(Clone, Copy, Debug, PartialEq, Eq, Hash)]
pub struct Name([u8; NAME_BYTES]);

impl Name {
    /// Reads a name as people write it, such as `ROUTE.CUT`. Small letters are no part of a name.
    pub fn parse(text: &str) -> Result<Name, Refusal> {
        let (stem, extension) = match text.rsplit_once('.') {
            Some((stem, extension)) if !extension.is_empty() => (stem, extension),
            Some(_) => return Err(Refusal::Name),
            None => (text, ""),
        };
        let fits = (1..=STEM_BYTES).contains(&stem.len()) && extension.len() <= EXTENSION_BYTES;
        if !fits || !stem.bytes().chain(extension.bytes()).all(is_name_byte) {
            return Err(Refusal::Name);
        }
        let mut bytes = [b' '; NAME_BYTES];
        bytes[..stem.len()].copy_from_slice(stem.as_bytes());
        bytes[STEM_BYTES..][..extension.len()].copy_from_slice(extension.as_bytes());
        Ok(Name(bytes))
    }

    /// The name with these 11 bytes, as they stand in an entry.
    pub fn from_bytes(bytes: &[u8]) -> Result<Name, Refusal> {
        let bytes: [u8; NAME_BYTES] = bytes.try_into().map_err(|_| Refusal::Name)?;
        let (stem, extension) = (filled(&bytes[..STEM_BYTES]), filled(&bytes[STEM_BYTES..]));
        if stem.is_empty() || !stem.iter().chain(extension).copied().all(is_name_byte) {
            return Err(Refusal::Name);
        }
        Ok(Name(bytes))
    }

    /// The 11 bytes, as a call takes them.
    pub fn bytes(&self) -> &[u8] {
        &self.0
    }
}

impl FromStr for Name {
    type Err = Refusal;

    fn from_str(text: &str) -> Result<Name, Refusal> {
        Name::parse(text)
    }
}

impl fmt::Display for Name {
    fn fmt(&self, f: &mut fmt::Formatter<'_>) -> fmt::Result {
        f.write_str(&printed(&self.0))
    }
}

fn is_name_byte(byte: u8) -> bool {
    byte.is_ascii_uppercase() || byte.is_ascii_digit() || b"!#$%&'()-@^_`{}~".contains(&byte)
}

/// A part without the spaces that fill it up.
fn filled(part: &[u8]) -> &[u8] {
    let last = part.iter().rposition(|&byte| byte != b' ');
    &part[..last.map_or(0, |last| last + 1)]
}

/// Any 8 and 3 bytes as text: trailing spaces dropped, a dot only before a filled extension, `?` for bytes that are no
/// plain character.
pub fn printed(name: &[u8]) -> String {
    let (stem, extension) = name.split_at(name.len().min(STEM_BYTES));
    let (stem, extension) = (printed_part(stem), printed_part(extension));
    if extension.is_empty() {
        stem
    } else {
        format!("{stem}.{extension}")
    }
}

fn printed_part(part: &[u8]) -> String {
    filled(part)
        .iter()
        .map(|&byte| match byte {
            0x21..=0x7E => char::from(byte),
            _ => '?',
        })
        .collect()
}
