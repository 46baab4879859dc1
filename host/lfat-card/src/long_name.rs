//! Long names: 1 to 208 characters of 16 bits.

use crate::Refusal;
use std::fmt;
use std::str::FromStr;

const MOST: usize = 208;

/// A long name that keeps the rule for long names: 1 to 208 characters of 16 bits, none below 32 and none of `" * / : < > ? \ |`.
/// A character of the text that does not fit 16 bits counts as two, a surrogate pair.
///
/// ```
/// use lfat_card::{LongName, Refusal};
///
/// let name = LongName::parse("Hull 7 sheer panel.cut")?;
/// assert_eq!(name.len(), 22);
/// assert_eq!(LongName::parse("panel 7/8.cut"), Err(Refusal::Longname));
/// # Ok::<(), Refusal>(())
/// ```
#[derive(Clone, Debug, PartialEq, Eq, Hash)]
pub struct LongName(Vec<u8>);

// A long name is never empty.
#[allow(clippy::len_without_is_empty)]
impl LongName {
    /// Reads a name as people write it.
    pub fn parse(text: &str) -> Result<LongName, Refusal> {
        LongName::from_characters(&text.encode_utf16().collect::<Vec<u16>>())
    }

    /// The name with these characters, as [`crate::CardView::long_name`] gives them.
    pub fn from_characters(characters: &[u16]) -> Result<LongName, Refusal> {
        let accepted = (1..=MOST).contains(&characters.len())
            && characters.iter().all(|&character| is_allowed(character));
        let bytes = characters.iter().flat_map(|unit| unit.to_le_bytes());
        accepted
            .then(|| LongName(bytes.collect()))
            .ok_or(Refusal::Longname)
    }

    /// The bytes, two for each character, as a call takes them.
    pub fn bytes(&self) -> &[u8] {
        &self.0
    }

    /// How many characters of 16 bits it has.
    pub fn len(&self) -> usize {
        self.0.len() / 2
    }

    /// The characters.
    pub fn characters(&self) -> Vec<u16> {
        let (pairs, _) = self.0.as_chunks();
        pairs.iter().copied().map(u16::from_le_bytes).collect()
    }
}

impl FromStr for LongName {
    type Err = Refusal;

    fn from_str(text: &str) -> Result<LongName, Refusal> {
        LongName::parse(text)
    }
}

/// U+FFFD stands for half of a surrogate pair.
impl fmt::Display for LongName {
    fn fmt(&self, f: &mut fmt::Formatter<'_>) -> fmt::Result {
        f.write_str(&String::from_utf16_lossy(&self.characters()))
    }
}

fn is_allowed(character: u16) -> bool {
    const FORBIDDEN: &str = "\"*/:<>?\\|";
    character >= 32 && !FORBIDDEN.encode_utf16().any(|other| other == character)
}
