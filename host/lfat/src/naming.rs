//! Files by the names that users give: short, long, or `slot:N` where no rule allows a name.

use crate::failure::Failure;
use crate::target::{Target, Which};
use lfat_card::{LongName, Name, Refusal};
use lfat_disk::{DiskCard, Entry, Named, Operation};
use std::ffi::OsStr;

/// A file on the card in a user's words.
pub enum Given {
    Slot(usize),
    /// A name, short or long.
    Name(String),
}

impl Given {
    /// A name, or `slot:N`.
    pub fn parse(word: &OsStr) -> Result<Given, Failure> {
        let slot = word.to_str().and_then(|text| text.strip_prefix("slot:"));
        match slot {
            Some(number) => crate::args::number(number, "slot").map(Given::Slot),
            None => text(word).map(Given::Name),
        }
    }

    /// The file on a card that is meant.
    pub fn find(&self, target: &Target, card: &mut DiskCard) -> Result<Which, Failure> {
        match self {
            Given::Slot(slot) => Ok(Which::Slot(*slot)),
            Given::Name(text) => Known::on(target, card)?.find(text),
        }
    }
}

/// A name of a verb that takes no `slot:N`.
pub fn text(word: &OsStr) -> Result<String, Failure> {
    let text = word
        .to_str()
        .filter(|text| !text.is_empty() && !text.starts_with("slot:"));
    text.map(str::to_string).ok_or_else(|| Refusal::Name.into())
}

/// The names on a card.
pub struct Known(Vec<Named>);

/// Which files have a name.
pub enum Found<'a> {
    None,
    One(&'a Entry),
    /// More than one has it as its long name.
    Several(Failure),
}

impl Known {
    /// A card that cannot be listed is refused on the ground on which every call is.
    pub fn on(target: &Target, card: &mut DiskCard) -> Result<Known, Failure> {
        let named = card.list_named();
        named.map(Known).map_err(|error| target.failure(error))
    }

    /// The lowest file with the short name, else the one with the long name.
    pub fn lookup(&self, text: &str) -> Found<'_> {
        if let Some(entry) = Name::parse(text).ok().and_then(|name| self.short(name)) {
            return Found::One(entry);
        }
        let characters: Vec<u16> = text.encode_utf16().collect();
        let has_it = |named: &&Named| named.characters == characters;
        let found: Vec<&Entry> = self.0.iter().filter(has_it).map(|n| &n.entry).collect();
        match found[..] {
            [] => Found::None,
            [entry] => Found::One(entry),
            _ => {
                let names: Vec<String> = found.iter().map(|entry| self.shown(entry)).collect();
                let (count, names, text) = (names.len(), names.join(", "), one_line(text));
                Found::Several(Failure::Several(format!(
                    "{count} files have the long name '{text}': give one of {names}"
                )))
            }
        }
    }

    /// The file that a name means; where there is none, the refusal says what may be meant.
    pub fn find(&self, text: &str) -> Result<Which, Failure> {
        match self.lookup(text) {
            Found::One(entry) => Ok(self.which(entry)),
            Found::Several(failure) => Err(failure),
            Found::None => match (self.alike(text), Name::parse(text)) {
                (Some(other), _) => Err(Failure::Refused(
                    Refusal::Absent,
                    format!("Did you mean {other}?"),
                )),
                (None, Ok(name)) => Ok(Which::Name(name)),
                (None, Err(_)) => Err(Refusal::Absent.into()),
            },
        }
    }

    /// The same for a call that takes no slot.
    pub fn find_name(&self, text: &str) -> Result<Name, Failure> {
        match self.find(text)? {
            Which::Name(name) => Ok(name),
            Which::Slot(slot) => Err(Failure::Refused(
                Refusal::Name,
                format!(
                    "That is the short name of '{}': only get, rm and mv reach it, as slot:{slot}.",
                    one_line(text)
                ),
            )),
        }
    }

    /// How calls reach a file: by its short name, or by its slot where no call finds that name.
    pub fn which(&self, entry: &Entry) -> Which {
        let name = Name::from_bytes(entry.name_bytes()).ok();
        let lowest = name.and_then(|name| self.short(name));
        match (name, lowest) {
            (Some(name), Some(lowest)) if lowest.slot == entry.slot => Which::Name(name),
            _ => Which::Slot(entry.slot),
        }
    }

    /// What to type for a file.
    fn shown(&self, entry: &Entry) -> String {
        match self.which(entry) {
            Which::Name(name) => name.to_string(),
            Which::Slot(slot) => format!("slot:{slot}"),
        }
    }

    /// The lowest file with a short name.
    fn short(&self, name: Name) -> Option<&Entry> {
        let mut entries = self.0.iter().map(|named| &named.entry);
        entries.find(|entry| entry.name_bytes() == name.bytes())
    }

    /// A name on the card that differs from this one in small and capital letters only, short or long, in quotes if long.
    pub fn alike(&self, text: &str) -> Option<String> {
        let folded = text.to_lowercase();
        let is_alike = |name: &str| name.to_lowercase() == folded;
        self.0.iter().find_map(|named| {
            let short = Some(named.entry.name()).filter(|short| is_alike(short));
            let long = named.long_name().filter(|long| is_alike(long));
            long.map(|long| format!("'{}'", one_line(&long))).or(short)
        })
    }

    /// A short name for a new file, which no file has, as a short name or as a long one.
    pub fn short_for(&self, long: &str) -> Result<Name, Failure> {
        let is_taken = |name: Name| self.alike(&name.to_string()).is_some();
        crate::short_name::make(long, is_taken).ok_or_else(|| Refusal::Rootfull.into())
    }
}

/// The short name of a new file, and its long one if the name is no short one. Other systems do not tell small letters from
/// capitals: a name that they would take for one on the card is refused.
pub fn new_file(known: &Known, text: &str) -> Result<(Name, Option<LongName>), Failure> {
    let long = match Name::parse(text) {
        Ok(_) => None,
        Err(_) => Some(long_name(text)?),
    };
    if let Some(other) = known.alike(text) {
        let advice = format!("Other systems take it for {other}: give that, or another name.");
        return Err(Failure::Refused(Refusal::Exists, advice));
    }
    let name = match Name::parse(text) {
        Ok(name) => name,
        Err(_) => known.short_for(text)?,
    };
    Ok((name, long))
}

/// The call that makes a new file, with a long name or without.
pub fn create<'a>(name: &'a [u8], long: Option<&'a LongName>, seconds: u32) -> Operation<'a> {
    match long {
        None => Operation::Create { name, seconds },
        Some(long) => Operation::CreateLong {
            name,
            characters: long.bytes(),
            seconds,
        },
    }
}

/// A new long name, and what is wrong with it if it breaks the rule.
pub fn long_name(text: &str) -> Result<LongName, Failure> {
    LongName::parse(text).map_err(|refusal| {
        let length = text.encode_utf16().count();
        let breaks = |c: &char| LongName::parse(c.encode_utf8(&mut [0; 4])).is_err();
        let advice = match text.chars().find(breaks) {
            _ if length > 208 => format!("This one has {length}."),
            Some(c) if c.is_control() => "This one has a control character.".to_string(),
            Some(c) => format!("This one has a {c}"),
            None => "Give a shorter one.".to_string(),
        };
        Failure::Refused(refusal, advice)
    })
}

/// Text on one line, whatever it holds.
pub fn one_line(text: &str) -> String {
    text.replace(char::is_control, "?")
}
