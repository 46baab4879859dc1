//! Long names, which other systems show in the place of a file's own.
//!
//! Which entries belong to a file is judged by the library, which reads names too. What went along with a file is seen from the slots that were in use
//! before a delete or a rename and are marked after it: their other bytes stay, so the name can still be read.

use crate::card::DiskCard;
use crate::disk::Disk;
use crate::entry::Entry;
use crate::error::Error;
use crate::layout::get16;
use crate::lists::Lists;
use crate::volume::{is_live, Volume};
use std::collections::HashSet;

/// Where the characters of a long entry stand, two bytes each.
const CHARACTERS: [usize; 13] = [1, 3, 5, 7, 9, 14, 16, 18, 20, 22, 24, 28, 30];

/// A long name that went along with its file's slot.
#[derive(Clone, Debug, PartialEq, Eq)]
pub struct RemovedName {
    /// How many entries it had.
    pub entries: usize,
    /// The name; U+FFFD stands for what is no text.
    pub text: String,
}

/// Which slots of the root directory are in use at a moment.
pub struct InUse(Vec<bool>);

impl InUse {
    /// The slots of a card as it is; none if it cannot be read.
    pub fn of(window: &[u8]) -> InUse {
        let slots = Volume::open(window).into_iter();
        InUse(
            slots
                .flat_map(|volume| volume.slots())
                .map(is_live)
                .collect(),
        )
    }

    /// The long name of a file that was removed or renamed since: the slots marked before its own.
    pub fn long_name_gone(&self, window: &[u8]) -> Option<RemovedName> {
        let slots = Volume::open(window)?.slots().zip(&self.0);
        let gone = slots.filter(|(slot, was_live)| **was_live && !is_live(slot));
        let gone: Vec<&[u8]> = gone.map(|(slot, _)| slot).collect();
        let (_, entries) = gone.split_last()?;
        (!entries.is_empty()).then(|| RemovedName {
            entries: entries.len(),
            text: text(entries),
        })
    }
}

/// The name in entries by rising slot: the last one has the first characters, and the first zero ends them.
fn text(entries: &[&[u8]]) -> String {
    let characters = entries
        .iter()
        .rev()
        .flat_map(|entry| CHARACTERS.map(|at| get16(entry, at) as u16));
    let characters: Vec<u16> = characters.take_while(|&character| character != 0).collect();
    String::from_utf16_lossy(&characters)
}

/// The most characters that long entries hold: 20 entries, 13 in each.
const MOST: usize = 260;
/// The attributes of a long entry.
const LONG_NAME: u8 = 0x0F;

/// A file or directory with its long name.
pub struct Named {
    /// Its entry.
    pub entry: Entry,
    /// Its characters of 16 bits; none without a long name.
    pub characters: Vec<u16>,
}

impl Named {
    /// The long name, if there is one; U+FFFD stands for what is no text.
    pub fn long_name(&self) -> Option<String> {
        let text = String::from_utf16_lossy(&self.characters);
        (!text.is_empty()).then_some(text)
    }
}

impl<D: Disk, L: Lists> DiskCard<D, L> {
    /// The files and directories in the root directory, in slot order, with their long names.
    pub fn list_named(&mut self) -> Result<Vec<Named>, Error> {
        let entries = self.list()?;
        let mut names = HashSet::new();
        let mut named = Vec::with_capacity(entries.len());
        for entry in entries {
            // The library finds names that keep the rule, each in its lowest slot.
            let is_found = names.insert(entry.name_bytes().to_vec()) && entry.has_name();
            let characters = self.characters_of(&entry, is_found)?;
            named.push(Named { entry, characters });
        }
        Ok(named)
    }

    /// The characters of a long name, by the short one if the library finds the slot by it.
    fn characters_of(&mut self, entry: &Entry, is_found: bool) -> Result<Vec<u16>, Error> {
        // The library judges long entries. It is not asked where none can be, since it judges the whole card each time.
        let before = entry.slot.checked_sub(1);
        let volume = Volume::open(self.window());
        let before = before.and_then(|slot| volume?.slots().nth(slot));
        if before.is_none_or(|slot| slot[11] != LONG_NAME) {
            return Ok(Vec::new());
        }
        let mut bytes = [0; 2 * MOST];
        let there = match is_found {
            true => self.long_name(entry.name_bytes(), &mut bytes)?,
            false => self.long_name_slot(entry.slot, &mut bytes)?,
        };
        let (pairs, _) = bytes.as_chunks();
        let characters = pairs.iter().copied().map(u16::from_le_bytes);
        Ok(characters.take(there).collect())
    }
}
