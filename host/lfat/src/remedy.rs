//! What to do about a refusal, where that depends on the file: one that is marked read-only, and a name that is taken.

use crate::failure::Failure;
use crate::target::{Target, Which};
use lfat_card::{Name, Refusal};
use lfat_disk::layout::{get16, SECTOR};
use lfat_disk::{DiskCard, Entry};

/// Where a boot sector has the sectors of a track and the number of heads.
const TRACKS: usize = 24;
const HEADS: usize = 26;

/// A card on which a call was refused.
pub struct Remedy<'a> {
    pub target: &'a Target,
    pub card: &'a DiskCard,
}

impl Remedy<'_> {
    /// The failure of a call on a file, with what helps for that file. `new` is a name that it was to have.
    pub fn explain(&self, failure: Failure, which: Which, new: Option<Name>) -> Failure {
        let Failure::Refused(refusal, _) = failure else {
            return failure;
        };
        let new = new.map(Which::Name);
        let own = self.entry(which).filter(Entry::is_read_only);
        let other = new.and_then(|new| self.entry(new)).filter(is_locked);
        let advice = match (refusal, own, other) {
            (Refusal::Locked, Some(entry), _) => {
                let name = self.name(which);
                let clearing = self.clearing(&entry);
                format!("Nothing was written. To change {name}, clear the mark first: {clearing}")
            }
            (Refusal::Exists, _, Some(entry)) => self.taken_by_locked(&entry),
            // Another name is refused to such a file.
            (Refusal::Chain, Some(_), _) => {
                "Its bytes are not known, so it is neither read nor changed; 'fsck.fat -n' says more.".to_string()
            }
            _ => return failure,
        };
        Failure::Refused(refusal, advice)
    }

    /// What a file is called: its name, beside the slot where that was given.
    pub fn name(&self, which: Which) -> String {
        match (which, self.entry(which)) {
            (Which::Name(name), _) => name.to_string(),
            (Which::Slot(slot), Some(entry)) => format!("slot:{slot} ({})", entry.name()),
            (Which::Slot(slot), None) => format!("slot:{slot}"),
        }
    }

    /// What to do where a put, or a new name, meets the name of a file.
    pub fn taken(&self, entry: &Entry, name: &str) -> String {
        if entry.is_directory() {
            format!("{name} is a directory: save under another name.")
        } else if is_locked(entry) {
            self.taken_by_locked(entry)
        } else if entry.size() == 0 {
            format!("{name} is there and empty, as a put that was cut leaves it: fill it with 'lfat put --replace'.")
        } else {
            format!("Save over {name} with 'lfat put --replace', or add to it with 'lfat append'.")
        }
    }

    fn taken_by_locked(&self, entry: &Entry) -> String {
        format!(
            "{} is there and marked read-only. Take another name; or, before it can be changed or removed, clear the mark: {}",
            entry.name(),
            self.clearing(entry)
        )
    }

    /// How a file's read-only mark is cleared, to the end of the line. lfat has no call for it.
    fn clearing(&self, entry: &Entry) -> String {
        let name = entry.name();
        let lowest = self.card.find(entry.name_bytes()).ok().flatten();
        if !entry.has_name() || lowest.is_none_or(|lowest| lowest.slot != entry.slot) {
            return "on Windows in the file's properties or with 'attrib -r', elsewhere with mattrib -r of mtools, by the name that \
                    it has there"
                .to_string();
        }
        let mut image = self.target.to_string();
        if let Some(partition) = self.card.partition() {
            image += &format!("@@{}", partition.first * SECTOR as u64);
        }
        // mtools ask for the tracks and heads of a disk, which a card that was formatted here does not tell.
        let boot = self.card.window();
        let skip = match get16(boot, TRACKS) == 0 || get16(boot, HEADS) == 0 {
            true => "MTOOLS_SKIP_CHECK=1 ",
            false => "",
        };
        format!(
            "on Windows in the file's properties or with 'attrib -r {name}', elsewhere with mtools: {skip}mattrib -i {} -r {}",
            quoted(&image),
            quoted(&format!("::{name}"))
        )
    }

    /// The entry that a name or a slot means.
    pub fn entry(&self, which: Which) -> Option<Entry> {
        let mut entries = self.card.list().unwrap_or_default().into_iter();
        entries.find(|entry| match which {
            Which::Name(name) => entry.name_bytes() == name.bytes(),
            Which::Slot(slot) => entry.slot == slot,
        })
    }
}

/// A file marked read-only: the mark of a directory keeps nobody from anything.
fn is_locked(entry: &Entry) -> bool {
    entry.is_read_only() && !entry.is_directory()
}

/// A word as a shell takes it.
fn quoted(word: &str) -> String {
    let is_plain = |byte: u8| byte.is_ascii_alphanumeric() || b"./_-:@".contains(&byte);
    match word.bytes().all(is_plain) {
        true => word.to_string(),
        false => format!("'{}'", word.replace('\'', "'\\''")),
    }
}
