//! What `rm` and `mv` tell once they are done: the long name that went along.

use crate::failure::Failure;
use crate::json;
use crate::output::print;
use lfat_card::Name;
use lfat_disk::{Entry, RemovedName};

/// A file that was removed, or has another name now.
pub struct Ended {
    /// What the file was called.
    pub shown: String,
    /// What it was before.
    pub entry: Option<Entry>,
    pub new: Option<Name>,
    pub long: Option<RemovedName>,
    /// The stores made.
    pub stores: u32,
}

impl Ended {
    /// Without a long name there is nothing to tell, but for programs.
    pub fn tell(&self, as_json: bool) -> Result<(), Failure> {
        match (as_json, &self.long) {
            (true, _) => print(self.json().as_bytes()),
            (false, Some(long)) => print(self.line(long).as_bytes()),
            (false, None) => Ok(()),
        }
    }

    fn line(&self, long: &RemovedName) -> String {
        let Ended { shown, new, .. } = self;
        let entries = match long.entries {
            1 => "1 entry".to_string(),
            count => format!("{count} entries"),
        };
        // One line, whatever the name holds.
        let text = long.text.replace(char::is_control, "?");
        let long = format!("its long name '{text}' ({entries})");
        match new {
            Some(new) => format!("{shown} is now {new}; {long} is removed\n"),
            None => format!("{shown} is removed, and {long} with it\n"),
        }
    }

    fn json(&self) -> String {
        let entry = self.entry.as_ref();
        let long = self.long.as_ref();
        let new = self.new.map(|new| json::text(&new.to_string()));
        json::object(&[
            ("slot", &json::optional(entry.map(|entry| entry.slot))),
            (
                "name",
                &json::optional(entry.map(|entry| json::text(&entry.name()))),
            ),
            ("new_name", &json::optional(new)),
            (
                "long_name",
                &json::optional(long.map(|long| json::text(&long.text))),
            ),
            ("long_entries", &long.map_or(0, |long| long.entries)),
            ("stores", &self.stores),
        ]) + "\n"
    }
}
