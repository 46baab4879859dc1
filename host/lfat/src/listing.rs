//! The text of a log, line by line the same as that of the proved program `loglist`.

use crate::json;
use lfat_card::{printed, DateTime};
use lfat_disk::layout::{get16, get32, SECTOR};

const MOST_BYTES: usize = 65_536;
const RECORD: usize = 32;
const UNUSED: u8 = 0;
const COMMITTED: u8 = 0xE5;
const CREATE: u8 = 1;
/// Create, update, truncate and replace, whose groups have a stamp.
const DATED: [u8; 4] = [CREATE, 2, 4, 6];

/// A record of the log, with its place.
pub struct Record<'a> {
    sector: usize,
    index: usize,
    bytes: &'a [u8],
    /// The record after it, if the sector has one.
    next: Option<&'a [u8]>,
}

/// The records of a log table that are in use.
pub fn records(table: &[u8]) -> impl Iterator<Item = Record<'_>> {
    let sectors = table.chunks_exact(SECTOR).enumerate();
    let records = sectors.flat_map(|(sector, whole)| {
        let listed = if is_led(whole) { 1 } else { SECTOR / RECORD };
        let records = whole.chunks_exact(RECORD).enumerate().take(listed);
        records.map(move |(index, bytes)| Record {
            sector,
            index,
            bytes,
            next: whole.chunks_exact(RECORD).nth(index + 1),
        })
    });
    records.filter(|record| record.bytes[0] != UNUSED)
}

/// Record 0 creates a file with a long name, whose characters stand after it: only that record tells what is pending.
fn is_led(sector: &[u8]) -> bool {
    sector[0] != UNUSED && sector[12] > 0 && sector[13] == CREATE
}

/// What is printed for a log table.
pub fn listing(table: &[u8]) -> String {
    if table.is_empty() || table.len() > MOST_BYTES || !table.len().is_multiple_of(SECTOR) {
        return "not a log\n".to_string();
    }
    let mut text = format!("log {} sectors\n", table.len() / SECTOR);
    for record in records(table) {
        text += &record.line();
    }
    text
}

impl Record<'_> {
    pub fn is_pending(&self) -> bool {
        self.bytes[0] != COMMITTED
    }

    pub fn operation(&self) -> &'static str {
        let words = [
            "part", "create", "update", "delete", "truncate", "rename", "replace",
        ];
        words.get(usize::from(self.bytes[13])).unwrap_or(&"unknown")
    }

    pub fn name(&self) -> String {
        printed(&self.bytes[..11])
    }

    /// The long entries that a delete or rename takes along, or that a create writes.
    pub fn long_entries(&self) -> u8 {
        self.bytes[12]
    }

    /// The time that the operation gives its file, if it has a proper one: it stands in the record after its own, which has the
    /// first byte of a stamp or of a commit mark, and zeros elsewhere.
    pub fn stamp(&self) -> Option<DateTime> {
        let is_dated = self.index == 0 && DATED.contains(&self.bytes[13]);
        let stamp = self.next.filter(|next| {
            let mut others = next[1..14].iter().chain(&next[18..]);
            is_dated && next[0] != UNUSED && others.all(|&byte| byte == 0)
        })?;
        DateTime::from_fat(get16(stamp, 16) as u16, get16(stamp, 14) as u16)
    }

    fn state(&self) -> &'static str {
        match self.is_pending() {
            true => "pending",
            false => "committed",
        }
    }

    /// First or last cluster, in two words.
    fn first(&self) -> usize {
        get16(self.bytes, 20) << 16 | get16(self.bytes, 26)
    }

    fn line(&self) -> String {
        format!(
            "{} {} {} {} {} slot {} first {} from {} size {}\n",
            self.sector,
            self.index,
            self.operation(),
            self.state(),
            self.name(),
            get16(self.bytes, 18),
            self.first(),
            get32(self.bytes, 22),
            get32(self.bytes, 28)
        )
    }

    fn json(&self) -> String {
        json::object(&[
            ("sector", &self.sector),
            ("record", &self.index),
            ("operation", &json::text(self.operation())),
            ("state", &json::text(self.state())),
            ("name", &json::text(&self.name())),
            ("long_entries", &self.long_entries()),
            ("slot", &get16(self.bytes, 18)),
            ("first", &self.first()),
            ("from", &get32(self.bytes, 22)),
            ("size", &get32(self.bytes, 28)),
            ("stamp", &json::time(self.stamp())),
        ])
    }
}

/// The same as a JSON object.
pub fn json(table: &[u8]) -> String {
    let records = records(table).map(|record| record.json());
    json::object(&[
        ("sectors", &(table.len() / SECTOR)),
        ("records", &json::array(records)),
    ]) + "\n"
}
