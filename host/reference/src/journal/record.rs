//! The 32 bytes of a log record, and groups of them.

use crate::bytes::{get16, put16, put32};
use crate::calendar::Stamp;
use crate::name::Name;
use crate::root::{DELETED, UNUSED};
use crate::root_change::ARCHIVE;
use crate::store::{Sector, SECTOR_BYTES};

pub const RECORD_BYTES: usize = 32;

pub const PART: u8 = 0;
pub const CREATE: u8 = 1;
pub const UPDATE: u8 = 2;
pub const DELETE: u8 = 3;
pub const TRUNCATE: u8 = 4;
pub const RENAME: u8 = 5;
pub const REPLACE: u8 = 6;

/// The fields we write. Directory cluster and high words are always 0.
#[derive(Clone, Debug, PartialEq, Eq)]
pub struct Record {
    pub name: Name,
    pub attributes: u8,
    /// The long entries that are marked with the slot, in delete and rename, or
    /// written with it, in create.
    pub long_entries: usize,
    pub operation: u8,
    pub slot: usize,
    pub first_or_last: u16,
    pub dir_cluster: u16,
    pub size: u32,
}

impl Record {
    /// A new file in a slot, with so many long slots before it.
    pub fn create(name: Name, slot: usize, long_entries: usize) -> Record {
        Record {
            name,
            attributes: ARCHIVE,
            long_entries,
            operation: CREATE,
            slot,
            first_or_last: 0,
            dir_cluster: 0,
            size: 0,
        }
    }

    fn encode(&self) -> [u8; RECORD_BYTES] {
        let mut bytes = [0; RECORD_BYTES];
        bytes[..11].copy_from_slice(&self.name);
        bytes[11] = self.attributes;
        bytes[12] = self.long_entries as u8;
        bytes[13] = self.operation;
        put16(&mut bytes, 18, self.slot as u16);
        put32(&mut bytes, 22, u32::from(self.dir_cluster));
        put16(&mut bytes, 26, self.first_or_last);
        put32(&mut bytes, 28, self.size);
        bytes
    }
}

/// First byte of a stamp record.
const STAMPED: u8 = 0x54;

/// The record with a group's stamp: the time at 14, the date at 16, zero elsewhere but for the first byte.
fn stamp_record(stamp: Stamp) -> [u8; RECORD_BYTES] {
    let mut bytes = [0; RECORD_BYTES];
    bytes[0] = STAMPED;
    put16(&mut bytes, 14, stamp.time);
    put16(&mut bytes, 16, stamp.date);
    bytes
}

/// What a stamp record holds, if it is one. Time and date are not judged.
pub fn stamp_in(record: &[u8]) -> Option<Stamp> {
    let stamp = Stamp {
        time: get16(record, 14),
        date: get16(record, 16),
    };
    (record == stamp_record(stamp)).then_some(stamp)
}

/// The records of one operation.
pub struct Group {
    pub records: Vec<Record>,
    /// In a record of its own after the others; delete and rename have none.
    pub stamp: Option<Stamp>,
    /// A new long name, in records of its own after the stamp's.
    pub characters: Vec<u16>,
}

impl Group {
    /// A group without a stamp.
    pub fn of(records: impl Into<Vec<Record>>) -> Group {
        Group {
            records: records.into(),
            stamp: None,
            characters: Vec::new(),
        }
    }

    /// A record and its stamp.
    pub fn stamped(record: Record, stamp: Stamp) -> Group {
        Group {
            stamp: Some(stamp),
            ..Group::of([record])
        }
    }

    /// How many records there are, those of stamp and characters too.
    pub fn count(&self) -> usize {
        let stamps = usize::from(self.stamp.is_some());
        self.records.len() + stamps + character_records(self.characters.len())
    }

    /// A log sector with the group at its start and zeros after it.
    pub fn sector(&self) -> Sector {
        let mut bytes = Vec::with_capacity(SECTOR_BYTES);
        for record in &self.records {
            bytes.extend(record.encode());
        }
        if let Some(stamp) = self.stamp {
            bytes.extend(stamp_record(stamp));
        }
        for character in &self.characters {
            bytes.extend(character.to_le_bytes());
        }
        let mut sector = [0; SECTOR_BYTES];
        sector[..bytes.len()].copy_from_slice(&bytes);
        sector
    }
}

/// How many records so many characters take, 16 in each.
pub fn character_records(characters: usize) -> usize {
    characters.div_ceil(RECORD_BYTES / 2)
}

/// Record 0 of the sector is a create with long slots, pending or committed:
/// only that record tells what is pending, and only it is listed.
pub fn is_led(sector: &[u8]) -> bool {
    sector[0] != UNUSED && sector[12] > 0 && sector[13] == CREATE
}

/// The group's sector with its first `records` records marked committed.
pub fn commit(mut sector: Sector, records: usize) -> Sector {
    for record in sector.chunks_exact_mut(RECORD_BYTES).take(records) {
        record[0] = DELETED;
    }
    sector
}
