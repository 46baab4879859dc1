//! Cards, the verbs that are tried on them, and what the reference reads there.

use lfat_disk::lists::Lists;
use lfat_disk::{Disk, DiskCard, Error, Operation};
use reference::{card_k, CardSpec};
use std::fmt;
use testkit::cards::Card;
use testkit::AT;

pub const ALL: u32 = u32::MAX;
/// When the files of cards were saved, before anything is tried on them.
pub const EARLIER: u32 = AT - 1_000_001;
pub const ROUTE: &[u8; 11] = b"ROUTE   CUT";
pub const PANEL: &[u8; 11] = b"PANEL   CUT";
pub const NEW: &[u8; 11] = b"NEW     CUT";

/// Bytes that differ from sector to sector.
pub fn points(length: usize) -> Vec<u8> {
    let lines = (0..).flat_map(|at| format!("G1 X{} Y{}\n", at * 7, at * 3 % 100).into_bytes());
    lines.take(length).collect()
}

/// Card K with ROUTE.CUT of 1,300 bytes and PANEL.CUT of 5,000.
pub fn two_files() -> Vec<u8> {
    let mut card = card_k();
    for (name, length) in [(ROUTE, 1_300), (PANEL, 5_000)] {
        reference::create(&mut card, name, EARLIER, ALL);
        reference::append(&mut card, name, &points(length), EARLIER, ALL);
    }
    card
}

/// The same with a log that is full: it is cleared first.
pub fn full_log() -> Vec<u8> {
    let mut card = two_files();
    for sector in 65..73 {
        card[sector * 512] = 0xE5;
    }
    card
}

/// A card in which free clusters are far apart, so that FAT stores are many, and files in pieces.
pub fn scattered() -> Vec<u8> {
    let mut card = two_files();
    for cluster in (30..4_087).filter(|cluster| cluster % 300 != 0) {
        for fat in [1, 17] {
            card[fat * 512 + cluster * 2..][..2].copy_from_slice(&0xFFF7_u16.to_le_bytes());
        }
    }
    card
}

/// Clusters of four sectors, and a log of two clusters.
pub fn wide() -> Vec<u8> {
    let mut card = CardSpec {
        sectors_per_cluster: 4,
        total_sectors: 65 + 4_085 * 4,
        log_clusters: 2,
        ..CardSpec::K
    }
    .build();
    for (name, length) in [(ROUTE, 1_300), (PANEL, 5_000)] {
        reference::create(&mut card, name, EARLIER, ALL);
        reference::append(&mut card, name, &points(length), EARLIER, ALL);
    }
    card
}

/// A file whose name no rule allows, in slot 1.
pub fn odd_name() -> Vec<u8> {
    let mut card = two_files();
    card[33 * 512 + 32..][..2].copy_from_slice(&[0x80, 0x81]);
    card
}

/// The two files moved back and given long names: ROUTE.CUT in slot 17 with 2 entries before it, PANEL.CUT in slot 38 with 20. The
/// slots before them are deleted, those after them unused.
pub fn long_names() -> Vec<u8> {
    let mut card = card_over(&two_files());
    for (slot, from, count) in [(17, 0, 2), (38, 1, 20)] {
        let bytes = card.slot(from).to_vec();
        card.slot_mut(slot).copy_from_slice(&bytes);
        card.put_long_entries(slot, count);
    }
    card.mark_deleted(0..15);
    card.bytes
}

/// A card whose areas lie as those of card K.
pub fn card_over(bytes: &[u8]) -> Card {
    Card {
        spec: CardSpec::K,
        bytes: bytes.to_vec(),
    }
}

/// One command on an open card.
#[derive(Clone)]
pub enum Verb {
    /// Calls that are made together.
    Calls(Vec<Operation<'static>>),
    DeleteSlot(usize),
    RenameSlot(usize, &'static [u8]),
}

impl Verb {
    pub fn run<D: Disk, L: Lists>(&self, card: &mut DiskCard<D, L>) -> Result<u32, Error> {
        match self {
            Verb::Calls(calls) => card.save(calls, ALL),
            Verb::DeleteSlot(slot) => card.delete_slot(*slot, ALL),
            Verb::RenameSlot(slot, new) => card.rename_slot(*slot, new, ALL),
        }
    }
}

impl fmt::Debug for Verb {
    fn fmt(&self, f: &mut fmt::Formatter<'_>) -> fmt::Result {
        let words = |call: &Operation| match call {
            Operation::Create { .. } => "create".to_string(),
            Operation::CreateLong { characters, .. } => {
                format!("create with {} characters", characters.len() / 2)
            }
            Operation::Append { data, .. } => format!("append {} bytes", data.len()),
            Operation::Replace { data, .. } => format!("replace by {} bytes", data.len()),
            Operation::Truncate { size, .. } => format!("truncate to {size}"),
            Operation::Delete { .. } => "delete".to_string(),
            Operation::Rename { .. } => "rename".to_string(),
            Operation::Recover => "recover".to_string(),
            Operation::Format { total, .. } => format!("format {total} sectors"),
        };
        match self {
            Verb::Calls(calls) => {
                let words: Vec<String> = calls.iter().map(words).collect();
                f.write_str(&words.join(", then "))
            }
            Verb::DeleteSlot(slot) => write!(f, "delete slot {slot}"),
            Verb::RenameSlot(slot, _) => write!(f, "rename slot {slot}"),
        }
    }
}

/// So many characters of a long name, as bytes.
pub fn characters(count: usize) -> &'static [u8] {
    let letters = (0..count).map(|at| 0x3B1 + (at % 25) as u16);
    let bytes: Vec<u8> = letters.flat_map(u16::to_le_bytes).collect();
    bytes.leak()
}

/// Every verb, on names of the cards above.
pub fn verbs() -> Vec<Verb> {
    let data = |length: usize| -> &'static [u8] { points(length).leak() };
    let single = [
        Operation::Create {
            name: NEW,
            seconds: AT,
        },
        Operation::CreateLong {
            name: NEW,
            characters: characters(22),
            seconds: AT,
        },
        // Seventeen slots: two root sectors at least.
        Operation::CreateLong {
            name: NEW,
            characters: characters(208),
            seconds: AT,
        },
        Operation::Append {
            name: ROUTE,
            data: data(100),
            seconds: AT,
        },
        Operation::Append {
            name: ROUTE,
            data: data(1_300),
            seconds: AT,
        },
        Operation::Append {
            name: PANEL,
            data: data(9_000),
            seconds: AT,
        },
        Operation::Replace {
            name: ROUTE,
            data: data(700),
            seconds: AT,
        },
        Operation::Replace {
            name: PANEL,
            data: data(9_000),
            seconds: AT,
        },
        Operation::Replace {
            name: PANEL,
            data: &[],
            seconds: AT,
        },
        Operation::Truncate {
            name: PANEL,
            size: 600,
            seconds: AT,
        },
        Operation::Truncate {
            name: ROUTE,
            size: 1_299,
            seconds: AT,
        },
        Operation::Truncate {
            name: PANEL,
            size: 0,
            seconds: AT,
        },
        Operation::Delete { name: PANEL },
        Operation::Rename {
            old: ROUTE,
            new: NEW,
        },
    ];
    let mut verbs: Vec<Verb> = single
        .into_iter()
        .map(|one| Verb::Calls(vec![one]))
        .collect();
    verbs.push(Verb::Calls(vec![
        Operation::Create {
            name: NEW,
            seconds: AT,
        },
        Operation::Append {
            name: NEW,
            data: data(1_700),
            seconds: AT,
        },
    ]));
    verbs.push(Verb::DeleteSlot(1));
    verbs.push(Verb::RenameSlot(1, NEW));
    verbs
}

/// What is on a card by the reference's reading: every entry's slot, name, attributes with dates, and bytes. An error in words if
/// the card is not clean, or a file cannot be read.
pub type State = Vec<(usize, Vec<u8>, Vec<u8>, Vec<u8>)>;

pub fn state(card: &[u8]) -> Result<State, String> {
    if let reference::Answer::Refused(ground) = reference::list(card, &mut []) {
        return Err(format!("refused: {ground}"));
    }
    if !reference::is_sound(card) {
        return Err("a chain is broken or shared".to_string());
    }
    let root = reference::Geometry::parse(&card[..512]).expect("an accepted boot sector");
    let start = root.root_start() as usize * 512;
    let slots = card[start..start + root.root_entries as usize * 32].chunks_exact(32);
    let entries = slots
        .enumerate()
        .filter(|(_, slot)| ![0, 0xE5].contains(&slot[0]));
    Ok(entries
        .map(|(index, slot)| {
            let bytes = match slot[11] & 0x08 {
                0 => reference::file_bytes(card, index),
                // A label or a long entry has no bytes but these.
                _ => slot.to_vec(),
            };
            (index, slot[..11].to_vec(), slot[11..26].to_vec(), bytes)
        })
        .collect())
}
