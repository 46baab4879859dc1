//! What a disk holds before it is formatted: whether anybody would miss it.

use lfat_card::{calls, Answer, Refusal};
use lfat_disk::disk::Disk;
use lfat_disk::layout::{bytes, get16, Layout, SECTOR};
use lfat_disk::memory::Memory;
use lfat_disk::partition;
use lfat_disk::volume::{is_entry, Volume};
use std::io;

/// The bytes that are looked at: more than a format stores, and as many as other systems have their signatures in.
const FRONT: u64 = 1 << 20;

const BAD: usize = 0xFFF7;
const RESERVED: usize = 0xFFF6;

/// Where a slot has its attributes, and which of them a directory has.
const ATTRIBUTES: usize = 11;
const DIRECTORY: u8 = 0x10;

/// Where other file systems have their names, and what they are called.
const OTHERS: [(usize, &[u8], &str); 7] = [
    (3, b"EXFAT   ", "exFAT"),
    (3, b"NTFS    ", "NTFS"),
    (54, b"FAT12   ", "FAT12"),
    (82, b"FAT32   ", "FAT32"),
    (0, b"XFSB", "XFS"),
    (1_080, &[0x53, 0xEF], "ext2, ext3 or ext4"),
    (65_600, b"_BHRfS_M", "Btrfs"),
];

/// The first bytes of a disk, whole sectors.
pub fn front(disk: &mut impl Disk) -> io::Result<Vec<u8>> {
    let sectors = disk.bytes().min(FRONT) as usize / SECTOR;
    let mut front = vec![0; sectors * SECTOR];
    disk.read(0, &mut front)?;
    Ok(front)
}

/// What a format would lose, in words that follow the disk's name; `None` for what is empty, and for what a format that was cut left.
pub fn lost(disk: &mut impl Disk, name: &str) -> io::Result<Option<String>> {
    let front = front(disk)?;
    if Layout::parse(&front).is_some() {
        return on_card(disk);
    }
    if is_zero(&front) || is_cut(&front) {
        return Ok(None);
    }
    // A table that cannot be read is one all the same.
    let boot = &front[..front.len().min(SECTOR)];
    let table = partition::table(disk, boot).unwrap_or(Some(Vec::new()));
    let has = |(at, text, _): &&(usize, &[u8], &str)| {
        front.get(*at..).is_some_and(|from| from.starts_with(text))
    };
    Ok(Some(match (table, OTHERS.iter().find(has)) {
        (Some(partitions), _) => {
            let numbers = partitions
                .iter()
                .map(|found| format!("{name}:{}", found.number));
            let numbers = numbers.collect::<Vec<_>>().join(", ");
            match numbers.is_empty() {
                true => "has a partition table".to_string(),
                false => format!("has a partition table ({numbers})"),
            }
        }
        (None, Some((.., other))) => format!("holds another file system ({other})"),
        (None, None) => "holds something that is no FAT16 card".to_string(),
    }))
}

fn is_zero(bytes: &[u8]) -> bool {
    bytes.iter().all(|&byte| byte == 0)
}

/// What a format leaves that was cut after its first two stores: no boot sector, and a FAT that begins with the log and no file's clusters.
fn is_cut(front: &[u8]) -> bool {
    let (Some(boot), Some(fat)) = (front.get(..SECTOR), front.get(SECTOR..2 * SECTOR)) else {
        return false;
    };
    let entries: Vec<usize> = (0..SECTOR).step_by(2).map(|at| get16(fat, at)).collect();
    let log = entries[2..]
        .iter()
        .take_while(|&&entry| entry == RESERVED)
        .count();
    is_zero(boot)
        && entries[..2] == [0xFFF8, 0xFFFF]
        && log > 0
        && entries[2 + log..].iter().all(|&entry| entry == 0)
}

/// What is on a FAT16 card, whether the library takes it or not: other systems list its files all the same.
fn on_card(disk: &mut impl Disk) -> io::Result<Option<String>> {
    let mut memory = Memory::load(disk)?;
    let Some(volume) = Volume::open(&memory.window) else {
        return Ok(Some("holds the beginning of a FAT16 card".to_string()));
    };
    let entries = || volume.slots().filter(|slot| is_entry(slot));
    let directories = entries()
        .filter(|slot| slot[ATTRIBUTES] & DIRECTORY != 0)
        .count();
    let files = entries().count() - directories;
    let fat = memory.window[bytes(&volume.layout.fat1())].chunks_exact(2);
    let of_files = fat.skip(2).take(volume.layout.clusters);
    let used = of_files
        .filter(|entry| !matches!(get16(entry, 0), 0 | RESERVED | BAD))
        .count();
    let was_cut = matches!(
        calls::recover(&mut memory.window, 0),
        Answer::Stopped(_) | Answer::Refused(Refusal::Record)
    );
    let listed = [
        counted(files, "file", "files"),
        counted(directories, "directory", "directories"),
    ];
    let listed: Vec<String> = listed.into_iter().flatten().collect();
    Ok(match (listed.is_empty(), was_cut, used) {
        (false, ..) => Some(format!("holds {}", listed.join(" and "))),
        (_, true, _) => Some("holds a save that was cut".to_string()),
        (_, _, 1..) => Some(format!(
            "lists no file, but {used} of its clusters are in use"
        )),
        _ => None,
    })
}

fn counted(count: usize, one: &str, more: &str) -> Option<String> {
    match count {
        0 => None,
        1 => Some(format!("1 {one}")),
        _ => Some(format!("{count} {more}")),
    }
}
