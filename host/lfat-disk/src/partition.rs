//! Partition tables: MBR with its logical partitions, and GPT.

use crate::disk::Disk;
use crate::error::Error;
use crate::layout::{get16, get32, Layout, SECTOR};
use std::io;

/// A partition: where it is on the disk, in sectors, and its type in words.
#[derive(Clone, Debug, PartialEq, Eq)]
pub struct Partition {
    /// Its number, from 1 on.
    pub number: u32,
    /// Its first sector.
    pub first: u64,
    /// How many sectors it has.
    pub sectors: u64,
    /// Its type, in words.
    pub kind: String,
}

const EXTENDED: [u8; 3] = [0x05, 0x0F, 0x85];
const PROTECTIVE: u8 = 0xEE;
/// Longer chains of logical partitions, and longer tables, are not followed.
const MOST_LOGICAL: u32 = 128;
const MOST_ENTRIES: usize = 1_024;

/// The part of the disk that holds the card: the whole disk (`None`) if it begins with an accepted boot sector, else the
/// first partition that does; or the partition that is asked for.
pub fn find(disk: &mut impl Disk, wanted: Option<u32>) -> Result<Option<Partition>, Error> {
    let boot = sector(disk, 0)?;
    if wanted.is_none() && Layout::parse(&boot).is_some() {
        return Ok(None);
    }
    let Some(partitions) = table(disk, &boot).map_err(Error::Disk)? else {
        return match wanted {
            None => Ok(None),
            Some(_) => Err(Error::Partition("it has no partition table".to_string())),
        };
    };
    match wanted {
        Some(number) => {
            let found = partitions
                .iter()
                .find(|partition| partition.number == number);
            found.cloned().map(Some).ok_or_else(|| {
                let what = format!(
                    "there is no partition {number}; it has {}",
                    words(&partitions)
                );
                Error::Partition(what)
            })
        }
        None => {
            for partition in &partitions {
                if Layout::parse(&sector(disk, partition.first)?).is_some() {
                    return Ok(Some(partition.clone()));
                }
            }
            let what = format!(
                "none of its partitions holds a FAT16 card that is covered; it has {}",
                words(&partitions)
            );
            Err(Error::Partition(what))
        }
    }
}

fn words(partitions: &[Partition]) -> String {
    if partitions.is_empty() {
        return "no partition".to_string();
    }
    let words = partitions
        .iter()
        .map(|p| format!("{} ({})", p.number, p.kind));
    format!("partitions {}", words.collect::<Vec<_>>().join(", "))
}

/// A sector's bytes; none where the disk has no such sector.
fn sector(disk: &mut impl Disk, number: u64) -> Result<Vec<u8>, Error> {
    read(disk, number, SECTOR).map_err(Error::Disk)
}

fn read(disk: &mut impl Disk, first: u64, bytes: usize) -> io::Result<Vec<u8>> {
    let end = first
        .saturating_mul(SECTOR as u64)
        .saturating_add(bytes as u64);
    if end > disk.bytes() {
        return Ok(Vec::new());
    }
    let mut buffer = vec![0; bytes];
    disk.read(first, &mut buffer)?;
    Ok(buffer)
}

/// The partitions, by number. `None` if the first sector has no partition table.
pub fn table(disk: &mut impl Disk, boot: &[u8]) -> io::Result<Option<Vec<Partition>>> {
    let Some(entries) = primary(disk, boot) else {
        return Ok(None);
    };
    if entries.iter().any(|entry| entry.1 == PROTECTIVE) {
        return gpt(disk).map(Some);
    }
    let unit = disk.block_sectors();
    let mut partitions = Vec::new();
    for &(number, kind, first, count) in &entries {
        if EXTENDED.contains(&kind) {
            partitions.extend(logical(disk, first)?);
        } else {
            partitions.push(partition(number, kind, first * unit, count * unit));
        }
    }
    partitions.sort_by_key(|partition| partition.number);
    Ok(Some(partitions))
}

fn partition(number: u32, kind: u8, first: u64, sectors: u64) -> Partition {
    Partition {
        number,
        first,
        sectors,
        kind: format!("type 0x{kind:02X}"),
    }
}

/// The entries of an MBR that are in use: number, type, first block and count. `None` if this is no MBR: other boot sectors
/// end in the same two bytes, and have code where the table would be.
fn primary(disk: &impl Disk, boot: &[u8]) -> Option<Vec<(u32, u8, u64, u64)>> {
    if boot.len() < SECTOR || boot[510..512] != [0x55, 0xAA] {
        return None;
    }
    let blocks = disk.bytes() / SECTOR as u64 / disk.block_sectors();
    let mut entries = Vec::new();
    for (number, entry) in (1..).zip(boot[446..510].chunks_exact(16)) {
        let (first, count) = (get32(entry, 8) as u64, get32(entry, 12) as u64);
        if entry[0] & 0x7F != 0 {
            return None;
        }
        if entry[4] == 0 {
            continue;
        }
        if first == 0 || first >= blocks {
            return None;
        }
        entries.push((number, entry[4], first, count));
    }
    (!entries.is_empty()).then_some(entries)
}

/// The logical partitions of an extended one, from 5 on.
fn logical(disk: &mut impl Disk, extended: u64) -> io::Result<Vec<Partition>> {
    let unit = disk.block_sectors();
    let mut partitions = Vec::new();
    let mut at = extended;
    for number in 5..5 + MOST_LOGICAL {
        let table = read(disk, at * unit, SECTOR)?;
        if table.len() < SECTOR || table[510..512] != [0x55, 0xAA] {
            break;
        }
        let (own, next) = (&table[446..462], &table[462..478]);
        let (first, count) = (at + get32(own, 8) as u64, get32(own, 12) as u64);
        if own[4] != 0 {
            partitions.push(partition(number, own[4], first * unit, count * unit));
        }
        let step = get32(next, 8) as u64;
        if next[4] == 0 || step == 0 {
            break;
        }
        at = extended + step;
    }
    Ok(partitions)
}

/// The entries of a GPT that are in use.
fn gpt(disk: &mut impl Disk) -> io::Result<Vec<Partition>> {
    let unit = disk.block_sectors();
    let header = read(disk, unit, SECTOR)?;
    let damaged = || io::Error::new(io::ErrorKind::InvalidData, "its GPT is damaged");
    if header.len() < SECTOR || !header.starts_with(b"EFI PART") {
        return Err(damaged());
    }
    let (count, size) = (get32(&header, 80), get32(&header, 84));
    if !(128..=4_096).contains(&size) || count > MOST_ENTRIES {
        return Err(damaged());
    }
    let start = get64(&header, 72).saturating_mul(unit);
    let entries = read(disk, start, (count * size).next_multiple_of(SECTOR))?;
    if entries.len() < count * size {
        return Err(damaged());
    }
    let mut partitions = Vec::new();
    for (number, entry) in (1..).zip(entries.chunks_exact(size).take(count)) {
        let (first, last) = (get64(entry, 32), get64(entry, 40));
        if entry[..16] == [0; 16] || first == 0 || last < first {
            continue;
        }
        partitions.push(Partition {
            number,
            first: first.saturating_mul(unit),
            sectors: (last - first).saturating_add(1).saturating_mul(unit),
            kind: format!("GPT type {:08X}", get32(entry, 0)),
        });
    }
    Ok(partitions)
}

fn get64(bytes: &[u8], at: usize) -> u64 {
    get16(bytes, at) as u64
        | (get16(bytes, at + 2) as u64) << 16
        | (get32(bytes, at + 4) as u64) << 32
}
