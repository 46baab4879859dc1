//! Partition tables: MBR, logical partitions, GPT; and cards found in them.

use crate::support::cards::{two_files, ROUTE};
use crate::support::lying::Lying;
use lfat_disk::disk::Part;
use lfat_disk::lists::Planned;
use lfat_disk::partition::{find, Partition};
use lfat_disk::{Access, DiskCard, Error};
use testkit::AT;

fn put32(bytes: &mut [u8], at: usize, value: u32) {
    bytes[at..at + 4].copy_from_slice(&value.to_le_bytes());
}

pub fn entry(disk: &mut [u8], table: usize, index: usize, kind: u8, first: u32, count: u32) {
    let at = table * 512 + 446 + index * 16;
    disk[at + 4] = kind;
    put32(disk, at + 8, first);
    put32(disk, at + 12, count);
    disk[table * 512 + 510..table * 512 + 512].copy_from_slice(&[0x55, 0xAA]);
}

/// Partition 1 is no card, 2 is extended with a card as 6, 3 is a card.
fn mbr() -> Vec<u8> {
    let card = two_files();
    let mut disk = vec![0; 12_000 * 512];
    entry(&mut disk, 0, 0, 0x83, 10, 90);
    entry(&mut disk, 0, 1, 0x05, 100, 5_000);
    entry(&mut disk, 0, 2, 0x06, 7_000, 4_150);
    entry(&mut disk, 100, 0, 0x83, 10, 20);
    entry(&mut disk, 100, 1, 0x05, 50, 4_200);
    entry(&mut disk, 150, 0, 0x06, 5, 4_150);
    disk[155 * 512..][..card.len()].copy_from_slice(&card);
    disk[7_000 * 512..][..card.len()].copy_from_slice(&card);
    disk
}

fn gpt() -> Vec<u8> {
    let card = two_files();
    let mut disk = vec![0; 9_000 * 512];
    entry(&mut disk, 0, 0, 0xEE, 1, 8_999);
    disk[512..520].copy_from_slice(b"EFI PART");
    put32(&mut disk, 512 + 72, 2);
    put32(&mut disk, 512 + 80, 128);
    put32(&mut disk, 512 + 84, 128);
    for (number, first, count) in [(1, 40_u32, 60_u32), (3, 2_048, 4_150)] {
        let at = 1_024 + (number - 1) * 128;
        disk[at..at + 16].fill(0x77);
        put32(&mut disk, at + 32, first);
        put32(&mut disk, at + 40, first + count - 1);
    }
    disk[2_048 * 512..][..card.len()].copy_from_slice(&card);
    disk
}

fn found(disk: &[u8], wanted: Option<u32>) -> Result<Option<(u32, u64, u64)>, String> {
    let words = |partition: Partition| (partition.number, partition.first, partition.sectors);
    match find(&mut Lying::new(disk), wanted) {
        Ok(partition) => Ok(partition.map(words)),
        Err(error) => Err(error.to_string()),
    }
}

#[test]
fn found_by_themselves_or_by_number() {
    assert_eq!(found(&two_files(), None), Ok(None));
    assert_eq!(found(&mbr(), None), Ok(Some((3, 7_000, 4_150))));
    assert_eq!(found(&mbr(), Some(6)), Ok(Some((6, 155, 4_150))));
    assert_eq!(found(&mbr(), Some(1)), Ok(Some((1, 10, 90))));
    assert_eq!(found(&gpt(), None), Ok(Some((3, 2_048, 4_150))));
    assert_eq!(found(&gpt(), Some(1)), Ok(Some((1, 40, 60))));
    let mut disk = mbr();
    disk[446 + 2 * 16 + 4] = 0;
    assert_eq!(found(&disk, None), Ok(Some((6, 155, 4_150))));
}

#[test]
fn errors_in_one_line() {
    let words = "there is no partition 4; it has partitions 1 (type 0x83), 3 (type 0x06), 5 (type 0x83), 6 (type 0x06)";
    assert_eq!(found(&mbr(), Some(4)), Err(words.to_string()));
    assert_eq!(
        found(&two_files(), Some(1)),
        Err("it has no partition table".to_string())
    );
    let mut disk = mbr();
    disk.truncate(6_000 * 512);
    assert_eq!(
        found(&disk, None),
        Ok(None),
        "a table that points past the disk is none"
    );
    let mut disk = gpt();
    disk[2_048 * 512 + 16] = 0;
    let words = found(&disk, None).expect_err("no card");
    assert!(words.starts_with(
        "none of its partitions holds a FAT16 card that is covered; it has partitions 1 (GPT"
    ));
    for (at, value) in [(512, 0), (512 + 81, 9), (512 + 84, 1), (512 + 73, 200)] {
        let mut disk = gpt();
        disk[at] = value;
        assert_eq!(
            found(&disk, None),
            Err("its GPT is damaged".to_string()),
            "{at}"
        );
    }
    let mut endless = mbr();
    entry(&mut endless, 150, 1, 0x05, 50, 4_200);
    assert!(
        found(&endless, None).is_ok(),
        "a chain of logical partitions that goes in a circle ends"
    );
    assert_eq!(found(&[], None), Ok(None));
    assert_eq!(found(&[0x55; 700], None), Ok(None));
}

/// A card in a partition: nothing outside it is touched.
#[test]
fn a_save_in_a_partition() {
    let disk = mbr();
    let mut lying = Lying::new(&disk);
    let part = Part::new(&mut lying, 7_000, 4_150);
    let mut card = DiskCard::on(part, Planned, Access::Write).expect("opened");
    card.append(ROUTE, &[9; 2_000], AT).expect("granted");
    drop(card);
    let mut wanted = two_files();
    reference::append(&mut wanted, ROUTE, &[9; 2_000], AT, u32::MAX);
    let kept = lying.kept.to_vec();
    assert!(kept[7_000 * 512..][..wanted.len()] == wanted);
    assert!(kept[..7_000 * 512] == disk[..7_000 * 512]);
    assert!(kept[11_150 * 512..] == disk[11_150 * 512..]);
    // A partition that is said to be shorter than its card is.
    let short = Part::new(&mut lying, 7_000, 4_149);
    let mut card = DiskCard::on(short, Planned, Access::Write).expect("opened");
    assert!(matches!(
        card.recover(),
        Err(Error::Refused(lfat_card::Refusal::Window))
    ));
}
