//! New cards on images, on devices, in partitions; the largest one.

use crate::files::Temporary;
use crate::format::{disks, formatted, K};
use crate::partitions::entry;
use crate::support::cards::NEW;
use crate::support::random::Random;
use lfat_card::Refusal;
use lfat_disk::disk::Device;
use lfat_disk::lists::Planned;
use lfat_disk::memory::Memory;
use lfat_disk::{formatting, Access, DiskCard, Error, Form, Opening, Wait};
use testkit::AT;

/// An image and a device with large blocks; one that another program has is in use.
#[test]
fn on_images_and_blocks() {
    let start = disks()[5].clone();
    let due = formatted(&start, K);
    let file = Temporary::new(&start);
    let other = DiskCard::open(&file.0, Access::Read).expect("opened");
    assert!(matches!(
        DiskCard::open(&file.0, Access::Write),
        Err(Error::InUse)
    ));
    drop(other);
    let mut card = DiskCard::open(&file.0, Access::Write).expect("opened");
    card.format(K).expect("granted");
    drop(card);
    assert!(file.bytes() == due);

    let start = Random::new(7).bytes(4_152 * 512);
    let file = Temporary::new(&start);
    let device = Device::with_block(start.len() as u64, file.file(), 4_096).expect("a device");
    let mut card = DiskCard::on(device, Planned, Access::Write).expect("opened");
    card.format(K).expect("granted");
    drop(card);
    assert!(file.bytes() == formatted(&start, K));
}

/// In a partition nothing else changes, the table neither. A partition that holds no card has to be named.
#[test]
fn in_a_partition() {
    let mut start = Random::new(9).bytes(9_000 * 512);
    start[..512].fill(0);
    entry(&mut start, 0, 0, 0x83, 2_048, 4_150);
    entry(&mut start, 0, 1, 0x0B, 6_300, 4_000);
    let file = Temporary::new(&start);
    let open = |partition| {
        let how = Opening {
            access: Access::Write,
            partition,
            wait: Wait::No,
        };
        DiskCard::open_with(&file.0, &how)
    };
    let words = |error: Error| error.to_string();
    let none = open(None).map(drop).map_err(words);
    let due = "none of its partitions holds a FAT16 card that is covered; it has partitions 1 (type 0x83), 2 (type 0x0B)";
    assert_eq!(none, Err(due.to_string()));
    let mut card = open(Some(2)).expect("opened");
    assert_eq!(card.sectors(), 2_700, "the disk ends before the partition");
    assert!(matches!(
        card.format(K),
        Err(Error::Refused(Refusal::Window))
    ));
    drop(card);
    assert!(file.bytes() == start);

    let mut card = open(Some(1)).expect("opened");
    assert_eq!(card.sectors(), 4_150);
    assert_eq!(card.format(K).expect("granted"), 74);
    drop(card);
    let due = formatted(&start[2_048 * 512..][..4_150 * 512], K);
    let bytes = file.bytes();
    assert!(bytes[..2_048 * 512] == start[..2_048 * 512]);
    assert!(bytes[2_048 * 512..][..due.len()] == due);
    assert!(bytes[2_048 * 512 + due.len()..] == start[2_048 * 512 + due.len()..]);
    let mut card = open(None).expect("a card now");
    assert_eq!(card.partition().map(|found| found.number), Some(1));
    card.create(NEW, AT).expect("granted");
}

/// The largest card takes little memory, and of its image only what is written takes room.
#[test]
fn the_largest() {
    let file = Temporary::new(&[]);
    file.file().set_len(2 << 30).expect("room");
    let mut card = DiskCard::open(&file.0, Access::Write).expect("opened");
    assert_eq!(card.sectors(), 4_194_304);
    let form = Form::for_sectors(Form::MOST_SECTORS).expect("a card");
    assert_eq!(card.format(form).expect("granted"), 2 + 512 + 32 + 64);
    let touched = card.memory().window.touched().expect("known");
    let bytes: usize = touched.iter().map(|part| part.len()).sum();
    assert!(bytes < 400_000, "{bytes}");
    assert_eq!(card.fits(65_523 << 15).expect("clean"), Some(65_525));
    card.create(NEW, AT).expect("granted");
    drop(card);
    let card = DiskCard::open(&file.0, Access::Read).expect("opened");
    assert_eq!(card.list().expect("clean").len(), 1);
    // A larger disk and a larger total need no larger window.
    let format = formatting(Form {
        total: u32::MAX,
        ..form
    });
    let memory = Memory::blank(1 << 42, &format, u32::MAX).expect("memory");
    assert_eq!(memory.window.len(), 4_194_144 * 512);
}
