//! Block devices. Needs root and losetup: `cargo test -p lfat-disk -- --ignored`.

use crate::files::Temporary;
use crate::format::{formatted, K};
use crate::support::cards::{points, NEW, PANEL, ROUTE};
use lfat_disk::{Access, DiskCard, Error, Form};
use reference::CardSpec;
use std::path::{Path, PathBuf};
use std::process::Command;
use testkit::AT;

/// A loop device over a file; gone when the test ends.
struct Loop(PathBuf);

impl Loop {
    fn new(file: &Path, block: usize) -> Loop {
        let mut command = Command::new("losetup");
        command.args(["--show", "-f", "-b", &block.to_string()]);
        let output = command.arg(file).output().expect("losetup is there");
        let path = String::from_utf8_lossy(&output.stdout).trim().to_string();
        assert!(
            output.status.success() && !path.is_empty(),
            "losetup needs root"
        );
        Loop(PathBuf::from(path))
    }
}

impl Drop for Loop {
    fn drop(&mut self) {
        let _ = Command::new("losetup").arg("-d").arg(&self.0).status();
    }
}

/// A card of whole blocks of 4,096 bytes, alone or in a partition that does not begin at one.
fn card() -> Vec<u8> {
    let mut card = CardSpec {
        total_sectors: 4_152,
        ..CardSpec::K
    }
    .build();
    reference::create(&mut card, ROUTE, AT, u32::MAX);
    reference::append(&mut card, ROUTE, &points(1_300), AT, u32::MAX);
    card
}

#[test]
#[ignore = "needs root and losetup"]
fn a_save_on_a_device() {
    for block in [512, 4_096] {
        let mut wanted = card();
        let file = Temporary::new(&wanted);
        let device = Loop::new(&file.0, block);
        let mut open = DiskCard::open(&device.0, Access::Write).expect("opened");
        assert!(matches!(
            DiskCard::open(&device.0, Access::Read),
            Err(Error::InUse)
        ));
        open.recover().expect("granted");
        open.create(NEW, AT).expect("granted");
        open.append(NEW, &points(100_000), AT).expect("granted");
        open.append(ROUTE, &points(777), AT).expect("granted");
        open.rename(NEW, PANEL).expect("granted");
        open.truncate(PANEL, 50_001, AT).expect("granted");
        open.replace(ROUTE, &points(4_321), AT).expect("granted");
        let mut back = vec![0; 60_000];
        assert_eq!(open.read(PANEL, 0, &mut back).expect("read"), 50_001);
        assert!(back[..50_001] == points(100_000)[..50_001]);
        // ROUTE.CUT went from 10 to 12, 209 and 210 to 111 to 119; PANEL.CUT has 13 to 110.
        assert_eq!(open.fits(1_537).expect("clean"), Some(120));
        assert_eq!(open.fits(1 << 32).expect("clean"), None);
        drop(open);
        drop(device);
        reference::create(&mut wanted, NEW, AT, u32::MAX);
        reference::append(&mut wanted, NEW, &points(100_000), AT, u32::MAX);
        reference::append(&mut wanted, ROUTE, &points(777), AT, u32::MAX);
        reference::rename(&mut wanted, NEW, PANEL, u32::MAX);
        reference::truncate(&mut wanted, PANEL, 50_001, AT, u32::MAX);
        reference::replace(&mut wanted, ROUTE, &points(4_321), AT, u32::MAX);
        assert!(file.bytes() == wanted, "{block}");
    }
}

/// In a partition that begins in the middle of a block; nothing beside it is touched.
#[test]
#[ignore = "needs root and losetup"]
fn a_save_in_a_partition_of_a_device() {
    let mut disk = points(6_400 * 512);
    disk[..512].fill(0);
    disk[446 + 4] = 6;
    disk[446 + 8..446 + 12].copy_from_slice(&101_u32.to_le_bytes());
    disk[446 + 12..446 + 16].copy_from_slice(&4_152_u32.to_le_bytes());
    disk[510..512].copy_from_slice(&[0x55, 0xAA]);
    let place = 101 * 512..(101 + 4_152) * 512;
    disk[place.clone()].copy_from_slice(&card());
    let file = Temporary::new(&disk);
    let device = Loop::new(&file.0, 512);
    let mut open = DiskCard::open(&device.0, Access::Write).expect("opened");
    assert_eq!(open.partition().map(|found| found.first), Some(101));
    open.append(ROUTE, &points(5_000), AT).expect("granted");
    open.replace(ROUTE, &points(999), AT).expect("granted");
    drop(open);
    drop(device);
    let card = &mut disk[place];
    reference::append(card, ROUTE, &points(5_000), AT, u32::MAX);
    reference::replace(card, ROUTE, &points(999), AT, u32::MAX);
    assert!(file.bytes() == disk);
}

/// A new card on a device that holds something else; a device that another program has is in use, for this too.
#[test]
#[ignore = "needs root and losetup"]
fn a_new_card_on_a_device() {
    for block in [512, 4_096] {
        let start = points(4_152 * 512);
        let file = Temporary::new(&start);
        let device = Loop::new(&file.0, block);
        let mut open = DiskCard::open(&device.0, Access::Write).expect("opened");
        let second = DiskCard::open(&device.0, Access::Write);
        assert!(matches!(second, Err(Error::InUse)));
        assert_eq!(open.sectors(), 4_152);
        let larger = Form { total: 4_153, ..K };
        assert!(matches!(open.format(larger), Err(Error::Refused(_))));
        assert_eq!(open.format(K).expect("granted"), 74);
        assert_eq!(open.create(NEW, AT).expect("granted"), 3);
        drop(open);
        drop(device);
        let mut wanted = formatted(&start, K);
        reference::create(&mut wanted, NEW, AT, u32::MAX);
        assert!(file.bytes() == wanted, "{block}");
    }
}
