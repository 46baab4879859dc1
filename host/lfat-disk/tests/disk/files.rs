//! Images and devices: what is read and written is what a row of bytes would hold, whatever the size of a block.

use crate::support::cards::{points, two_files, NEW, ROUTE};
use crate::support::random::Random;
use lfat_disk::disk::{Device, Image};
use lfat_disk::{Access, Disk, DiskCard, Error, Opening, Wait};
use std::fs::{self, File, OpenOptions};
use std::path::PathBuf;
use std::sync::atomic::{AtomicUsize, Ordering};
use testkit::AT;

/// A file that goes when the test ends.
pub struct Temporary(pub PathBuf);

impl Temporary {
    pub fn new(bytes: &[u8]) -> Temporary {
        static COUNT: AtomicUsize = AtomicUsize::new(0);
        let number = COUNT.fetch_add(1, Ordering::Relaxed);
        let name = format!("lfat-disk-{}-{number}", std::process::id());
        let path = std::env::temp_dir().join(name);
        fs::write(&path, bytes).expect("a file for the test");
        Temporary(path)
    }

    pub fn bytes(&self) -> Vec<u8> {
        fs::read(&self.0).expect("the file is there")
    }

    pub fn file(&self) -> File {
        let mut options = OpenOptions::new();
        options
            .read(true)
            .write(true)
            .open(&self.0)
            .expect("the file is there")
    }
}

impl Drop for Temporary {
    fn drop(&mut self) {
        let _ = fs::remove_file(&self.0);
    }
}

/// Random reads and writes, against a row of bytes.
fn check(disk: &mut impl Disk, model: &mut [u8], random: &mut Random) {
    let sectors = model.len() / 512;
    for _ in 0..300 {
        let first = random.below(sectors);
        let count = 1 + random.below((sectors - first).min(40));
        let part = first * 512..(first + count) * 512;
        if random.one_in(2) {
            let bytes = random.bytes(part.len());
            disk.write(first as u64, &bytes).expect("written");
            model[part].copy_from_slice(&bytes);
        } else {
            let mut bytes = vec![0; part.len()];
            disk.read(first as u64, &mut bytes).expect("read");
            assert!(bytes == model[part]);
        }
    }
    disk.flush().expect("flushed");
    let end = sectors as u64;
    assert!(disk.write(end, &[0; 512]).is_err(), "a disk does not grow");
    assert!(disk.write(end - 1, &[0; 1_024]).is_err());
    assert!(disk.read(end, &mut [0; 512]).is_err());
}

#[test]
fn images_and_blocks() {
    let mut random = Random::new(0x510E_527F_ADE6_82D1);
    let start = random.bytes(3_000 * 512);
    for block in [0, 512, 1_024, 4_096] {
        let mut model = start.clone();
        model.truncate(model.len() / 4_096 * 4_096);
        let file = Temporary::new(&model);
        let bytes = model.len() as u64;
        if block == 0 {
            let mut image = Image::new(file.file()).expect("an image");
            check(&mut image, &mut model, &mut random);
        } else {
            let mut device = Device::with_block(bytes, file.file(), block).expect("a device");
            assert_eq!(device.block_sectors(), block as u64 / 512);
            check(&mut device, &mut model, &mut random);
        }
        assert!(file.bytes() == model, "{block}");
    }
    let file = Temporary::new(&[0; 4_096]);
    assert!(Device::with_block(4_096, file.file(), 300).is_err());
}

/// A whole save on an image, byte for byte as the library's on a card in memory, with what comes after the card.
#[test]
fn a_save_on_an_image() {
    let mut card = two_files();
    let past = points(700);
    let file = Temporary::new(&[&card[..], &past].concat());
    let mut open = DiskCard::open(&file.0, Access::Write).expect("opened");
    open.create(NEW, AT).expect("granted");
    open.append(NEW, &points(100_000), AT).expect("granted");
    open.append(ROUTE, &points(777), AT).expect("granted");
    open.append(ROUTE, &points(5), AT).expect("granted");
    let mut back = vec![0; 200_000];
    assert_eq!(open.read(NEW, 0, &mut back).expect("read"), 100_000);
    assert!(back[..100_000] == points(100_000));
    drop(open);
    reference::create(&mut card, NEW, AT, u32::MAX);
    reference::append(&mut card, NEW, &points(100_000), AT, u32::MAX);
    reference::append(&mut card, ROUTE, &points(777), AT, u32::MAX);
    reference::append(&mut card, ROUTE, &points(5), AT, u32::MAX);
    assert!(file.bytes() == [&card[..], &past].concat());
}

/// One writer has an image alone; readers share it; a program may wait.
#[test]
fn two_programs() {
    let file = Temporary::new(&two_files());
    let reader = DiskCard::open(&file.0, Access::Read).expect("opened");
    let second = DiskCard::open(&file.0, Access::Read).expect("readers share");
    assert!(matches!(
        DiskCard::open(&file.0, Access::Write),
        Err(Error::InUse)
    ));
    drop((reader, second));
    let writer = DiskCard::open(&file.0, Access::Write).expect("opened");
    for access in [Access::Read, Access::Write] {
        assert!(matches!(DiskCard::open(&file.0, access), Err(Error::InUse)));
    }
    let path = file.0.clone();
    let told = std::sync::Arc::new(AtomicUsize::new(0));
    let count = told.clone();
    let waiting = std::thread::spawn(move || {
        let how = Opening {
            access: Access::Write,
            partition: None,
            wait: Wait::After(&|| {
                count.fetch_add(1, Ordering::SeqCst);
            }),
        };
        DiskCard::open_with(&path, &how).map(drop)
    });
    while told.load(Ordering::SeqCst) == 0 {
        std::thread::yield_now();
    }
    drop(writer);
    waiting
        .join()
        .expect("no panic")
        .expect("opened in the end");
    assert_eq!(told.load(Ordering::SeqCst), 1);
}

#[test]
fn what_is_no_disk() {
    for path in ["/", "/dev/null", "/no/such/file"] {
        assert!(
            matches!(
                DiskCard::open(path.as_ref(), Access::Read),
                Err(Error::Disk(_))
            ),
            "{path}"
        );
    }
}
