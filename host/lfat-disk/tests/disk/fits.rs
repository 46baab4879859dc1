//! Whether so many bytes fit, on disks: as the plain implementation answers on the card's bytes, before and after saves.

use crate::files::Temporary;
use crate::support::cards::{
    full_log, odd_name, points, scattered, two_files, wide, NEW, PANEL, ROUTE,
};
use crate::support::lying::Lying;
use crate::support::random::Random;
use lfat_card::Refusal;
use lfat_disk::disk::Part;
use lfat_disk::lists::Planned;
use lfat_disk::{Access, Disk, DiskCard, Error, Operation};
use reference::Answer;
use testkit::AT;

/// What the plain implementation answers.
fn expected(card: &[u8], bytes: u64) -> Result<Option<u32>, u32> {
    match reference::fits(card, bytes) {
        Answer::Done(cluster) => Ok(Some(cluster)),
        Answer::No => Ok(None),
        Answer::Refused(ground) => Err(ground.number()),
        Answer::Stopped(made) => panic!("stopped after {made}"),
    }
}

fn answered<D: Disk>(card: &DiskCard<D>, bytes: u64) -> Result<Option<u32>, u32> {
    card.fits(bytes).map_err(|error| error.code())
}

/// Numbers up to what the largest of the cards here has room for, and far above.
fn numbers(random: &mut Random) -> Vec<u64> {
    let mut numbers = vec![0, 1, 512, 513, 2_080_768, 2_080_769, 1 << 32, u64::MAX];
    numbers.extend((0..30).map(|_| random.below(3_000_000) as u64));
    numbers.extend((0..30).map(|_| random.below(20_000) as u64));
    numbers
}

/// 4,064 clusters of 512 bytes are free, from 23 on.
#[test]
fn rows() {
    let file = Temporary::new(&two_files());
    for access in [Access::Read, Access::Write] {
        let card = DiskCard::open(&file.0, access).expect("opened");
        for (bytes, fits) in [
            (0, Some(0)),
            (1, Some(23)),
            (1_300, Some(25)),
            (2_080_768, Some(4_086)),
            (2_080_769, None),
            (1 << 32, None),
            (u64::MAX, None),
        ] {
            assert_eq!(card.fits(bytes).expect("clean"), fits, "{bytes}");
        }
    }
    assert!(file.bytes() == two_files());
}

/// A card that is only asked is neither written to nor flushed.
#[test]
fn nothing_is_written() {
    let mut random = Random::new(0x3C6E_F372_FE94_F82B);
    for bytes in [two_files(), full_log(), odd_name(), scattered(), wide()] {
        let mut disk = Lying::new(&bytes);
        let card = DiskCard::on(&mut disk, Planned, Access::Read).expect("opened");
        for number in numbers(&mut random) {
            assert_eq!(
                answered(&card, number),
                expected(&bytes, number),
                "{number}"
            );
        }
        drop(card);
        assert!(disk.events.is_empty());
    }
}

/// The answer follows what is saved and removed, and stays where a save is refused.
#[test]
fn after_every_save() {
    let mut random = Random::new(0xA54F_F53A_5F1D_36F1);
    let data = points(6_000);
    for mut bytes in [two_files(), scattered(), wide()] {
        let mut disk = Lying::new(&bytes);
        let mut card = DiskCard::on(&mut disk, Planned, Access::Write).expect("opened");
        let (mut granted, mut refused) = (0, 0);
        for _ in 0..40 {
            let name = random.pick(&[ROUTE, PANEL, NEW]);
            let data = &data[..random.below(data.len())];
            let call = match random.below(5) {
                0 => Operation::Create { name, seconds: AT },
                1 => Operation::Append {
                    name,
                    data,
                    seconds: AT,
                },
                2 | 3 => Operation::Replace {
                    name,
                    data,
                    seconds: AT,
                },
                _ => Operation::Delete { name },
            };
            let made = card.save(&[call], u32::MAX);
            granted += usize::from(made.is_ok());
            refused += usize::from(made.is_err());
            reference::run(&mut bytes, &call, u32::MAX);
            for number in numbers(&mut random) {
                assert_eq!(
                    answered(&card, number),
                    expected(&bytes, number),
                    "{number}"
                );
            }
        }
        assert!(granted > 10 && refused > 5, "{granted} {refused}");
    }
}

/// A card in a partition has the room of its own sectors, not of the disk's.
#[test]
fn in_a_partition() {
    let bytes = [vec![0; 100 * 512], two_files(), vec![0; 5_000 * 512]].concat();
    let part = Part::new(Lying::new(&bytes), 100, 9_150);
    let card = DiskCard::on(part, Planned, Access::Read).expect("opened");
    assert_eq!(answered(&card, 2_080_768), Ok(Some(4_086)));
    assert_eq!(answered(&card, 2_080_769), Ok(None));
    let short = Part::new(Lying::new(&bytes), 100, 4_149);
    let card = DiskCard::on(short, Planned, Access::Read).expect("opened");
    assert!(matches!(card.fits(0), Err(Error::Refused(Refusal::Window))));
}

/// A refusal is no answer to the question, neither a yes nor a no.
#[test]
fn refused() {
    let mut cut = two_files();
    reference::append(&mut cut, ROUTE, &points(1_300), AT, 6);
    let mut root = two_files();
    root[33 * 512 + 90 * 32] = b'X';
    for (bytes, refusal) in [
        (&cut[..], Refusal::Unclean),
        (&root, Refusal::Root),
        (&root[..5_000], Refusal::Window),
        (&[7; 5_000], Refusal::Boot),
        (&[], Refusal::Short),
    ] {
        let card = DiskCard::on(Lying::new(bytes), Planned, Access::Read).expect("opened");
        for number in [0, 1, u64::MAX] {
            let found = card.fits(number);
            assert!(matches!(found, Err(Error::Refused(found)) if found == refusal));
        }
    }
}
