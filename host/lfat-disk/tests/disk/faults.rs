//! Disks that fail: a write or a flush with an error, a disk that is full, one that is short.

use crate::support::cards::{points, two_files, verbs, PANEL, ROUTE};
use crate::support::cuts::{judge, states, Ships, Tried};
use crate::support::lying::{Fault, Lying};
use crate::support::random::Random;
use lfat_card::Refusal;
use lfat_disk::lists::Planned;
use lfat_disk::{Access, Disk, DiskCard, Error};
use std::io::{self, ErrorKind};
use testkit::AT;

/// Every verb, with an error at every disk operation: the call says so, the handle does nothing more, and what is left is
/// recovered to old or new, whatever of the unflushed writes has arrived.
#[test]
fn an_error_at_every_operation() {
    let card = two_files();
    let mut random = Random::new(0x1F83_D9AB_FB41_BD6B);
    let mut tried = Tried::default();
    for verb in verbs() {
        let allowed = states(&card, &verb).expect("a clean card");
        for error in [ErrorKind::StorageFull, ErrorKind::Other] {
            for at in 0.. {
                let mut disk = Lying::new(&card);
                disk.fault = Some(Fault { at, error });
                let opened = DiskCard::on(&mut disk, Planned, Access::Write);
                let mut open = match opened {
                    Ok(open) => open,
                    Err(found) => {
                        assert!(at == 0 && matches!(found, Error::Disk(_)), "{at}: {found}");
                        continue;
                    }
                };
                let answer = verb.run(&mut open);
                if answer.is_ok() {
                    break;
                }
                assert!(matches!(&answer, Err(Error::Cut(found)) if found.kind() == error));
                assert!(matches!(open.list(), Err(Error::Ended)));
                assert!(matches!(open.fits(0), Err(Error::Ended)));
                assert!(matches!(open.read(ROUTE, 0, &mut []), Err(Error::Ended)));
                assert!(matches!(open.recover(), Err(Error::Ended)));
                drop(open);
                disk.fault = None;
                for left in disk.cuts(4, &mut random) {
                    judge(&Ships, &Lying::on(left), &allowed, &mut tried)
                        .unwrap_or_else(|what| panic!("{verb:?}, {at}: {what}"));
                }
            }
        }
    }
    assert!(tried.old > 50 && tried.new > 50, "{tried:?}");
}

/// A disk that ends before the card does, or before a boot sector.
#[test]
fn short_disks() {
    let card = two_files();
    for (length, refusal) in [
        (0, Refusal::Short),
        (511, Refusal::Short),
        (512, Refusal::Window),
        (70 * 512, Refusal::Window),
        (4_149 * 512, Refusal::Window),
        (4_149 * 512 + 511, Refusal::Window),
    ] {
        let mut disk = Lying::new(&card[..length]);
        let mut open = DiskCard::on(&mut disk, Planned, Access::Write).expect("opened");
        for answer in [open.recover(), open.create(ROUTE, AT), open.delete(ROUTE)] {
            assert!(
                matches!(answer, Err(Error::Refused(found)) if found == refusal),
                "{length}: {answer:?}"
            );
        }
        assert!(matches!(open.list(), Err(Error::Refused(found)) if found == refusal));
        drop(open);
        assert!(disk.kept == card[..length] && disk.back.is_empty());
    }
}

/// A disk that says that it is whole but cannot be read everywhere.
pub struct Unreadable {
    pub disk: Lying,
    pub from: u64,
}

impl Disk for Unreadable {
    fn bytes(&self) -> u64 {
        self.disk.bytes()
    }

    fn read(&mut self, sector: u64, buffer: &mut [u8]) -> io::Result<()> {
        match sector + (buffer.len() / 512) as u64 > self.from {
            true => Err(ErrorKind::Other.into()),
            false => self.disk.read(sector, buffer),
        }
    }

    fn write(&mut self, sector: u64, bytes: &[u8]) -> io::Result<()> {
        self.disk.write(sector, bytes)
    }

    fn flush(&mut self) -> io::Result<()> {
        self.disk.flush()
    }
}

#[test]
fn sectors_that_cannot_be_read() {
    let disk = |from| Unreadable {
        disk: Lying::new(&two_files()),
        from,
    };
    for from in [0, 1, 20, 66] {
        let opened = DiskCard::on(disk(from), Planned, Access::Write);
        assert!(matches!(opened.err(), Some(Error::Disk(_))), "{from}");
    }
    // The file's data begins after the log; a call that needs its last sector changes nothing.
    let mut open = DiskCard::on(disk(73), Planned, Access::Write).expect("opened");
    assert!(matches!(
        open.append(ROUTE, b"more", AT),
        Err(Error::Disk(_))
    ));
    assert!(matches!(
        open.read(ROUTE, 0, &mut [0; 10]),
        Err(Error::Disk(_))
    ));
    assert_eq!(
        open.replace(ROUTE, &[7; 1_024], AT)
            .expect("looks at no data"),
        7
    );
    assert_eq!(open.delete(ROUTE).expect("looks at no data"), 5);
    // Of a file in two pieces the first is read, the second is not: what was read is forgotten, and the next call is right.
    let mut card = two_files();
    reference::append(&mut card, ROUTE, &points(1_300), AT, u32::MAX);
    let disk = Unreadable {
        disk: Lying::new(&card),
        from: 86,
    };
    let mut open = DiskCard::on(disk, Planned, Access::Write).expect("opened");
    assert!(matches!(
        open.read(ROUTE, 0, &mut [0; 2_600]),
        Err(Error::Disk(_))
    ));
    assert_eq!(
        open.read(ROUTE, 0, &mut [0; 1_300]).expect("readable"),
        1_300
    );
    assert_eq!(open.delete(PANEL).expect("granted"), 5);
}
