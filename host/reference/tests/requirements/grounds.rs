//! The checking order. Each ladder starts from a card and a call with every
//! ground of that call at once and mends them one by one; at each step the call
//! must refuse on the first ground still standing and alter nothing.

use crate::support::pattern;
use reference::*;
use testkit::cards::Card;
use testkit::{Name, AT, OTHER, PANEL, ROUTE};

const FOLDER: &Name = b"FOLDER     ";
const BROKEN: &Name = b"BROKEN     ";
const BAD_NAME: &[u8] = b"lower case ";
/// Seconds past the last of 2107.
const LATE: u32 = 4_039_286_400;
/// A file with the mark that breaks the chain rule, too: LOCKED is asked before CHAIN.
const LOCKED: &Name = b"LOCKED     ";

/// A card with its window length and all faults of grounds 1 to 7.
struct Ladder {
    card: Card,
    length: usize,
}

impl Ladder {
    fn new() -> Self {
        let mut card = Card::k();
        card.put_slot(0, ROUTE, 0x20, 20, 700);
        card.put_chain(&[20, 21], 0xFFFF);
        card.put_slot(1, FOLDER, 0x11, 30, 0);
        card.put_slot(2, BROKEN, 0x20, 0, 700);
        card.put_slot(3, OTHER, 0x20, 0, 0);
        card.put_slot(4, LOCKED, 0x21, 0, 700);
        card.fill();
        card.bytes[511] = 0; // BOOT
        card.set_fat1(100, 0xFFF6); // LOGAREA, UNCLEAN
        card.slot_mut(200)[0] = b'X'; // ROOT
        card.log_sector_mut(0)[0] = b'X'; // RECORD: operation 0
        Ladder { card, length: 511 }
    }

    /// Mends the ground and leaves the later ones standing.
    fn mend(&mut self, ground: Ground) {
        match ground {
            Ground::Short => self.length = 512,
            Ground::Boot => self.card.bytes[511] = 0xAA,
            Ground::Window => self.length = self.card.bytes.len(),
            Ground::Logarea => self.card.set_fat1(100, 0xFFF9),
            Ground::Root => self.card.slot_mut(200)[0] = 0,
            Ground::Record => self.card.log_sector_mut(0)[13] = 3,
            Ground::Unclean => {
                self.card.log_sector_mut(0)[0] = 0xE5;
                self.card.set_fat1(100, 0xFFF7);
            }
            other => panic!("{other} is the call's"),
        }
    }

    /// The call refuses on the ground and alters no byte of the card.
    fn expect(&mut self, operation: &Operation, ground: Ground) {
        let before = self.card.bytes.clone();
        let window = &mut self.card.bytes[..self.length];
        assert_eq!(plan(window, operation), Err(ground), "{operation:?}");
        for limit in [0, 1, u32::MAX] {
            let answer = run(window, operation, limit);
            assert_eq!(answer, Answer::Refused(ground), "{operation:?}");
        }
        assert!(self.card.bytes == before);
    }

    /// Climbs grounds 1 to `last`.
    fn climb(&mut self, operation: &Operation, last: Ground) {
        for ground in Ground::ALL {
            if ground <= last {
                self.expect(operation, ground);
                self.mend(ground);
            }
        }
    }

    fn expect_all(&mut self, steps: &[(Operation, Ground)]) {
        for (operation, ground) in steps {
            self.expect(operation, *ground);
        }
    }
}

#[test]
fn create_ladder() {
    let call = |name, seconds| Operation::Create { name, seconds };
    let mut ladder = Ladder::new();
    ladder.climb(&call(BAD_NAME, LATE), Ground::Unclean);
    ladder.card.fill_root(5);
    ladder.expect_all(&[
        (call(BAD_NAME, LATE), Ground::Clock),
        (call(PANEL, LATE), Ground::Clock),
        (call(BAD_NAME, AT), Ground::Name),
        (call(ROUTE, AT), Ground::Exists),
        (call(LOCKED, AT), Ground::Exists),
        (call(PANEL, AT), Ground::Rootfull),
    ]);
    ladder.card.slot_mut(9)[0] = 0xE5;
    assert!(plan(&ladder.card.bytes, &call(PANEL, AT)).is_ok());
}

/// Append, replace and truncate have the same grounds up to CHAIN.
fn changing_ladder<'a>(call: impl Fn(&'a [u8], u32) -> Operation<'a>) -> Ladder {
    let mut ladder = Ladder::new();
    ladder.climb(&call(BAD_NAME, LATE), Ground::Unclean);
    ladder.expect_all(&[
        (call(BAD_NAME, LATE), Ground::Clock),
        (call(BROKEN, LATE), Ground::Clock),
        (call(ROUTE, LATE), Ground::Clock),
        (call(BAD_NAME, AT), Ground::Name),
        (call(PANEL, AT), Ground::Absent),
        (call(FOLDER, AT), Ground::Directory),
        (call(LOCKED, AT), Ground::Locked),
        (call(BROKEN, AT), Ground::Chain),
    ]);
    ladder
}

/// Append and replace have the same last ground. The file has two clusters; one more byte than `free` clusters hold is too much.
fn saving_ladder<'a>(call: impl Fn(&'a [u8], u32) -> Operation<'a>, free: u16) {
    let mut ladder = changing_ladder(&call);
    ladder.expect(&call(ROUTE, AT), Ground::Nospace);
    for cluster in 100..100 + free {
        ladder.card.set_fats(cluster, 0);
    }
    ladder.expect(&call(ROUTE, AT), Ground::Nospace);
    ladder.card.set_fats(100 + free, 0);
    assert!(plan(&ladder.card.bytes, &call(ROUTE, AT)).is_ok());
}

/// 700 and 5,000 bytes need 12 clusters, of which the file has two.
#[test]
fn append_ladder() {
    let data = &pattern(5_000, 0)[..];
    let call = |name, seconds| Operation::Append {
        name,
        data,
        seconds,
    };
    saving_ladder(call, 9);
}

/// 5,000 bytes need 10 clusters, whatever the file has.
#[test]
fn replace_ladder() {
    let data = &pattern(5_000, 0)[..];
    let call = |name, seconds| Operation::Replace {
        name,
        data,
        seconds,
    };
    saving_ladder(call, 9);
}

#[test]
fn truncate_ladder() {
    let to = |size| {
        move |name, seconds| Operation::Truncate {
            name,
            size,
            seconds,
        }
    };
    let mut ladder = changing_ladder(to(701));
    ladder.expect(&to(701)(ROUTE, AT), Ground::Length);
    assert!(plan(&ladder.card.bytes, &to(699)(ROUTE, AT)).is_ok());
}

#[test]
fn delete_ladder() {
    let call = |name| Operation::Delete { name };
    let mut ladder = Ladder::new();
    ladder.climb(&call(BAD_NAME), Ground::Unclean);
    ladder.expect_all(&[
        (call(BAD_NAME), Ground::Name),
        (call(PANEL), Ground::Absent),
        (call(FOLDER), Ground::Directory),
        (call(LOCKED), Ground::Locked),
        (call(BROKEN), Ground::Chain),
    ]);
    assert!(plan(&ladder.card.bytes, &call(ROUTE)).is_ok());
}

#[test]
fn rename_ladder() {
    let call = |old, new| Operation::Rename { old, new };
    let mut ladder = Ladder::new();
    ladder.climb(&call(BAD_NAME, BAD_NAME), Ground::Unclean);
    ladder.card.fill_root(5);
    ladder.expect_all(&[
        (call(BAD_NAME, ROUTE), Ground::Name),
        (call(PANEL, BAD_NAME), Ground::Name),
        (call(PANEL, ROUTE), Ground::Absent),
        (call(FOLDER, ROUTE), Ground::Directory),
        (call(LOCKED, ROUTE), Ground::Locked),
        (call(LOCKED, LOCKED), Ground::Locked),
        (call(LOCKED, PANEL), Ground::Locked),
        (call(ROUTE, ROUTE), Ground::Exists),
        (call(ROUTE, FOLDER), Ground::Exists),
        (call(ROUTE, LOCKED), Ground::Exists),
        (call(ROUTE, PANEL), Ground::Rootfull),
    ]);
    ladder.card.slot_mut(9)[0] = 0xE5;
    assert!(plan(&ladder.card.bytes, &call(BROKEN, PANEL)).is_ok());
}

#[test]
fn recovery_ladder() {
    let mut ladder = Ladder::new();
    ladder.climb(&Operation::Recover, Ground::Record);
    let stores = plan(&ladder.card.bytes, &Operation::Recover).unwrap();
    assert!(!stores.is_empty(), "the group is still pending");
}

#[test]
fn read_ladder() {
    let mut ladder = Ladder::new();
    let expect = |ladder: &Ladder, name: &[u8], ground| {
        let mut buffer = [0x5A; 64];
        let window = &ladder.card.bytes[..ladder.length];
        for offset in [0, 1, 1 << 32, u64::MAX] {
            let answer = read(window, name, offset, &mut buffer);
            assert_eq!(answer, Answer::Refused(ground));
        }
        let answer = read(window, name, 0, &mut []);
        assert_eq!(answer, Answer::Refused(ground));
        assert_eq!(buffer, [0x5A; 64]);
    };
    for &ground in &Ground::ALL[..7] {
        expect(&ladder, BAD_NAME, ground);
        ladder.mend(ground);
    }
    expect(&ladder, BAD_NAME, Ground::Name);
    expect(&ladder, PANEL, Ground::Absent);
    expect(&ladder, FOLDER, Ground::Directory);
    expect(&ladder, LOCKED, Ground::Chain);
    expect(&ladder, BROKEN, Ground::Chain);
    let answer = read(&ladder.card.bytes, ROUTE, 0, &mut [0; 64]);
    assert_eq!(answer, Answer::Done(64));
}

#[test]
fn list_ladder() {
    let mut ladder = Ladder::new();
    for &ground in &Ground::ALL[..7] {
        let mut buffer = [0x5A; 64];
        let answer = list(&ladder.card.bytes[..ladder.length], &mut buffer);
        assert_eq!(answer, Answer::Refused(ground));
        assert_eq!(buffer, [0x5A; 64]);
        ladder.mend(ground);
    }
    let answer = list(&ladder.card.bytes, &mut []);
    assert_eq!(answer, Answer::Done(5));
}

/// Grounds 1 to 7 and no others; the card is full.
#[test]
fn fits_ladder() {
    let mut ladder = Ladder::new();
    for &ground in &Ground::ALL[..7] {
        for bytes in [0, 1, u64::MAX] {
            let answer = fits(&ladder.card.bytes[..ladder.length], bytes);
            assert_eq!(answer, Answer::Refused(ground), "{bytes}");
        }
        ladder.mend(ground);
    }
    ladder.card.fill_root(5);
    assert_eq!(fits(&ladder.card.bytes, 0), Answer::Done(0));
    assert_eq!(fits(&ladder.card.bytes, 1), Answer::No);
    assert_eq!(fits(&ladder.card.bytes, u64::MAX), Answer::No);
}

#[test]
fn root_slot_after_the_end() {
    for byte in [0xE5, b'A', 0x01, 0xFF] {
        let mut card = Card::k();
        card.put_slot(0, ROUTE, 0x20, 0, 0);
        card.slot_mut(511)[0] = byte;
        let answer = list(&card.bytes, &mut []);
        assert_eq!(answer, Answer::Refused(Ground::Root));
    }
    let mut card = Card::k();
    card.slot_mut(0)[0] = 0xE5;
    card.slot_mut(1)[5] = 7;
    card.slot_mut(1)[11] = 0x20;
    assert_eq!(list(&card.bytes, &mut []), Answer::Done(0));
}

#[test]
fn any_difference_between_the_fats_is_unclean() {
    let mut card = Card::k();
    // The first byte, one of entry 1, a middle one, and the last, which
    // belongs to no cluster.
    for at in [0, 3, 5_000, 16 * 512 - 1] {
        for fat in [1, 17] {
            let place = fat * 512 + at;
            card.bytes[place] ^= 1;
            let answer = list(&card.bytes, &mut []);
            assert_eq!(answer, Answer::Refused(Ground::Unclean), "{at}");
            let answer = fits(&card.bytes, 0);
            assert_eq!(answer, Answer::Refused(Ground::Unclean), "{at}");
            card.bytes[place] ^= 1;
        }
    }
    assert_eq!(list(&card.bytes, &mut []), Answer::Done(0));
}
