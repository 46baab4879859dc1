//! Dates: the library's stamps against a third calendar and rows by hand, CLOCK in the checking order, and both implementations
//! side by side at the bounds of the seconds.
//! `LFAT_CASES=N` makes N times as many random calls.

use crate::support::twin::Twin;
use lfat_card::calls;
use reference::{Answer, Ground};
use testkit::call::Call;
use testkit::cards::Card;
use testkit::characters::bytes_of_text;
use testkit::dates::{random_seconds, stamp_created, stamp_record, stamp_written, words};
use testkit::fixtures::{BROKEN, FOLDER};
use testkit::random::Random;
use testkit::{cases, Name, ALL, AT, OTHER, PANEL, ROUTE};

const LAST: u32 = 4_039_286_399;
/// The bounds of the seconds, and what lies beside them.
const BOUNDS: [u32; 9] = [0, 1, 2, AT, LAST - 1, LAST, LAST + 1, LAST + 2, u32::MAX];
const LOCKED: &Name = b"LOCKED     ";

/// The words that a create at the seconds puts into its group.
fn recorded(card: &mut [u8], seconds: u32) -> (u16, u16) {
    let answer = calls::create(card, ROUTE, seconds, 1);
    assert_eq!(answer, calls::Answer::Stopped(1), "{seconds}");
    let log = &mut card[65 * 512..66 * 512];
    let word = |at: usize| u16::from_le_bytes([log[at], log[at + 1]]);
    let recorded = (word(32 + 14), word(32 + 16));
    log.fill(0);
    recorded
}

/// Seconds, time and date.
#[test]
fn rows_by_hand() {
    let mut card = reference::card_k();
    for (seconds, time, date) in [
        (0, 0, 0x0021),
        (1, 0, 0x0021),
        (2, 1, 0x0021),
        (86_399, 0xBF7D, 0x0021),
        (86_400, 0, 0x0022),
        // 29 February and 1 March 1980, 31 December 1980 and 1 January 1981.
        (59 * 86_400, 0, 0x005D),
        (60 * 86_400, 0, 0x0061),
        (366 * 86_400 - 1, 0xBF7D, 0x019F),
        (366 * 86_400, 0, 0x0221),
        // 28 and 29 February and 1 March 2000.
        (7_363 * 86_400, 0, 0x285C),
        (7_364 * 86_400, 0, 0x285D),
        (7_365 * 86_400, 0, 0x2861),
        // 17 June 2026, 13:45:31.
        (1_466_171_131, 0x6DAF, 0x5CD1),
        // 28 February and 1 March 2100, 29 February 2104, the last second of 2107.
        (43_889 * 86_400 - 1, 0xBF7D, 0xF05C),
        (43_889 * 86_400, 0, 0xF061),
        (45_349 * 86_400, 0, 0xF85D),
        (LAST, 0xBF7D, 0xFF9F),
    ] {
        assert_eq!(recorded(&mut card, seconds), (time, date), "{seconds}");
    }
}

#[test]
fn every_day() {
    let mut card = reference::card_k();
    for day in 0..46_751 {
        let seconds = 86_400 * day + day * 7_919 % 86_400;
        assert_eq!(recorded(&mut card, seconds), words(seconds), "{seconds}");
    }
}

#[test]
fn every_second_of_a_day() {
    let mut card = reference::card_k();
    for second in 0..86_400 {
        let seconds = 86_400 * 7_364 + second;
        assert_eq!(recorded(&mut card, seconds), words(seconds), "{seconds}");
    }
}

/// The five calls that take seconds, on a name.
fn asking(name: &[u8], characters: &[u8], seconds: u32) -> [Call; 5] {
    let name = name.to_vec();
    [
        Call::Create(name.clone(), seconds),
        Call::CreateLong(name.clone(), characters.to_vec(), seconds),
        Call::Append(name.clone(), vec![7; 5_000], seconds),
        Call::Replace(name.clone(), vec![7; 5_000], seconds),
        Call::Truncate(name, 1, seconds),
    ]
}

/// ROUTE.CUT of 700 bytes, with odd bytes in its slot; a directory, a broken file and a locked one.
fn card() -> Card {
    let mut card = Card::k();
    card.put_slot(0, ROUTE, 0x20, 20, 700);
    card.put_chain(&[20, 21], 0xFFFF);
    for at in 12..26 {
        card.slot_mut(0)[at] = 0x31 + 2 * at as u8;
    }
    card.put_slot(1, FOLDER, 0x11, 30, 0);
    card.put_slot(2, BROKEN, 0x20, 0, 700);
    card.put_slot(3, LOCKED, 0x21, 0, 0);
    card
}

/// What the slot of the call is after it, by a third statement: slot 0 for those that change ROUTE.CUT, a new one else.
fn slot_after(before: &Card, after: &Card, call: &Call, seconds: u32) {
    let mut slot = before.slot(0).to_vec();
    let at = match call {
        Call::Create(name, _) | Call::CreateLong(name, _, _) => {
            slot.fill(0);
            slot[..11].copy_from_slice(name);
            slot[11] = 0x20;
            stamp_created(&mut slot, seconds);
            4 + usize::from(matches!(call, Call::CreateLong(..)))
        }
        _ => {
            slot[26..].copy_from_slice(&after.slot(0)[26..]);
            stamp_written(&mut slot, seconds);
            0
        }
    };
    assert_eq!(after.slot(at), slot, "{call:?}");
    for other in (0..4).filter(|&other| other != at) {
        assert_eq!(after.slot(other), before.slot(other), "{call:?}");
    }
}

/// Each call at each bound, with every limit, and each cut recovered with every limit; what the whole call leaves is as said.
#[test]
fn bounds() {
    let start = card();
    let characters = bytes_of_text("Panel");
    for seconds in BOUNDS {
        let [create, create_long, ..] = asking(PANEL, &characters, seconds);
        let [.., append, replace, truncate] = asking(ROUTE, &characters, seconds);
        for call in [create, create_long, append, replace, truncate] {
            let mut twin = Twin::new(start.clone());
            twin.all_limits(&call, |twin| {
                twin.call(&Call::Recover, 1);
                twin.done(&Call::Recover);
            });
            let answer = twin.call(&call, ALL);
            if seconds > LAST {
                assert_eq!(answer, Answer::Refused(Ground::Clock), "{call:?}");
                assert!(twin.card.bytes == start.bytes);
                continue;
            }
            assert!(matches!(answer, Answer::Done(3..)), "{call:?}");
            slot_after(&start, &twin.card, &call, seconds);
            let mut stamp = stamp_record(seconds);
            stamp[0] = 0xE5;
            assert_eq!(twin.card.log_sector_mut(0)[32..64], stamp, "{call:?}");
        }
    }
}

/// Where no store is made CLOCK is asked too; in range no date is set.
#[test]
fn nothing_to_do() {
    let start = card();
    for seconds in BOUNDS {
        for call in [
            Call::Append(ROUTE.to_vec(), Vec::new(), seconds),
            Call::Truncate(ROUTE.to_vec(), 700, seconds),
        ] {
            let mut twin = Twin::new(start.clone());
            let expected = match seconds > LAST {
                true => Answer::Refused(Ground::Clock),
                false => Answer::Done(0),
            };
            for limit in [0, 1, ALL] {
                assert_eq!(twin.call(&call, limit), expected, "{call:?}");
            }
            assert!(twin.card.bytes == start.bytes);
        }
        let mut twin = Twin::new(start.clone());
        let empty = Call::Replace(LOCKED.to_vec(), Vec::new(), seconds);
        twin.edit(|card| card.slot_mut(3)[11] = 0x20);
        let answer = twin.call(&empty, ALL);
        assert_eq!(answer == Answer::Done(3), seconds <= LAST, "{empty:?}");
    }
}

/// CLOCK comes before every ground of the call.
#[test]
fn before_the_grounds_of_the_call() {
    let mut full = card();
    full.fill();
    full.fill_root(4);
    let mut twin = Twin::new(full);
    for name in [
        &b"lower case "[..],
        b"ROUTE",
        PANEL,
        FOLDER,
        LOCKED,
        BROKEN,
        ROUTE,
    ] {
        for characters in [&b"*"[..], b"", b"a\0"] {
            for seconds in [LAST + 1, u32::MAX] {
                for call in asking(name, characters, seconds) {
                    let answer = twin.call(&call, ALL);
                    assert_eq!(answer, Answer::Refused(Ground::Clock), "{call:?}");
                }
            }
            for call in asking(name, characters, LAST) {
                assert_ne!(twin.call(&call, 0), Answer::Refused(Ground::Clock));
            }
        }
    }
    for call in [
        Call::Truncate(ROUTE.to_vec(), 701, LAST + 1),
        Call::Truncate(ROUTE.to_vec(), u64::MAX, LAST + 1),
    ] {
        assert_eq!(twin.call(&call, ALL), Answer::Refused(Ground::Clock));
    }
}

/// Calls at random seconds on one card, each recovered from a random cut first: both agree, and the slots have the stamps.
#[test]
fn random_moments() {
    let mut random = Random::new(90_000);
    let mut late = 0;
    for _ in 0..cases(60) {
        let mut twin = Twin::new(card());
        for name in [PANEL, OTHER] {
            twin.call(
                &Call::Create(name.to_vec(), random_seconds(&mut random)),
                ALL,
            );
        }
        for _ in 0..12 {
            let seconds = random_seconds(&mut random);
            let name = random.pick(&[ROUTE, PANEL, OTHER]).to_vec();
            let length = random.below(1_500);
            let call = match random.below(3) {
                0 => Call::Append(name, random.bytes(length), seconds),
                1 => Call::Replace(name, random.bytes(length), seconds),
                _ => Call::Truncate(name, length as u64 / 2, seconds),
            };
            let cut = random.below(9) as u32;
            twin.tried(&call, cut, |twin| twin.done(&Call::Recover));
            late += u32::from(twin.call(&call, ALL) == Answer::Refused(Ground::Clock));
        }
    }
    assert!(late > 3, "{late}");
}
