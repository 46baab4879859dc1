//! The numbers that cross the C interface: code * 2^32 + count, where a refusal has the count 0. The safe functions do not show
//! that count.

use lfat_card::raw::*;
use reference::card_k;
use std::ptr::null;
use testkit::dates::LAST_SECOND;
use testkit::random::Random;
use testkit::{ALL, AT, PANEL, ROUTE};

/// What all calls but format answer, one after the other.
fn answers(card: &mut [u8], name: &[u8], limit: u32) -> [u64; 12] {
    answers_at(card, name, AT, limit)
}

/// The same at a number of seconds.
fn answers_at(card: &mut [u8], name: &[u8], seconds: u32, limit: u32) -> [u64; 12] {
    let (at, length) = (card.as_mut_ptr(), card.len());
    let (name, name_length) = (name.as_ptr(), name.len());
    let (data, chars) = ([7u8; 600], *b"a\0b\0");
    let mut buffer = [0u8; 600];
    let out = buffer.as_mut_ptr();
    // Each slice is valid for its length, and none overlaps another.
    unsafe {
        [
            lfat_create(at, length, name, name_length, seconds, limit),
            lfat_append(
                at,
                length,
                name,
                name_length,
                data.as_ptr(),
                600,
                seconds,
                limit,
            ),
            lfat_replace(
                at,
                length,
                name,
                name_length,
                data.as_ptr(),
                600,
                seconds,
                limit,
            ),
            lfat_truncate(at, length, name, name_length, 5, seconds, limit),
            lfat_delete(at, length, name, name_length, limit),
            lfat_rename(at, length, name, name_length, PANEL.as_ptr(), 11, limit),
            lfat_recover(at, length, limit),
            lfat_read(at, length, name, name_length, 0, out, 600),
            lfat_list(at, length, out, 600),
            lfat_fits(at, length, 600),
            lfat_long_name(at, length, name, name_length, out, 600),
            lfat_create_long(
                at,
                length,
                name,
                name_length,
                chars.as_ptr(),
                4,
                seconds,
                limit,
            ),
        ]
    }
}

const NO: u64 = 254 << 32;
const STOPPED: u64 = 255 << 32;

fn ground(number: u64) -> u64 {
    number << 32
}

#[test]
fn refusals_have_no_count() {
    for limit in [0, 3, ALL] {
        let mut card = card_k();
        assert_eq!(answers(&mut card[..511], ROUTE, limit), [ground(1); 12]);
        assert_eq!(answers(&mut card[..512], ROUTE, limit), [ground(3); 12]);
        card[511] = 0;
        assert_eq!(answers(&mut card, ROUTE, limit), [ground(2); 12]);
        card[511] = 0xAA;
        card[512 + 2 * 100..][..2].copy_from_slice(&[0xF6, 0xFF]);
        assert_eq!(answers(&mut card, ROUTE, limit), [ground(4); 12]);
        let mut card = card_k();
        card[33 * 512 + 32] = 0xE5;
        assert_eq!(answers(&mut card, ROUTE, limit), [ground(5); 12]);
        let mut card = card_k();
        card[65 * 512] = b'A';
        assert_eq!(answers(&mut card, ROUTE, limit), [ground(6); 12]);
    }
    let (unclean, name) = (ground(7), ground(8));
    let mut card = card_k();
    card[16 * 512] = 1;
    let mut expected = [unclean; 12];
    expected[6] = STOPPED;
    assert_eq!(answers(&mut card, ROUTE, 0), expected);
    let expected = [
        name, name, name, name, name, name, 0, name, 0, 11, name, name,
    ];
    assert_eq!(answers(&mut card_k(), b"ROUTE.CUT", 0), expected);
}

/// ROUTE.CUT marked read-only: five calls are refused, with the number 16 and no count; both creates find the name taken.
#[test]
fn locked_file() {
    for limit in [0, 3, ALL] {
        let mut card = card_with(ROUTE);
        card[33 * 512 + 11] |= 0x01;
        let (exists, locked) = (ground(11), ground(16));
        let expected = [
            exists, locked, locked, locked, locked, locked, 0, 0, 1, 11, 0, exists,
        ];
        assert_eq!(answers(&mut card, ROUTE, limit), expected);
    }
}

/// CLOCK has the number 18 and no count. The calls that take no seconds go on.
#[test]
fn seconds_past_the_calendar() {
    let clock = ground(18);
    for seconds in [LAST_SECOND + 1, u32::MAX] {
        for limit in [0, 3, ALL] {
            for name in [&b"ROUTE.CUT"[..], PANEL] {
                let refused = match name.len() {
                    11 => ground(9),
                    _ => ground(8),
                };
                let mut card = card_with(ROUTE);
                let before = card.clone();
                let expected = [
                    clock, clock, clock, clock, refused, refused, 0, refused, 1, 11, refused, clock,
                ];
                assert_eq!(answers_at(&mut card, name, seconds, limit), expected);
                assert!(card == before);
            }
        }
    }
    let mut card = card_k();
    assert_eq!(answers_at(&mut card, ROUTE, LAST_SECOND, ALL)[0], 3);
}

#[test]
fn counts_of_finished_and_stopped_calls() {
    let mut card = card_k();
    // Create, append, replace, truncate, delete and rename, one after the other; the last finds nothing.
    let finished = [3, 7, 7, 5, 5, ground(9), 0, ground(9), 0, 11, ground(9), 3];
    assert_eq!(answers(&mut card, ROUTE, ALL), finished);
    let mut card = card_k();
    let absent = ground(9);
    let stopped = [
        STOPPED, absent, absent, absent, absent, absent, 0, absent, 0, 11, absent, STOPPED,
    ];
    assert_eq!(answers(&mut card, ROUTE, 0), stopped);
}

/// What fits answers.
fn fits(card: &[u8], bytes: u64) -> u64 {
    // The slice is valid for its length.
    unsafe { lfat_fits(card.as_ptr(), card.len(), bytes) }
}

/// A yes is the cluster alone; a no has the number 254 and no count.
#[test]
fn yes_and_no() {
    let mut card = card_k();
    let room = 4_077 * 512;
    for (bytes, answer) in [(0, 0), (1, 10), (1_300, 12), (room, 4_086), (room + 1, NO)] {
        assert_eq!(fits(&card, bytes), answer, "{bytes}");
    }
    for bytes in [1 << 25, 1 << 32, 1 << 41, u64::MAX - 511, u64::MAX] {
        assert_eq!(fits(&card, bytes), NO, "{bytes}");
    }
    for fat in [1, 17] {
        card[fat * 512 + 20..][..4_077 * 2].fill(0xFF);
    }
    for (bytes, answer) in [(0, 0), (1, NO), (u64::MAX, NO)] {
        assert_eq!(fits(&card, bytes), answer, "{bytes}");
    }
}

/// LONGNAME has the number 17 and no count; a name read back has its characters as the count, also if none is copied.
#[test]
fn long_names() {
    let mut card = card_k();
    let (at, length, name) = (card.as_mut_ptr(), card.len(), ROUTE.as_ptr());
    let chars = *b"a\0b\0c\0";
    let create =
        |count| unsafe { lfat_create_long(at, length, name, 11, chars.as_ptr(), count, AT, ALL) };
    for count in [0, 1, 3, 5] {
        assert_eq!(create(count), ground(17));
    }
    assert_eq!(
        unsafe { lfat_create_long(at, length, name, 11, null(), 0, AT, ALL) },
        ground(17)
    );
    assert_eq!(create(6), 3);
    assert_eq!(create(6), ground(11));
    let mut buffer = [9; 8];
    let out = buffer.as_mut_ptr();
    for (room, bytes) in [(0, 0), (1, 0), (2, 2), (5, 4), (8, 6)] {
        assert_eq!(
            unsafe { lfat_long_name(at, length, name, 11, out, room) },
            3
        );
        let copy = unsafe { *out.cast::<[u8; 8]>() };
        assert_eq!(copy[..bytes], chars[..bytes]);
        assert_eq!(copy[bytes..], [9; 8][bytes..]);
    }
    // The name lies in the root directory of the card that is read, and the characters in the name.
    let slot = unsafe { at.add(33 * 512 + 32) };
    assert_eq!(unsafe { lfat_long_name(at, length, slot, 11, out, 8) }, 3);
    let start = card_k();
    as_on_copies(lfat_create_long, &start, &ROUTE[..], &ROUTE[..10], 3);
}

/// Format of a window: the total, sectors per cluster, log clusters and the limit.
fn format(window: &mut [u8], numbers: [u32; 4]) -> u64 {
    let [total, per_cluster, log_clusters, limit] = numbers;
    let (at, length) = (window.as_mut_ptr(), window.len());
    // The slice is valid for its length.
    unsafe { lfat_format(at, length, total, per_cluster, log_clusters, limit) }
}

/// SIZE has the number 19 and no count, and is asked before WINDOW; the stores are the count of the others.
#[test]
fn formats() {
    let (window, size) = (ground(3), ground(19));
    let mut card = Random::new(8).bytes(4_150 * 512);
    let before = card.clone();
    for limit in [0, 3, ALL] {
        for length in [0, 1, 100, 511, 512, 4_150 * 512 - 1] {
            let part = &mut card[..length];
            assert_eq!(format(part, [4_150, 1, 8, limit]), window);
            assert_eq!(format(part, [4_149, 1, 8, limit]), size);
            assert_eq!(format(part, [4_150, 0, 8, limit]), size);
            assert_eq!(format(part, [4_150, 257, 8, limit]), size);
            assert_eq!(format(part, [4_150, 1, 0, limit]), size);
            assert_eq!(format(part, [4_150, 1, 129, limit]), size);
        }
        assert_eq!(format(&mut card, [4_151, 1, 8, limit]), window);
        assert_eq!(format(&mut card, [66_070, 1, 8, limit]), size);
        let none = std::ptr::null_mut();
        assert_eq!(unsafe { lfat_format(none, 0, 4_150, 1, 8, limit) }, window);
        assert_eq!(unsafe { lfat_format(none, 0, 4_150, 1, 0, limit) }, size);
    }
    assert_eq!(format(&mut card, [4_150, 1, 8, 0]), STOPPED);
    assert!(card == before);
    for limit in [1, 2, 73] {
        let stopped = STOPPED + u64::from(limit);
        assert_eq!(format(&mut card, [4_150, 1, 8, limit]), stopped);
        assert_eq!(answers(&mut card, ROUTE, ALL), [ground(2); 12]);
    }
    for limit in [74, 75, ALL] {
        assert_eq!(format(&mut card, [4_150, 1, 8, limit]), 74);
    }
    assert_eq!(fits(&card, 1), 10);
    // 2 + 2 x 16 + 32 and the log's sectors.
    assert_eq!(format(&mut card, [4_150, 1, 128, ALL]), 194);
    assert_eq!(fits(&card, 1), 130);
}

/// Windows of bytes that are no card, also none at all.
#[test]
fn what_is_no_card() {
    let mut random = Random::new(7);
    let garbage = random.bytes(9_000);
    for bytes in [0, 1, u64::MAX] {
        assert_eq!(unsafe { lfat_fits(null(), 0, bytes) }, ground(1));
        for length in [0, 1, 511] {
            assert_eq!(fits(&garbage[..length], bytes), ground(1));
        }
        for length in [512, 513, 9_000] {
            assert_eq!(fits(&garbage[..length], bytes), ground(2));
        }
    }
}

/// A call on the card, a name and another slice, which sets dates.
type OnTwo =
    unsafe extern "C" fn(*mut u8, usize, *const u8, usize, *const u8, usize, u32, u32) -> u64;

/// Makes a call on slices that overlap and on copies of them: both make so many stores and leave the same card.
fn as_on_copies(call: OnTwo, start: &[u8], first: &[u8], second: &[u8], stores: u64) -> Vec<u8> {
    let run = |first: &[u8], second: &[u8]| {
        let mut card = start.to_vec();
        let (at, length) = (card.as_mut_ptr(), card.len());
        let (one, other) = (first.as_ptr(), second.as_ptr());
        let answer = unsafe { call(at, length, one, first.len(), other, second.len(), AT, ALL) };
        assert_eq!(answer, stores);
        card
    };
    let card = run(first, second);
    let (first, second) = (first.to_vec(), second.to_vec());
    assert!(card == run(&first, &second) && card != start);
    card
}

/// A rename as a call of this kind; it takes no seconds.
unsafe extern "C" fn renamed(
    card: *mut u8,
    card_len: usize,
    old: *const u8,
    old_len: usize,
    new: *const u8,
    new_len: usize,
    _seconds: u32,
    limit: u32,
) -> u64 {
    lfat_rename(card, card_len, old, old_len, new, new_len, limit)
}

/// Two parts that overlap but are only read give what copies of them give.
#[test]
fn parts_that_are_only_read_may_overlap() {
    let text = b"PATHS_1CUTNEW_PART1CUT";
    let (old, new) = (&text[..11], &text[6..17]);
    let start = card_with(old);
    as_on_copies(renamed, &start, old, new, 3);
    // The name is the data's beginning.
    for call in [lfat_append as OnTwo, lfat_replace] {
        let card = as_on_copies(call, &start, old, text, 6);
        // The name lies in the root directory of the card that is read.
        let slot = card[33 * 512..].as_ptr();
        let mut buffer = [0; 30];
        let out = buffer.as_mut_ptr();
        let read = unsafe { lfat_read(card.as_ptr(), card.len(), slot, 11, 0, out, 30) };
        assert_eq!(read, text.len() as u64);
        assert_eq!(buffer[..text.len()], text[..]);
    }
}

/// Card K with an empty file.
fn card_with(name: &[u8]) -> Vec<u8> {
    let mut card = card_k();
    let created = unsafe {
        lfat_create(
            card.as_mut_ptr(),
            card.len(),
            name.as_ptr(),
            name.len(),
            AT,
            ALL,
        )
    };
    assert_eq!(created, 3);
    card
}
