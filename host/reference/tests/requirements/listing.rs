//! The text of the log listing program.

use crate::support::sector;
use reference::*;
use testkit::{AT, PANEL, ROUTE};

const NOT_A_LOG: &str = "not a log\n";

fn listing(input: &[u8]) -> String {
    String::from_utf8(log_listing(input)).unwrap()
}

/// The listing of a sector whose record 0 is given; without the header.
fn line(record: &[u8]) -> String {
    let mut input = [0; 512];
    input[..record.len()].copy_from_slice(record);
    let text = listing(&input);
    text.strip_prefix("log 1 sectors\n").unwrap().to_string()
}

fn record_named(name: &[u8; 11]) -> Vec<u8> {
    let mut record = name.to_vec();
    record.extend([0; 21]);
    record
}

#[test]
fn m3_first_store() {
    let mut card = card_k();
    assert_eq!(create(&mut card, ROUTE, AT, 1), Answer::Stopped(1));
    let expected = "log 1 sectors\n\
        0 0 create pending ROUTE.CUT slot 0 first 0 from 0 size 0\n\
        0 1 part pending T???????.??? slot 0 first 0 from 0 size 0\n";
    assert_eq!(listing(sector(&card, 65)), expected);
}

#[test]
fn whole_log_of_card_k() {
    let mut card = card_k();
    create(&mut card, ROUTE, AT, u32::MAX);
    append(&mut card, ROUTE, &[1; 1_300], AT, u32::MAX);
    append(&mut card, ROUTE, &[1; 100], AT, u32::MAX);
    truncate(&mut card, ROUTE, 512, AT, u32::MAX);
    rename(&mut card, ROUTE, PANEL, u32::MAX);
    replace(&mut card, PANEL, &[1; 700], AT, u32::MAX);
    delete(&mut card, PANEL, 2);
    let expected = "log 8 sectors\n\
        0 0 create committed ?OUTE.CUT slot 0 first 0 from 0 size 0\n\
        0 1 part committed ????????.??? slot 0 first 0 from 0 size 0\n\
        1 0 update committed ?OUTE.CUT slot 0 first 0 from 10 size 1300\n\
        1 1 part committed ????????.??? slot 0 first 0 from 0 size 0\n\
        2 0 update committed ?OUTE.CUT slot 0 first 12 from 0 size 1400\n\
        2 1 part committed ????????.??? slot 0 first 0 from 0 size 0\n\
        3 0 truncate committed ?OUTE.CUT slot 0 first 10 from 11 size 512\n\
        3 1 part committed ????????.??? slot 0 first 0 from 0 size 0\n\
        4 0 rename committed ?OUTE.CUT slot 0 first 10 from 0 size 512\n\
        4 1 part committed ?ANEL.CUT slot 1 first 10 from 0 size 512\n\
        5 0 replace committed ?ANEL.CUT slot 1 first 10 from 11 size 700\n\
        5 1 part committed ????????.??? slot 0 first 0 from 0 size 0\n\
        6 0 delete pending PANEL.CUT slot 1 first 11 from 0 size 700\n";
    assert_eq!(listing(&card[65 * 512..73 * 512]), expected);
}

/// A long-name count is not listed.
#[test]
fn lines_have_no_long_name_count() {
    let mut record = record_named(PANEL);
    record[13] = 3;
    let without = line(&record);
    record[12] = 20;
    assert_eq!(line(&record), without);
}

#[test]
fn input_lengths() {
    let bytes = vec![0; 65_536 + 512];
    for length in [0, 1, 511, 513, 65_535, 65_537, 65_536 + 512] {
        assert_eq!(listing(&bytes[..length]), NOT_A_LOG, "{length}");
    }
    assert_eq!(listing(&bytes[..512]), "log 1 sectors\n");
    assert_eq!(listing(&bytes[..65_536]), "log 128 sectors\n");
}

#[test]
fn every_place_in_the_log() {
    let mut log = vec![0; 3 * 512];
    log[512 + 15 * 32] = b'A';
    log[2 * 512 + 3 * 32] = 0xE5;
    let expected = "log 3 sectors\n\
        1 15 part pending A???????.??? slot 0 first 0 from 0 size 0\n\
        2 3 part committed ????????.??? slot 0 first 0 from 0 size 0\n";
    assert_eq!(listing(&log), expected);
}

#[test]
fn operation_words() {
    let words = [
        "part", "create", "update", "delete", "truncate", "rename", "replace",
    ];
    for operation in 0..=255u8 {
        let mut record = record_named(ROUTE);
        record[13] = operation;
        let word = words.get(usize::from(operation)).unwrap_or(&"unknown");
        let expected = format!("0 0 {word} pending ROUTE.CUT slot 0 first 0 from 0 size 0\n");
        assert_eq!(line(&record), expected);
    }
}

#[test]
fn names() {
    for (name, printed) in [
        (b"A          ", "A"),
        (b"A       B  ", "A.B"),
        (b"ABCDEFGHIJK", "ABCDEFGH.IJK"),
        (b"A B     C D", "A?B.C?D"),
        (b"  A       D", "??A.??D"),
        (b"        CUT", ".CUT"),
        (b"           ", ""),
        (b"a\x7f!~\x80\xff\x1f\x21\0\0\0", "a?!~???!.???"),
        (b"\xE5OUTE   CUT", "?OUTE.CUT"),
    ] {
        let state = if name[0] == 0xE5 {
            "committed"
        } else {
            "pending"
        };
        let expected = format!("0 0 part {state} {printed} slot 0 first 0 from 0 size 0\n");
        assert_eq!(line(&record_named(name)), expected);
    }
}

#[test]
fn numbers_are_whole() {
    let mut record = record_named(ROUTE);
    record[11..].fill(0xFF);
    let expected = "0 0 unknown pending ROUTE.CUT slot 65535 first 4294967295 \
        from 4294967295 size 4294967295\n";
    assert_eq!(line(&record), expected);
    let fields = record_named(ROUTE)
        .into_iter()
        .take(18)
        .chain([2, 1, 4, 3, 8, 7, 6, 5, 10, 9, 14, 13, 12, 11])
        .collect::<Vec<u8>>();
    let expected = format!(
        "0 0 part pending ROUTE.CUT slot {} first {} from {} size {}\n",
        0x0102, 0x0304_090A, 0x0506_0708, 0x0B0C_0D0E
    );
    assert_eq!(line(&fields), expected);
}
