//! `lfat log` gives the text of the proved program loglist, on many tables.

use crate::json::check;
use crate::support::cli::Folder;
use crate::support::random::Random;
use crate::support::{c::top, card_with_route, ALL, PANEL, ROUTE};
use lfat::listing::{json, listing};
use std::fs::File;
use testkit::dates::{stamp_of_words, stamp_record};
use testkit::AT;

struct Loglist(Folder);

impl Loglist {
    fn text(&self, table: &[u8]) -> Vec<u8> {
        self.0.write("table", table);
        let input = File::open(self.0.path().join("table")).expect("the table");
        let program = top().join("target/bin/loglist");
        self.0.run(program, "", input.into()).bytes().to_vec()
    }

    fn same(&self, table: &[u8]) {
        let own = listing(table);
        let other = self.text(table);
        assert!(
            own.as_bytes() == other,
            "{}\n{own}",
            String::from_utf8_lossy(&other)
        );
    }
}

#[test]
fn as_loglist_on_many_tables() {
    let loglist = Loglist(Folder::new("loglist"));
    for length in [0, 1, 511, 512, 513, 1_024, 65_535, 65_536, 65_537, 66_048] {
        loglist.same(&vec![0; length]);
        loglist.same(&vec![b'A'; length]);
        loglist.same(&vec![0xE5; length]);
    }
    let mut random = Random::new(0x1F83_D9AB_FB41_BD6B);
    for _ in 0..60 {
        let sectors = 1 + random.below(9);
        let mut table = random.bytes(512 * sectors);
        for record in table.chunks_exact_mut(32) {
            match random.below(6) {
                0 => record[..11].copy_from_slice(ROUTE),
                1 => record[..11].copy_from_slice(b"           "),
                2 => record[..11].copy_from_slice(b"A B     C  "),
                3 => record[0] = 0xE5,
                4 => record[0] = 0,
                _ => record[8..11].fill(b' '),
            }
            record[13] = random.below(8) as u8;
        }
        // Often record 0 is a create, with a count or without.
        for sector in table.chunks_exact_mut(512) {
            sector[12] = random.pick(&[0, 1, 2, 200]);
            sector[13] = random.pick(&[1, 1, 3]);
        }
        loglist.same(&table);
    }
}

/// The whole way: an image with all six operations in its log, one of them pending.
#[test]
fn log_of_an_image() {
    let loglist = Loglist(Folder::new("log-image"));
    let mut card = card_with_route(1_300);
    reference::rename(&mut card, ROUTE, PANEL, ALL);
    reference::truncate(&mut card, PANEL, 600, AT, ALL);
    reference::replace(&mut card, PANEL, b"path", AT, ALL);
    reference::delete(&mut card, PANEL, ALL);
    reference::create(&mut card, ROUTE, AT, 1);
    loglist.0.write("card", &card);
    let text = loglist.0.lfat("log card").done().text();
    assert_eq!(text.as_bytes(), loglist.text(&card[65 * 512..73 * 512]));
    let replaced = "\n4 0 replace committed ?ANEL.CUT slot 1 first 10 from 12 size 4\n";
    assert!(text.contains(replaced), "{text}");
    let last = "6 0 create pending ROUTE.CUT slot 0 first 0 from 0 size 0\n\
                6 1 part pending T???????.??? slot 0 first 0 from 0 size 0\n";
    assert!(text.starts_with("log 8 sectors\n0 0 create committed ?OUTE.CUT slot 0"));
    assert!(text.ends_with(last), "{text}");
    // Two lines for each group but the delete's, which has no stamp, and the head.
    assert_eq!(text.lines().count(), 14);

    let raw = loglist.0.lfat("log card --raw").done();
    assert_eq!(raw.bytes(), &card[65 * 512..73 * 512]);
}

/// The time of an operation stands in the record after its own, where that is a stamp.
#[test]
fn stamps_of_a_log() {
    let folder = Folder::new("stamps");
    let record = |first: u8, operation: u8| {
        let mut record = [0; 32];
        record[..11].copy_from_slice(ROUTE);
        (record[0], record[13]) = (first, operation);
        record
    };
    let stamp = stamp_record(AT);
    let marked = |mut record: [u8; 32]| {
        record[0] = 0xE5;
        record
    };
    let changed = |at: usize| {
        let mut record = stamp;
        record[at] ^= 1;
        record
    };
    // Two characters where the stamp of a long create stands now, as before groups had one.
    let mut characters = [0; 32];
    characters[..20].copy_from_slice(b"H\0u\0l\0l\0 \x007\0 \0s\0h\0e\0");
    let mut long = record(b'R', 1);
    long[12] = 1;
    let time = "'2026-06-17T13:45:30'";
    for (main, second, wanted) in [
        (record(b'R', 1), stamp, time),
        (record(b'R', 2), stamp, time),
        (record(b'R', 4), stamp, time),
        (record(b'R', 6), stamp, time),
        (marked(record(b'R', 2)), marked(stamp), time),
        (long, stamp, time),
        (marked(long), marked(stamp), time),
        // Delete, rename and what is no operation have none.
        (record(b'R', 3), stamp, "None"),
        (record(b'R', 5), stamp, "None"),
        (record(b'R', 0), stamp, "None"),
        (record(b'R', 7), stamp, "None"),
        (record(b'R', 5), record(b'P', 0), "None"),
        // From before groups had a stamp, and what is none.
        (record(b'R', 2), [0; 32], "None"),
        (marked(record(b'R', 2)), [0; 32], "None"),
        (long, characters, "None"),
        (marked(long), marked(characters), "None"),
        (record(b'R', 2), changed(1), "None"),
        (record(b'R', 2), changed(12), "None"),
        (record(b'R', 2), changed(13), "None"),
        (record(b'R', 2), changed(18), "None"),
        (record(b'R', 2), changed(31), "None"),
        // Any words make a stamp; those that are no date are not shown.
        (record(b'R', 2), stamp_of_words(0, 0), "None"),
        (record(b'R', 2), stamp_of_words(0xC000, 0x5CD1), "None"),
    ] {
        let mut table = vec![0; 1_024];
        table[512..544].copy_from_slice(&main);
        table[544..576].copy_from_slice(&second);
        let output = json(&table);
        let stamps = "[r['stamp'] for r in v['records']]";
        check(
            &folder,
            output.as_bytes(),
            &format!("{stamps}[0] == {wanted} and not any({stamps}[1:])"),
        );
    }
    // A group begins a sector: records farther on have none.
    let mut table = vec![0; 512];
    for (place, bytes) in table
        .chunks_exact_mut(32)
        .zip([record(b'R', 3), record(b'R', 2), stamp])
    {
        place.copy_from_slice(&bytes);
    }
    check(
        &folder,
        json(&table).as_bytes(),
        "[r['stamp'] for r in v['records']] == [None] * 3",
    );
}
