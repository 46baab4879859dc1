//! The loader in C: good cards, cut ones, damaged ones, and what is no card.

use crate::support::c::{build, top};
use crate::support::cli::{Folder, Run};
use crate::support::{card_with_route, mark_read_only, points, set_fats, ALL, PANEL, ROUTE};
use reference::{card_k, CardSpec};
use std::process::Stdio;
use testkit::dates::LAST_SECOND;
use testkit::AT;

struct Loader(Folder);

impl Loader {
    fn new(name: &str) -> Loader {
        let folder = Folder::new(name);
        let source = top().join("examples/loader.c");
        build("gcc", "c99", &source, &folder.path().join("loader")).expect("gcc is there");
        Loader(folder)
    }

    fn run(&self, line: &str) -> Run {
        self.0
            .run(self.0.path().join("loader"), line, Stdio::null())
    }

    /// Runs on a card, whose image it leaves as it is.
    fn run_on(&self, card: &[u8], name: &str) -> Run {
        self.0.write("card", card);
        let run = self.run(&format!("card {name}"));
        assert_eq!(self.0.read("card"), card);
        run
    }

    fn refuses(&self, card: &[u8], name: &str, ground: &str, number: i32) {
        let words = format!("refused: {ground} (ground {number})");
        self.run_on(card, name).failed(number, &words);
    }
}

#[test]
fn good_cards() {
    let loader = Loader::new("loader-good");
    let empty = loader.run_on(&card_k(), "").done();
    assert_eq!(empty.text(), "recovered, 0 stores\n0 entries\n");

    let mut card = card_with_route(1_300);
    reference::create(&mut card, PANEL, 0, ALL);
    let head = "recovered, 0 stores\n2 entries\nROUTE.CUT 1300 2026-06-17 13:45:30\nPANEL.CUT 0 1980-01-01 00:00:00\n";
    assert_eq!(loader.run_on(&card, "").done().text(), head);
    let mut wanted = format!("{head}path ROUTE.CUT, 1300 bytes\n").into_bytes();
    wanted.extend(points(1_300));
    assert_eq!(loader.run_on(&card, "ROUTE.CUT").done().bytes(), wanted);
    let empty = loader.run_on(&card, "PANEL.CUT").done();
    assert_eq!(empty.text(), format!("{head}path PANEL.CUT, 0 bytes\n"));
}

/// Long names in UTF-8: of our own making and of others, with a surrogate pair, half of one, and a control character.
#[test]
fn long_names() {
    let loader = Loader::new("loader-long");
    let mut card = card_with_route(1_300);
    for (name, text) in [
        (b"HULL7S~1CUT", "Hull 7 sheer panel.cut"),
        (b"_       CUT", "\u{1F6F6} σχέδιο 航路.cut"),
        (PANEL, "half"),
    ] {
        let characters = testkit::characters::bytes_of_text(text);
        let done = reference::create_long(&mut card, name, &characters, AT, ALL);
        assert_eq!(done, reference::Answer::Done(3));
    }
    // The first characters of the last one, in slot 7: half of a pair, DEL.
    card[33 * 512 + 7 * 32 + 1..][..4].copy_from_slice(&[0x3D, 0xD8, 0x7F, 0]);
    let text = loader.run_on(&card, "PANEL.CUT").done().text();
    let wanted = "4 entries\nROUTE.CUT 1300 AT\nHULL7S~1.CUT 0 AT \"Hull 7 sheer panel.cut\"\n\
                  _.CUT 0 AT \"\u{1F6F6} σχέδιο 航路.cut\"\nPANEL.CUT 0 AT \"??lf\"\npath PANEL.CUT, 0 bytes\n";
    let wanted = &wanted.replace("AT", "2026-06-17 13:45:30");
    assert!(text.ends_with(wanted), "{text}");
}

/// Dates that are none, as other systems write them.
#[test]
fn no_dates() {
    let loader = Loader::new("loader-dates");
    // Of the write time and date in bytes 22 to 25.
    for (time, date, shown) in [
        (0, 0x0021, "1980-01-01 00:00:00"),
        (0xBF7D, 0xFF9F, "2107-12-31 23:59:58"),
        (0, 0x285D, "2000-02-29 00:00:00"),
        (0, 0, "-"),
        (0, 0x0001, "-"),
        (0, 0x0020, "-"),
        (0, 0x01A1, "-"),
        (0, 0xF05D, "-"),
        (0xC000, 0x0021, "-"),
        (0x0780, 0x0021, "-"),
        (0x001E, 0x0021, "-"),
        (0xFFFF, 0xFFFF, "-"),
    ] {
        let mut card = card_with_route(5);
        let words: [u16; 2] = [time, date];
        let bytes: Vec<u8> = words.into_iter().flat_map(u16::to_le_bytes).collect();
        card[33 * 512 + 22..][..4].copy_from_slice(&bytes);
        let text = loader.run_on(&card, "").done().text();
        let wanted = format!("\nROUTE.CUT 5 {shown}\n");
        assert!(text.ends_with(&wanted), "{date:04x} {time:04x}: {text}");
    }
}

/// A path marked read-only is listed and read as any other.
#[test]
fn read_only_path() {
    let loader = Loader::new("loader-read-only");
    let mut card = card_with_route(1_300);
    let wanted = loader.run_on(&card, "ROUTE.CUT").done().bytes().to_vec();
    mark_read_only(&mut card, 0);
    assert_eq!(loader.run_on(&card, "ROUTE.CUT").done().bytes(), wanted);
    assert!(wanted.ends_with(&points(1_300)));
}

/// M5 and M6: before the log record's store the old size and date, from it on the new ones.
#[test]
fn cut_cards() {
    let loader = Loader::new("loader-cut");
    let mut start = card_k();
    reference::create(&mut start, ROUTE, LAST_SECOND, ALL);
    for limit in 0..=8 {
        let mut card = start.clone();
        reference::append(&mut card, ROUTE, &points(1_300), AT, limit);
        let stores = reference::plan(&card, &reference::Operation::Recover).expect("recoverable");
        let (size, date) = match limit {
            0..5 => (0, "2107-12-31 23:59:58"),
            _ => (1_300, "2026-06-17 13:45:30"),
        };
        let head = format!(
            "recovered, {} stores\n1 entries\nROUTE.CUT {size} {date}\npath ROUTE.CUT, {size} bytes\n",
            stores.len()
        );
        let mut wanted = head.into_bytes();
        wanted.extend(points(size));
        assert_eq!(loader.run_on(&card, "ROUTE.CUT").done().bytes(), wanted);
    }
}

#[test]
fn no_cards() {
    let loader = Loader::new("loader-none");
    loader.refuses(&[], "", "SHORT", 1);
    loader.refuses(&card_k()[..511], "", "SHORT", 1);
    loader.refuses(&[0; 4_096], "", "BOOT", 2);
    loader.refuses(&points(100_000), "ROUTE.CUT", "BOOT", 2);
    loader.refuses(&card_k()[..4_149 * 512], "", "WINDOW", 3);
    loader.run("missing").failed(66, "cannot read missing");
    loader.run("").failed(64, "usage");
    loader.run("a b c").failed(64, "usage");
}

#[test]
fn damaged_cards() {
    let loader = Loader::new("loader-damaged");
    let good = card_with_route(1_300);
    let damaged = |damage: &dyn Fn(&mut [u8])| {
        let mut card = good.clone();
        damage(&mut card);
        card
    };
    let no_log = damaged(&|card| (2..10).for_each(|cluster| set_fats(card, cluster, 0)));
    loader.refuses(&no_log, "", "LOGAREA", 4);
    let root = damaged(&|card| card[33 * 512 + 5 * 32] = b'X');
    loader.refuses(&root, "", "ROOT", 5);
    let record = damaged(&|card| card[67 * 512] = b'R');
    loader.refuses(&record, "ROUTE.CUT", "RECORD", 6);
    let short_chain = damaged(&|card| set_fats(card, 11, 0xFFFF));
    loader.refuses(&short_chain, "ROUTE.CUT", "CHAIN", 13);
    let stale_size = damaged(&|card| card[33 * 512 + 29] += 2);
    loader.refuses(&stale_size, "ROUTE.CUT", "CHAIN", 13);
    let directory = damaged(&|card| card[33 * 512 + 11] = 0x10);
    loader.refuses(&directory, "ROUTE.CUT", "DIRECTORY", 10);
    loader.refuses(&good, "PANEL.CUT", "ABSENT", 9);
    for name in [
        "route.cut",
        "ROUTES.CUTS",
        "TOOLONGNAME",
        ".CUT",
        "ROUTE.",
        "A.B.C",
    ] {
        loader.refuses(&good, name, "NAME", 8);
    }
}

/// Half a path is no path.
#[test]
fn path_longer_than_the_buffer() {
    let loader = Loader::new("loader-long");
    let mut card = CardSpec {
        total_sectors: 65 + 4_090,
        ..CardSpec::K
    }
    .build();
    reference::create(&mut card, ROUTE, AT, ALL);
    reference::append(&mut card, ROUTE, &points(1 << 20), AT, ALL);
    loader.run_on(&card, "ROUTE.CUT").done();
    reference::append(&mut card, ROUTE, b"!", AT, ALL);
    let run = loader
        .run_on(&card, "ROUTE.CUT")
        .failed(65, "longer than the buffer");
    assert!(!run.text().contains("path"));
}
