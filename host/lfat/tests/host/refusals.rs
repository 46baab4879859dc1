//! Bad input: the ground by name, a plain sentence, and an image that is left as it was.

use crate::support::cli::Folder;
use crate::support::{card_with_route, points, set_fats, ALL, ROUTE};
use lfat_card::Refusal;
use reference::card_k;
use testkit::AT;

pub fn folder_with(name: &str, card: &[u8]) -> Folder {
    let folder = Folder::new(name);
    folder.write("card", card);
    folder.write("path", &points(1_300));
    folder
}

/// Runs commands that must be refused on one ground, on a card that stays as it is.
pub fn refused(name: &str, card: &[u8], refusal: Refusal, lines: &[&str]) {
    let folder = folder_with(name, card);
    let words = format!("lfat: {}: {}. ", refusal.name(), refusal.meaning());
    for line in lines {
        let run = folder.lfat(line).failed(1, &words);
        let errors = run.errors();
        assert_eq!(errors.lines().count(), 1, "{line}: one line");
        assert!(errors.len() > words.len() + 10, "{line} gives advice");
        assert!(folder.read("card") == card, "{line} changes nothing");
    }
}

pub const ALL_COMMANDS: [&str; 15] = [
    "ls card",
    "get card ROUTE.CUT",
    "fits card 1300",
    "fits card path --json",
    "put card PANEL.CUT path",
    "put --replace card ROUTE.CUT path",
    "append card ROUTE.CUT path",
    "truncate card ROUTE.CUT 5",
    "rm card ROUTE.CUT",
    "mv card ROUTE.CUT PANEL.CUT",
    "recover card",
    "log card",
    "info card",
    "rack card rm ROUTE.CUT",
    "rack card replace ROUTE.CUT path",
];

#[test]
fn no_card() {
    refused("empty", &[], Refusal::Short, &ALL_COMMANDS);
    refused("short", &card_k()[..511], Refusal::Short, &ALL_COMMANDS);
    refused("text", &points(5_000), Refusal::Boot, &ALL_COMMANDS);
    refused(
        "half",
        &card_k()[..4_149 * 512],
        Refusal::Window,
        &ALL_COMMANDS,
    );
    refused("stub", &card_k()[..600], Refusal::Window, &ALL_COMMANDS);
    let mut no_log = card_k();
    set_fats(&mut no_log, 5, 0);
    refused("no-log", &no_log, Refusal::Logarea, &ALL_COMMANDS);
}

#[test]
fn damaged_card() {
    let others: Vec<&str> = ALL_COMMANDS
        .into_iter()
        .filter(|c| *c != "log card")
        .collect();
    let mut root = card_with_route(1_300);
    root[33 * 512 + 40 * 32] = b'X';
    refused("root", &root, Refusal::Root, &others);
    let mut record = card_with_route(1_300);
    record[70 * 512] = b'X';
    refused("record", &record, Refusal::Record, &others);
    // The log can be looked at all the same.
    let folder = folder_with("damaged-log", &record);
    assert!(folder
        .lfat("log card")
        .done()
        .text()
        .contains("5 0 part pending X"));

    let mut chain = card_with_route(1_300);
    set_fats(&mut chain, 11, 0xFFFF);
    let lines = [
        "get card ROUTE.CUT",
        "append card ROUTE.CUT path",
        "put -f card ROUTE.CUT path",
        "rack card replace ROUTE.CUT path",
        "truncate card ROUTE.CUT 5",
        "rm card ROUTE.CUT",
    ];
    refused("chain", &chain, Refusal::Chain, &lines);
}

#[test]
fn unclean_card() {
    let mut card = card_with_route(1_300);
    reference::append(&mut card, ROUTE, &points(1_300), AT, 5);
    let others: Vec<&str> = ALL_COMMANDS
        .into_iter()
        .filter(|c| !["log card", "recover card"].contains(c))
        .collect();
    refused("unclean", &card, Refusal::Unclean, &others);
}

#[test]
fn names_and_lengths() {
    let mut card = card_with_route(1_300);
    reference::create(&mut card, b"SUB        ", AT, ALL);
    card[33 * 512 + 32 + 11] = 0x10;
    let bad = [
        "append card slot:0 path",
        "put card slot:0 path",
        "rack card create slot:0",
        "mv card ROUTE.CUT panel.cut",
        "mv card ROUTE.CUT PANELS.CUTS",
        "mv card ROUTE.CUT A*B",
        "rack card mv ROUTE.CUT panel.cut",
    ];
    refused("name", &card, Refusal::Name, &bad);
    let folder = folder_with("hint", &card);
    folder
        .lfat("get card route.cut")
        .failed(1, "Did you mean ROUTE.CUT?");
    folder
        .lfat("mv card ROUTE.CUT panel.cut")
        .failed(1, "Did you mean PANEL.CUT?");
    let long = [
        "put card A*B path",
        "put -f card a:b path",
        "rack card create a?b",
        "rack card put a|b path",
    ];
    refused("longname", &card, Refusal::Longname, &long);

    let absent = [
        "get card route.cut",
        "append card A*B path",
        "truncate card .CUT 5",
        "rm card ROUTE.",
        "mv card NINECHARS PANEL.CUT",
        "rack card rm NINECHARS",
        "get card PANEL.CUT",
        "append card PANEL.CUT path",
        "truncate card PANEL.CUT 0",
        "rm card PANEL.CUT",
        "mv card PANEL.CUT KEEL",
        "rack card replace PANEL.CUT path",
    ];
    refused("absent", &card, Refusal::Absent, &absent);
    let directory = [
        "get card SUB",
        "append card SUB path",
        "put --replace card SUB path",
        "rm card SUB",
        "mv card SUB A",
    ];
    refused("directory", &card, Refusal::Directory, &directory);
    let exists = [
        "put card ROUTE.CUT path",
        "put card SUB path",
        "put card route.cut path",
        "put --replace card route.cut path",
        "rack card create sub",
        "mv card ROUTE.CUT SUB",
        "mv card ROUTE.CUT ROUTE.CUT",
    ];
    refused("exists", &card, Refusal::Exists, &exists);
    folder
        .lfat("put card ROUTE.CUT path")
        .failed(1, "Save over ROUTE.CUT with 'lfat put --replace'");
    folder
        .lfat("mv card ROUTE.CUT ROUTE.CUT")
        .failed(1, "'lfat put --replace' saves over a file");
    refused(
        "length",
        &card,
        Refusal::Length,
        &["truncate card ROUTE.CUT 1301"],
    );
}

/// A put whose bytes do not fit leaves no empty file behind. Two clusters are free, and the old file's three are not.
#[test]
fn full_card() {
    let mut card = card_with_route(1_300);
    for cluster in 15..4_087 {
        set_fats(&mut card, cluster, 0xFFF7);
    }
    let lines = [
        "put card PANEL.CUT path",
        "put --replace card PANEL.CUT path",
        "put --replace card ROUTE.CUT path",
        "append card ROUTE.CUT path",
        "rack card put A path",
        "rack card replace ROUTE.CUT path",
    ];
    refused("nospace", &card, Refusal::Nospace, &lines);

    let mut card = card_k();
    for slot in 0..512 {
        card[33 * 512 + slot * 32..][..11].copy_from_slice(format!("F{slot:07}CUT").as_bytes());
    }
    let lines = [
        "put card PANEL.CUT path",
        "put -f card PANEL.CUT path",
        "mv card F0000000.CUT PANEL.CUT",
    ];
    refused("rootfull", &card, Refusal::Rootfull, &lines);
    // A file that is there needs no slot.
    let folder = folder_with("rootfull-over", &card);
    folder.lfat("put -f card F0000000.CUT path").done();
}
