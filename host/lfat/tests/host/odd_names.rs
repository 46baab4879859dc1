//! Names on the card that no rule allows, and paths that are no UTF-8.

use crate::refusals::folder_with;
use crate::support::{card_with_route, points, ALL, PANEL};
use std::ffi::OsStr;
use std::os::unix::ffi::OsStrExt;
use testkit::AT;

/// ROUTE.CUT in slot 0, a name that no rule allows in slot 1, ROUTE.CUT once more in slot 2.
fn card() -> Vec<u8> {
    let mut card = card_with_route(1_300);
    for (name, length) in [(PANEL, 2_000), (b"SECOND     ", 50)] {
        reference::create(&mut card, name, AT, ALL);
        reference::append(&mut card, name, &points(length), AT, ALL);
    }
    card[33 * 512 + 32..][..5].copy_from_slice(&[0x80, 0x81, b'a', b' ', b'.']);
    card[33 * 512 + 64..][..11].copy_from_slice(b"ROUTE   CUT");
    card
}

#[test]
fn by_slot() {
    let folder = folder_with("slots", &card());
    let listed =
        "      1300  ROUTE.CUT\n      2000  ??a?..CUT  (slot:1)\n        50  ROUTE.CUT  (slot:2)\n";
    assert_eq!(folder.lfat("ls card").done().text(), listed);
    assert_eq!(folder.lfat("get card slot:1").done().bytes(), points(2_000));
    folder.lfat("get card slot:2 -o second").done();
    assert_eq!(folder.read("second"), points(50));
    assert!(folder.read("card") == card(), "reading changes nothing");
    folder.lfat("get card slot:3").failed(1, "ABSENT");
    folder
        .lfat("rm card slot:x")
        .failed(2, "slot: 'x' is no number");
    folder.lfat("mv card slot:1 ROUTE.CUT").failed(1, "EXISTS");
    folder.lfat("append card slot:1 path").failed(1, "NAME");
    folder.lfat("put -f card slot:1 path").failed(1, "NAME");
    assert!(folder.read("card") == card());
    // The lower of two slots with one name is meant.
    folder.lfat("put -f card ROUTE.CUT path").done();
    assert_eq!(folder.lfat("get card slot:2").done().bytes(), points(50));
    folder.lfat("mv card slot:2 KEEL").done();
    folder.lfat("rm card slot:1").done();
    assert_eq!(
        folder.lfat("ls card").done().text(),
        "      1300  ROUTE.CUT\n        50  KEEL\n"
    );
    assert_eq!(folder.lfat("get card KEEL").done().bytes(), points(50));
}

/// Cut after every store, and recovered: the file is there as it was, or gone.
#[test]
fn removal_is_cut() {
    let folder = folder_with("slot-cut", &card());
    for limit in 0..5 {
        folder.write("card", &card());
        folder
            .lfat(&format!("rm card slot:1 --limit {limit}"))
            .failed(1, "STOPPED");
        folder.lfat("recover card").done();
        let text = folder.lfat("ls card").done().text();
        assert_eq!(text.contains("(slot:1)"), limit < 2, "{limit}: {text}");
        if limit < 2 {
            assert_eq!(folder.lfat("get card slot:1").done().bytes(), points(2_000));
        }
    }
}

#[test]
fn paths_that_are_no_text() {
    let folder = folder_with("bytes", &[]);
    let word = |text: &'static [u8]| OsStr::from_bytes(text);
    let (card, file) = (word(b"c\xFFard"), word(b"p\xFEath"));
    std::fs::write(folder.path().join(card), card_with_route(700)).expect("a card");
    std::fs::write(folder.path().join(file), points(100)).expect("a file");
    folder
        .lfat_words(&[word(b"put"), card, word(b"A.CUT"), file])
        .done();
    folder
        .lfat_words(&[
            word(b"get"),
            card,
            word(b"A.CUT"),
            word(b"-o"),
            word(b"b\xFFack"),
        ])
        .done();
    let back = std::fs::read(folder.path().join(word(b"b\xFFack")));
    assert_eq!(back.expect("written"), points(100));
    let run = folder.lfat_words(&[word(b"format"), word(b"n\xFFew")]);
    run.done();
    let run = folder.lfat_words(&[
        word(b"rack"),
        card,
        word(b"put"),
        word(b"B"),
        file,
        word(b"--random=1"),
    ]);
    run.done();
    folder
        .lfat_words(&[word(b"ls"), word(b"no\xFF")])
        .failed(3, "No such file");
    folder
        .lfat_words(&[word(b"get"), card, word(b"N\xFF")])
        .failed(1, "NAME");
    folder
        .lfat_words(&[word(b"truncate"), card, word(b"A.CUT"), word(b"1\xFF")])
        .failed(2, "SIZE");
}
