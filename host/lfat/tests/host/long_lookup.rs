//! Files by their long names, on the command line and on the rack. Needs fsck.fat.

use crate::json::check;
use crate::refusals::folder_with;
use crate::support::long::{assert_clean, formatted_folder, lfat, HULL};
use crate::support::{card_with_route, mark_read_only, points, ALL};
use testkit::cards::Card;
use testkit::characters::bytes_of_text;
use testkit::AT;

/// Two files with one long name, as other programs can leave them: every verb says so in a line, and takes the short names.
#[test]
fn more_than_one() {
    let mut card = reference::card_k();
    reference::create_long(
        &mut card,
        b"TWIN~1     ",
        &bytes_of_text("the twin"),
        AT,
        ALL,
    );
    reference::create_long(
        &mut card,
        b"TWIN~2     ",
        &bytes_of_text("the twix"),
        AT,
        ALL,
    );
    // Slot 2 has the entry of the second one; its last character becomes that of the first.
    card[33 * 512 + 64 + 18] = b'n';
    let folder = folder_with("twins", &card);
    let words = "lfat: 2 files have the long name 'the twin': give one of TWIN~1, TWIN~2\n";
    for line in [
        &["get", "card", "the twin"][..],
        &["put", "card", "the twin", "path"],
        &["put", "-f", "card", "the twin", "path"],
        &["append", "card", "the twin", "path"],
        &["truncate", "card", "the twin", "0"],
        &["rm", "card", "the twin"],
        &["mv", "card", "the twin", "A"],
        &["rack", "card", "rm", "the twin"],
    ] {
        assert_eq!(lfat(&folder, line).failed(1, "").errors(), words);
        assert!(folder.read("card") == card);
    }
    // One line, whatever the name holds.
    for slot in [0, 2] {
        let at = 33 * 512 + 32 * slot + 7;
        let mut other = folder.read("card");
        other[at] = b'\n';
        folder.write("card", &other);
    }
    let run = lfat(&folder, &["get", "card", "the\ntwin"]).failed(1, "'the?twin'");
    assert_eq!(run.errors().lines().count(), 1);
    let run = lfat(&folder, &["get", "card", "The\ntwin"]).failed(1, "Did you mean 'the?twin'?");
    assert_eq!(run.errors().lines().count(), 1);
    folder.write("card", &card);
    lfat(&folder, &["rm", "card", "TWIN~2"]).done();
    lfat(&folder, &["get", "card", "the twin"]).done();
}

/// Long names before short names that no rule allows: get, rm and mv take them, append and truncate say why not.
#[test]
fn odd_short_names() {
    let mut card = Card::k();
    reference::create_long(
        &mut card.bytes,
        b"ODD     CUT",
        &bytes_of_text("Übergröße.cut"),
        AT,
        ALL,
    );
    reference::append(&mut card.bytes, b"ODD     CUT", &points(700), AT, ALL);
    // As another system has it: the first byte is a letter of its code page.
    card.slot_mut(1)[0] = 0x9A;
    card.put_long_sum(1);
    let folder = folder_with("odd-short", &card.bytes);
    let name = "Übergröße.cut";
    let listed = "       700  ?DD.CUT  (slot:1)  'Übergröße.cut'\n";
    assert_eq!(lfat(&folder, &["ls", "card"]).done().text(), listed);
    assert_eq!(
        lfat(&folder, &["get", "card", name]).done().bytes(),
        points(700)
    );
    for line in [
        &["append", "card", name, "path"][..],
        &["truncate", "card", name, "0"],
        &["put", "-f", "card", name, "path"],
    ] {
        lfat(&folder, line).failed(1, "only get, rm and mv reach it, as slot:1.");
        assert!(folder.read("card") == card.bytes);
    }
    lfat(&folder, &["mv", "card", name, "NEW.CUT"]).done();
    assert_eq!(
        lfat(&folder, &["ls", "card"]).done().text(),
        "       700  NEW.CUT\n"
    );
}

/// A long name before the second file of a short name: its own bytes are read, and no call changes the first file.
#[test]
fn second_of_a_short_name() {
    let mut card = Card {
        bytes: card_with_route(1_300),
        ..Card::k()
    };
    let long = bytes_of_text("the second");
    reference::create_long(&mut card.bytes, b"SECOND     ", &long, AT, ALL);
    reference::append(&mut card.bytes, b"SECOND     ", &points(50), AT, ALL);
    card.slot_mut(2)[..11].copy_from_slice(b"ROUTE   CUT");
    card.put_long_sum(2);
    let folder = folder_with("second", &card.bytes);
    let listed = "      1300  ROUTE.CUT\n        50  ROUTE.CUT  (slot:2)  'the second'\n";
    assert_eq!(lfat(&folder, &["ls", "card"]).done().text(), listed);
    let run = lfat(&folder, &["get", "card", "the second"]).done();
    assert_eq!(run.bytes(), points(50));
    lfat(&folder, &["append", "card", "the second", "path"]).failed(1, "as slot:2.");
    lfat(&folder, &["rm", "card", "the second"]).done();
    assert_eq!(
        lfat(&folder, &["ls", "card"]).done().text(),
        "      1300  ROUTE.CUT\n"
    );
}

#[test]
fn marks_and_directories() {
    let mut card = reference::card_k();
    reference::create_long(
        &mut card,
        b"LOCKED~1   ",
        &bytes_of_text("locked path"),
        AT,
        ALL,
    );
    reference::create_long(
        &mut card,
        b"FOLDER~1   ",
        &bytes_of_text("a folder of paths"),
        AT,
        ALL,
    );
    mark_read_only(&mut card, 1);
    card[33 * 512 + 4 * 32 + 11] = 0x10;
    let folder = folder_with("long-marks", &card);
    let listed = "         0  LOCKED~1  (read-only)  'locked path'\n directory  FOLDER~1  'a folder of paths'\n";
    assert_eq!(lfat(&folder, &["ls", "card"]).done().text(), listed);
    lfat(&folder, &["rm", "card", "locked path"]).failed(1, "LOCKED");
    lfat(&folder, &["put", "card", "locked path", "path"])
        .failed(1, "EXISTS: the name is taken. LOCKED~1 is there and marked");
    lfat(&folder, &["put", "card", "a folder of paths", "path"])
        .failed(1, "a folder of paths is a directory");
    lfat(&folder, &["get", "card", "a folder of paths"]).failed(1, "DIRECTORY");
}

/// No call gives a file that is there a long name: one line says what does.
#[test]
fn renamed_to_a_long_name() {
    let card = card_with_route(1_300);
    let folder = folder_with("mv-long", &card);
    let run = lfat(&folder, &["mv", "card", "ROUTE.CUT", HULL]).failed(1, "NAME: ");
    assert!(run.errors().contains(
        "mv gives short names only. For a long one copy the file, 'lfat get' and 'lfat put'"
    ));
    assert_eq!(run.errors().lines().count(), 1);
    assert!(folder.read("card") == card);
}

/// Cut after every store: no such file, an empty one, or the whole one, and the log tells of the long name.
#[test]
fn cut() {
    let folder = formatted_folder("long-cut");
    let card = folder.read("card");
    for limit in 0..10 {
        folder.write("card", &card);
        let limit_text = limit.to_string();
        lfat(
            &folder,
            &["put", "card", HULL, "path", "--limit", &limit_text],
        )
        .failed(1, "STOPPED");
        if limit == 1 {
            let log = lfat(&folder, &["log", "card"]).done().text();
            assert!(
                log.ends_with("2 0 create pending HULL7S~1.CUT slot 3 first 0 from 0 size 0\n"),
                "{log}"
            );
            let log = lfat(&folder, &["log", "card", "--json"]).done().text();
            assert!(log.contains("\"long_entries\": 2"), "{log}");
        }
        let run = lfat(&folder, &["recover", "card"]).done();
        let told = run
            .text()
            .contains("create HULL7S~1.CUT with its long name");
        assert_eq!(told, (1..3).contains(&limit), "{limit}: {}", run.text());
        let text = lfat(&folder, &["ls", "card"]).done().text();
        assert_eq!(
            text.contains("HULL7S~1.CUT  'Hull 7 sheer panel.cut'"),
            limit > 0,
            "{limit}: {text}"
        );
        assert_clean(&folder);
    }
}

#[test]
fn on_the_rack() {
    let folder = folder_with("long-rack", &card_with_route(700));
    let run = lfat(&folder, &["rack", "card", "create", HULL])
        .done()
        .text();
    assert!(
        run.starts_with(
            "create 'Hull 7 sheer panel.cut' as HULL7S~1.CUT with 2 long entries: 3 stores\n"
        ),
        "{run}"
    );
    let long = "y".repeat(208);
    let run = lfat(&folder, &["rack", "card", "put", &long, "path", "--json"]).done();
    let found =
        "[(o['long_entries'], o['mismatch']) for o in v['operations']] == [(16, None), (0, None)]";
    check(&folder, run.bytes(), found);
    lfat(&folder, &["put", "card", HULL, "path"]).done();
    for line in [
        &["rm", HULL][..],
        &["mv", HULL, "A"],
        &["append", HULL, "path"],
        &["truncate", HULL, "5"],
        &["replace", HULL, "path"],
    ] {
        let words = [&["rack", "card"], line].concat();
        lfat(&folder, &words).done();
    }
    lfat(&folder, &["rack", "card", "create", HULL, "--break"]).failed(1, "EXISTS");
    let run = lfat(
        &folder,
        &["rack", "card", "create", "another one", "--break"],
    );
    run.failed(1, "MISMATCH");
    lfat(
        &folder,
        &["rack", "card", "create", "hull 7 Sheer panel.cut"],
    )
    .failed(1, "EXISTS");
}

#[test]
fn no_run_of_slots() {
    let mut card = Card::k();
    card.fill_root(0);
    card.mark_deleted((0..512).step_by(2));
    let folder = folder_with("no-run", &card.bytes);
    lfat(&folder, &["put", "card", HULL, "path"]).failed(1, "ROOTFULL");
    lfat(&folder, &["put", "card", "SHORT.CUT", "path"]).done();
}
