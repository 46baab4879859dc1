//! Files marked read-only: `ls` shows them, what would change them is refused, and what the refusal says can be done.
//! Needs mtools.

use crate::refusals::{folder_with, refused};
use crate::support::cli::{Folder, Run};
use crate::support::{card_with_route, mark_read_only, points, set_fats, ALL, PANEL, ROUTE};
use lfat::failure::Failure;
use lfat_card::Refusal;
use std::process::Command;
use testkit::AT;

/// A new card, laid out as card K and known to mtools, with ROUTE.CUT of 1,300 bytes, marked, and PANEL.CUT of 700.
fn card() -> Vec<u8> {
    let mut card = vec![0; 4_150 * 512];
    reference::format(&mut card, 4_150, 1, 8, ALL);
    for (name, length) in [(ROUTE, 1_300), (PANEL, 700)] {
        reference::create(&mut card, name, AT, ALL);
        reference::append(&mut card, name, &points(length), AT, ALL);
    }
    mark_read_only(&mut card, 0);
    card
}

/// Every command that would change ROUTE.CUT, in slot 0.
const CHANGING: [&str; 17] = [
    "append card ROUTE.CUT path",
    "append card ROUTE.CUT none",
    "put -f card ROUTE.CUT path",
    "put card ROUTE.CUT none --replace",
    "truncate card ROUTE.CUT 5",
    "truncate card ROUTE.CUT 1300",
    "truncate card ROUTE.CUT 1301",
    "rm card ROUTE.CUT",
    "rm card ROUTE.CUT --limit 0",
    "rm card slot:0",
    "mv card ROUTE.CUT NEW.CUT",
    "mv card ROUTE.CUT PANEL.CUT",
    "mv card slot:0 NEW.CUT",
    "rack card append ROUTE.CUT path",
    "rack card replace ROUTE.CUT path",
    "rack card truncate ROUTE.CUT 5",
    "rack card mv ROUTE.CUT NEW.CUT",
];

fn folder(name: &str, card: &[u8]) -> Folder {
    let folder = folder_with(name, card);
    folder.write("none", b"");
    folder
}

#[test]
fn every_command_that_changes_it() {
    refused(
        "locked-rm",
        &card(),
        Refusal::Locked,
        &["rack card rm ROUTE.CUT"],
    );
    let folder = folder("locked", &card());
    for line in CHANGING {
        let run = folder.lfat(line).failed(
            1,
            "lfat: LOCKED: the file is marked read-only. Nothing was written. To change ",
        );
        let errors = run.errors();
        assert_eq!(errors.lines().count(), 1, "{line}: {errors}");
        for words in [
            "ROUTE.CUT",
            "on Windows in the file's properties or with 'attrib -r ROUTE.CUT'",
        ] {
            assert!(errors.contains(words), "{line}: {errors}");
        }
        assert!(
            errors.ends_with("mtools: MTOOLS_SKIP_CHECK=1 mattrib -i card -r ::ROUTE.CUT\n"),
            "{line}: {errors}"
        );
        assert_eq!(run.bytes(), b"", "{line}");
        assert!(folder.read("card") == card(), "{line} changes nothing");
    }
}

/// Where the file is not known, the advice is the same without its name.
#[test]
fn advice_without_a_name() {
    let advice = Failure::from(Refusal::Locked).to_string();
    for words in [
        "LOCKED: ",
        "Nothing was written.",
        "'attrib -r'",
        "mattrib -r",
    ] {
        assert!(advice.contains(words), "{advice}");
    }
}

#[test]
fn what_is_not_refused() {
    let folder = folder("unlocked", &card());
    assert_eq!(
        folder.lfat("get card ROUTE.CUT").done().bytes(),
        points(1_300)
    );
    assert_eq!(folder.lfat("get card slot:0").done().bytes(), points(1_300));
    folder.lfat("info card").done();
    folder.lfat("log card").done();
    assert_eq!(
        folder.lfat("recover card").done().text(),
        "nothing to recover\n"
    );
    for line in [
        "append card PANEL.CUT path",
        "put -f card PANEL.CUT path",
        "truncate card PANEL.CUT 5",
        "mv card PANEL.CUT NEW.CUT",
        "rm card NEW.CUT",
        "put card NEW.CUT path",
        "rack card rm NEW.CUT",
    ] {
        folder.lfat(line).done();
    }
    let listed = "      1300  ROUTE.CUT  (read-only)\n      1300  NEW.CUT\n";
    assert_eq!(folder.lfat("ls card").done().text(), listed);
    assert_eq!(
        folder.lfat("get card ROUTE.CUT").done().bytes(),
        points(1_300)
    );
}

/// Size and name stay in their columns; what is told of an entry comes after. A directory has the mark, too, and all other bits of
/// the attributes may be set.
#[test]
fn listed() {
    let mut card = card();
    for name in [
        b"SUB        ",
        b"ODD        ",
        b"SECOND     ",
        b"BITS       ",
    ] {
        reference::create(&mut card, name, AT, ALL);
    }
    let slot = |slot: usize| 33 * 512 + slot * 32;
    card[slot(2) + 11] = 0x11;
    card[slot(3)] = b'o';
    card[slot(3) + 11] = 0x01;
    card[slot(4)..][..11].copy_from_slice(b"PANEL   CUT");
    card[slot(5) + 11] = 0xE7;
    let folder = folder("locked-ls", &card);
    let wanted = "      1300  ROUTE.CUT  (read-only)\n       700  PANEL.CUT\n directory  SUB  (read-only)\n\
                  \x20        0  oDD  (slot:3)  (read-only)\n         0  PANEL.CUT  (slot:4)\n         0  BITS  (read-only)\n";
    assert_eq!(folder.lfat("ls card").done().text(), wanted);
    let text = folder.lfat("ls card --json").done().text();
    let marks: Vec<bool> = text
        .split("\"read_only\": ")
        .skip(1)
        .map(|rest| rest.starts_with("true,"))
        .collect();
    assert_eq!(marks, [true, false, true, true, false, true], "{text}");
    assert_eq!(text.matches("\"read_only\": false,").count(), 2, "{text}");
    let help = folder.lfat("ls --help").done().text();
    assert!(
        help.contains("(read-only)") && help.contains("read_only"),
        "{help}"
    );
}

/// The command of mtools that the refusal ends with, run as it stands.
fn follow(folder: &Folder, run: &Run) {
    let errors = run.errors();
    let (_, command) = errors.split_once("with mtools: ").expect("a command");
    let mtools = Command::new("sh")
        .args(["-c", command])
        .current_dir(folder.path())
        .env("MTOOLSRC", "/dev/null")
        .status();
    assert!(mtools.expect("sh runs").success(), "{command}");
}

/// Once the mark is cleared as the refusal says, the same command is done.
#[test]
fn the_remedy() {
    let folder = folder("locked-remedy", &[]);
    for line in CHANGING {
        if line.contains("1301") || line.contains("PANEL") || line.contains("--limit") {
            continue; // refused on another ground
        }
        folder.write("card", &card());
        let run = folder.lfat(line).failed(1, "LOCKED");
        follow(&folder, &run);
        folder.lfat(line).done();
    }
}

/// mtools take a card that tells its tracks and heads as it is.
#[test]
fn the_remedy_with_tracks() {
    let mut made = card();
    for (at, number) in [(24, 63), (26, 255)] {
        made[at] = number;
        let folder = folder("locked-tracks", &made);
        let run = folder.lfat("rm card ROUTE.CUT").failed(1, "LOCKED");
        let is_whole = number == 255;
        assert_eq!(run.errors().contains("mtools: mattrib -i card"), is_whole);
        follow(&folder, &run);
        folder.lfat("rm card ROUTE.CUT").done();
    }
}

/// Names and paths that a shell would take apart, and a card in a partition.
#[test]
fn the_remedy_with_other_names() {
    let folder = folder("locked-names", &[]);
    let mut made = card();
    reference::rename(&mut made, PANEL, b"A&B$'(1)#~ ", ALL);
    let at = 33 * 512 + 2 * 32;
    assert_eq!(made[at..][..11], *b"A&B$'(1)#~ ");
    made[at + 11] |= 0x01;
    folder.write("card", &made);
    let run = folder.lfat("rm card A&B$'(1).#~").failed(1, "LOCKED");
    follow(&folder, &run);
    folder.lfat("rm card A&B$'(1).#~").done();

    folder.write("its card", &made);
    let words = ["rm", "its card", "ROUTE.CUT"].map(std::ffi::OsStr::new);
    let run = folder
        .lfat_words(&words)
        .failed(1, "mattrib -i 'its card' -r ::ROUTE.CUT\n");
    follow(&folder, &run);
    folder.lfat_words(&words).done();

    let mut disk = vec![0; 7_000 * 512];
    disk[446 + 4] = 6;
    disk[446 + 8..446 + 12].copy_from_slice(&2_048_u32.to_le_bytes());
    disk[446 + 12..446 + 16].copy_from_slice(&4_150_u32.to_le_bytes());
    disk[510..512].copy_from_slice(&[0x55, 0xAA]);
    disk[2_048 * 512..][..made.len()].copy_from_slice(&made);
    folder.write("disk", &disk);
    for line in ["append disk ROUTE.CUT path", "append disk:1 ROUTE.CUT path"] {
        folder.write("disk", &disk);
        let run = folder
            .lfat(line)
            .failed(1, "mattrib -i disk@@1048576 -r ::ROUTE.CUT\n");
        assert!(folder.read("disk") == disk);
        follow(&folder, &run);
        folder.lfat(line).done();
    }
}

/// The name of a locked file is taken: nothing is proposed that would be refused.
#[test]
fn a_name_that_is_taken() {
    let folder = folder("locked-taken", &card());
    for line in [
        "put card ROUTE.CUT path",
        "mv card PANEL.CUT ROUTE.CUT",
        "mv card slot:1 ROUTE.CUT",
        "rack card create ROUTE.CUT",
        "rack card put ROUTE.CUT path",
        "rack card mv PANEL.CUT ROUTE.CUT",
    ] {
        folder.write("card", &card());
        let words = "lfat: EXISTS: the name is taken. ROUTE.CUT is there and marked read-only. Take another name; or, before it can be \
                     changed or removed, clear the mark: on Windows";
        let run = folder.lfat(line).failed(1, words);
        let errors = run.errors();
        assert_eq!(errors.lines().count(), 1, "{line}: {errors}");
        for word in ["lfat put", "lfat append", "lfat rm", "--replace"] {
            assert!(!errors.contains(word), "{line}: {errors}");
        }
        assert!(folder.read("card") == card(), "{line} changes nothing");
        folder.lfat(&line.replace("ROUTE.CUT", "OTHER.CUT")).done();
        folder.write("card", &card());
        follow(&folder, &run);
        folder.lfat("rm card ROUTE.CUT").done();
        folder.lfat(line).done();
    }
    // An empty one, and a directory whose mark means nothing.
    let mut made = card();
    reference::truncate(&mut made, PANEL, 0, AT, ALL);
    mark_read_only(&mut made, 1);
    reference::create(&mut made, b"SUB        ", AT, ALL);
    made[33 * 512 + 2 * 32 + 11] = 0x11;
    folder.write("card", &made);
    folder
        .lfat("put card PANEL.CUT path")
        .failed(1, "PANEL.CUT is there and marked read-only.");
    folder
        .lfat("put card SUB path")
        .failed(1, "SUB is a directory: save under another name.");
    folder.lfat("put -f card SUB path").failed(1, "DIRECTORY: ");
    folder.lfat("mv card SUB NEW").failed(1, "DIRECTORY: ");
    // Where no file has the mark, all is said as before.
    made[33 * 512 + 11] = 0x20;
    folder.write("card", &made);
    for line in ["mv card ROUTE.CUT ROUTE.CUT", "mv card ROUTE.CUT SUB"] {
        let run = folder
            .lfat(line)
            .failed(1, "'lfat put --replace' saves over a file");
        assert!(!run.errors().contains("read-only"), "{}", run.errors());
    }
}

/// A file that no name reaches: it is told by its slot, and no command by a wrong name is proposed.
#[test]
fn by_slot() {
    let mut made = card();
    made[33 * 512 + 32..][..11].copy_from_slice(b"ROUTE   CUT");
    mark_read_only(&mut made, 1);
    reference::create(&mut made, b"ODD        ", AT, ALL);
    made[33 * 512 + 2 * 32] = b'o';
    mark_read_only(&mut made, 2);
    let folder = folder("locked-slot", &made);
    for (line, shown) in [
        ("rm card slot:1", "slot:1 (ROUTE.CUT)"),
        ("mv card slot:1 NEW.CUT", "slot:1 (ROUTE.CUT)"),
        ("rm card slot:2", "slot:2 (oDD)"),
        ("mv card slot:2 ROUTE.CUT", "slot:2 (oDD)"),
    ] {
        let run = folder.lfat(line).failed(
            1,
            &format!("Nothing was written. To change {shown}, clear the mark first: "),
        );
        let errors = run.errors();
        assert!(
            errors.contains("by the name that it has there") && !errors.contains("::"),
            "{errors}"
        );
        assert_eq!(errors.lines().count(), 1, "{line}: {errors}");
        assert!(folder.read("card") == made, "{line} changes nothing");
    }
    assert_eq!(folder.lfat("get card slot:1").done().bytes(), points(700));
    made[33 * 512 + 32 + 11] = 0x20;
    folder.write("card", &made);
    folder.lfat("mv card slot:1 NEW.CUT").done();
}

/// What is proposed for a broken file, another name, is refused to a locked one.
#[test]
fn a_broken_file() {
    let mut made = card();
    set_fats(&mut made, 11, 0xFFFF);
    let folder = folder("locked-chain", &made);
    folder.lfat("rm card ROUTE.CUT").failed(1, "LOCKED: ");
    let errors = folder
        .lfat("get card ROUTE.CUT")
        .failed(1, "CHAIN: ")
        .errors();
    assert!(
        errors.contains("'fsck.fat -n' says more") && !errors.contains("lfat mv"),
        "{errors}"
    );
    made[33 * 512 + 11] = 0x20;
    folder.write("card", &made);
    folder
        .lfat("get card ROUTE.CUT")
        .failed(1, "'lfat mv' can give it another name");
    folder.lfat("mv card ROUTE.CUT NEW.CUT").done();
}

/// A save that was cut before the mark came is recovered all the same.
#[test]
fn recovered() {
    let mut made = card_with_route(700);
    reference::append(&mut made, ROUTE, &points(100), AT, 2);
    mark_read_only(&mut made, 0);
    let folder = folder("locked-recover", &made);
    let told = folder.lfat("recover card").done().text();
    assert!(
        told.contains("is finished (update ROUTE.CUT, dated 2026-06-17 13:45:30)"),
        "{told}"
    );
    assert_eq!(
        folder.lfat("ls card").done().text(),
        "       800  ROUTE.CUT  (read-only)\n"
    );
}
