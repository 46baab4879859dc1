//! What a refusal or a recovery tells the user to do, and that it can be done.

use crate::refusals::folder_with;
use crate::support::long::tool;
use crate::support::{card_with_route, points, set_fats, ROUTE};
use reference::card_k;
use std::fs::OpenOptions;
use std::io::{BufRead, BufReader};
use std::process::{Command, Stdio};
use testkit::AT;

#[test]
fn what_is_missing() {
    let folder = folder_with("missing", &card_k());
    for (line, words) in [
        (
            "put card NOTES.TXT",
            "lfat: FILE is missing; usage: lfat put IMAGE NAME FILE [--replace] [--at TIME] [--limit N]\n",
        ),
        ("put card notes.txt", "lfat: FILE is missing; "),
        ("put card", "lfat: NAME and FILE are missing; "),
        ("put", "lfat: IMAGE and NAME and FILE are missing; "),
        ("mv card A", "lfat: NEW is missing; "),
    ] {
        let run = folder.lfat(line).failed(2, words);
        assert_eq!(run.errors().lines().count(), 1);
    }
    folder
        .lfat("")
        .failed(2, "COMMAND is missing; 'lfat --help'");
    folder
        .lfat("blank card")
        .failed(2, "there is no command 'blank'; 'lfat --help'");
}

/// A put that is cut between its two calls leaves an empty file; what the next put says helps.
#[test]
fn a_put_that_was_cut() {
    let folder = folder_with("cut-put", &card_k());
    folder
        .lfat("put card ROUTE.CUT path --limit 4")
        .failed(1, "STOPPED");
    folder.lfat("recover card").done();
    folder.lfat("put card ROUTE.CUT path").failed(
        1,
        "ROUTE.CUT is there and empty, as a put that was cut leaves it: fill it with 'lfat put --replace'",
    );
    folder.lfat("put --replace card ROUTE.CUT path").done();
    assert_eq!(
        folder.lfat("get card ROUTE.CUT").done().bytes(),
        points(1_300)
    );
}

/// A name that is taken: what the refusal says saves over it, or adds to it; of a directory it says that it is one.
#[test]
fn a_name_that_is_taken() {
    let mut card = card_with_route(700);
    reference::create(&mut card, b"SUB        ", AT, u32::MAX);
    card[33 * 512 + 32 + 11] = 0x10;
    let folder = folder_with("taken", &card);
    folder.lfat("put card ROUTE.CUT path").failed(
        1,
        "EXISTS: the name is taken. Save over ROUTE.CUT with 'lfat put --replace', or add to it with 'lfat append'.",
    );
    folder.lfat("put --replace card ROUTE.CUT path").done();
    folder.lfat("append card ROUTE.CUT path").done();
    let both = [points(1_300), points(1_300)].concat();
    assert_eq!(folder.lfat("get card ROUTE.CUT").done().bytes(), both);
    folder
        .lfat("put card SUB path")
        .failed(1, "SUB is a directory: save under another name.");
}

/// New bytes that do not fit beside the old ones: once another file is removed, they do.
#[test]
fn no_room_beside_the_old_bytes() {
    let mut card = card_with_route(1_300);
    reference::create(&mut card, b"OTHER      ", AT, u32::MAX);
    reference::append(&mut card, b"OTHER      ", &points(1_300), AT, u32::MAX);
    (16..4_087).for_each(|cluster| set_fats(&mut card, cluster, 0xFFF7));
    let folder = folder_with("beside", &card);
    folder.lfat("put -f card ROUTE.CUT path").failed(
        1,
        "The old bytes of ROUTE.CUT keep their room until the new ones are saved. 'lfat info' shows the free clusters; 'lfat rm' frees \
         some. 'lfat fits' tells before a save.\n",
    );
    assert_eq!(folder.lfat("fits card path").status(), 1);
    assert!(folder.read("card") == card);
    folder.lfat("rm card OTHER").done();
    folder.lfat("put -f card ROUTE.CUT path").done();
    // An empty file has no old bytes.
    folder.write("none", b"");
    folder.lfat("put card EMPTY none").done();
    folder.write("long", &points(5_000));
    for line in ["put -f card EMPTY long", "put card NEW long"] {
        let run = folder.lfat(line).failed(1, "NOSPACE");
        let errors = run.errors();
        assert!(!errors.contains("old bytes"), "{errors}");
        assert!(
            errors.ends_with("'lfat fits' tells before a save.\n"),
            "{errors}"
        );
    }
}

/// A card without a log, as other systems make it: what the refusal says leads to one that has it.
#[test]
fn a_card_without_a_log() {
    let folder = folder_with("no-log", &[]);
    tool(
        &folder,
        "mkfs.fat",
        &["-F", "16", "-s", "1", "-C", "made", "4096"],
    );
    tool(&folder, "mcopy", &["-i", "made", "path", "::ROUTE.CUT"]);
    let line = "Copy the files off with any FAT program; then 'lfat format --yes' makes it an empty card with a log, and 'lfat put' puts them back.\n";
    folder.lfat("ls made").failed(1, line);
    tool(&folder, "mcopy", &["-i", "made", "::ROUTE.CUT", "off"]);
    folder.lfat("format --yes made").done();
    folder.lfat("put made ROUTE.CUT off").done();
    let back = folder.lfat("get made ROUTE.CUT").done();
    assert_eq!(back.bytes(), points(1_300));
}

/// What recovery did, in words: dropped, finished, nothing. An append of four sectors; a replace by three.
#[test]
fn what_recovery_did() {
    let folder = folder_with("recovered", &[]);
    for (command, data, word) in [("append", 4, "update"), ("put -f", 3, "replace")] {
        let finished = format!("recovered: the save that was cut is finished ({word} ROUTE.CUT, dated 2026-11-17 19:30:58)");
        for (limit, words) in [
            (data, "nothing to recover\n".to_string()),
            (
                data + 1,
                "recovered: a half-made save was dropped, every file is as before it, 1 sector written\n".to_string(),
            ),
            (data + 2, format!("{finished}, 3 sectors written\n")),
            (data + 4, format!("{finished}, 2 sectors written\n")),
        ] {
            folder.write("card", &card_with_route(1_300));
            folder
                .lfat(&format!("{command} card ROUTE.CUT path --at 2026-11-17T19:30:59 --limit {limit}"))
                .failed(1, "STOPPED");
            assert_eq!(folder.lfat("recover card").done().text(), words, "{limit}");
        }
    }
}

/// A save that is pending from before groups had a date: the line says what to recover it with. With a date that is none it is
/// recovered all the same.
#[test]
fn a_save_from_before_the_update() {
    let mut cut = card_with_route(700);
    reference::append(&mut cut, ROUTE, &points(100), AT, 2);
    let folder = folder_with("before-update", &cut);
    cut[67 * 512 + 32 + 14..][..4].fill(0);
    folder.write("card", &cut);
    let told = folder.lfat("recover card").done().text();
    assert!(
        told.contains("is finished (update ROUTE.CUT), 2 sectors"),
        "{told}"
    );
    assert_eq!(
        folder.lfat("ls -l card").done().text(),
        "       800  -                    ROUTE.CUT\n"
    );

    cut[67 * 512 + 32..][..32].fill(0);
    folder.write("card", &cut);
    for line in [
        "recover card",
        "put card A path",
        "ls card",
        "get card ROUTE.CUT",
    ] {
        let words = "lfat: RECORD: the pending log records are not one group. If the card was cut before lfat was updated to one that dates files, \
                     recover it with the lfat of then. ";
        let run = folder.lfat(line).failed(1, words);
        assert_eq!(run.errors().lines().count(), 1);
    }
    assert!(folder.read("card") == cut);
    let help = folder.lfat("recover --help").done().text();
    assert!(
        help.contains("Before an update from an lfat that does not date files"),
        "{help}"
    );
}

#[test]
fn version_and_the_end_of_options() {
    let folder = folder_with("version", &card_k());
    assert_eq!(
        folder.lfat("--version").done().text(),
        concat!("lfat ", env!("CARGO_PKG_VERSION"), "\n")
    );
    folder
        .lfat("put card -- --help? path")
        .failed(1, "LONGNAME");
    folder.lfat("put card -- -A path").done();
    folder
        .lfat("rm --partition 1 -- card -A")
        .failed(2, "no partition table");
    folder.lfat("rm -- card -A").done();
}

/// With --wait a command waits for the other program, and says so.
#[test]
fn waiting() {
    let folder = folder_with("wait", &card_with_route(10));
    let file = OpenOptions::new()
        .write(true)
        .open(folder.path().join("card"))
        .expect("the card");
    file.lock().expect("a lock");
    folder.lfat("ls card").failed(
        3,
        "card: in use by another program, or mounted. Unmount it, or wait with --wait.",
    );
    let mut child = Command::new(env!("CARGO_BIN_EXE_lfat"))
        .args(["ls", "card", "--wait"])
        .current_dir(folder.path())
        .stdout(Stdio::piped())
        .stderr(Stdio::piped())
        .spawn()
        .expect("the program runs");
    let mut told = String::new();
    let mut errors = BufReader::new(child.stderr.take().expect("piped"));
    errors.read_line(&mut told).expect("a line");
    assert_eq!(told, "lfat: waiting for card, which another program has\n");
    drop(file);
    let output = child.wait_with_output().expect("it ends");
    assert_eq!(output.stdout, b"        10  ROUTE.CUT\n");
}
