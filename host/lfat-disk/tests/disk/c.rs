//! The C interface: the header as C99 and C++, its codes, and the program `examples/save.c` on images and partitions.

use crate::files::Temporary;
use crate::format::{disks, formatted, K};
use crate::support::cards::{card_over, points, state, two_files, PANEL, ROUTE};
use std::path::{Path, PathBuf};
use std::process::{Command, Output};
use std::time::{SystemTime, UNIX_EPOCH};
use testkit::AT;

/// The top of the repository.
fn top() -> PathBuf {
    Path::new(env!("CARGO_MANIFEST_DIR")).join("../..")
}

/// The static library, which cargo has put beside this test when it built the crate; the last one, if there are others.
fn library() -> PathBuf {
    let test = std::env::current_exe().expect("this test");
    let folder = std::fs::read_dir(test.parent().expect("a folder")).expect("a folder");
    let files = folder.filter_map(|entry| entry.ok());
    let libraries = files.filter(|file| {
        let name = file.file_name().to_string_lossy().into_owned();
        name.starts_with("liblfat_disk") && name.ends_with(".a")
    });
    let last = libraries.max_by_key(|file| file.metadata().and_then(|about| about.modified()).ok());
    last.expect("cargo builds the static library").path()
}

fn build(compiler: &str, standard: &str, source: &Path) -> Temporary {
    let program = Temporary::new(&[]);
    let output = Command::new(compiler)
        .arg(format!("-std={standard}"))
        .args(["-Wall", "-Wextra", "-Wpedantic", "-Werror", "-O2"])
        .arg("-I")
        .arg(top().join("include"))
        .arg(source)
        .arg(library())
        .arg("-o")
        .arg(&program.0)
        .output()
        .unwrap_or_else(|error| panic!("{compiler}: {error}"));
    let errors = String::from_utf8_lossy(&output.stderr);
    assert!(output.status.success(), "{compiler} {standard}: {errors}");
    program
}

fn run(program: &Temporary, words: &[&str]) -> Output {
    let output = Command::new(&program.0).args(words).output();
    output.expect("the program runs")
}

fn path(file: &Temporary) -> &str {
    file.0.to_str().expect("a path of the test's own")
}

#[test]
fn the_example() {
    let save = build("gcc", "c99", &top().join("examples/save.c"));
    let data = Temporary::new(&points(200_000));
    let card = Temporary::new(&two_files());
    for name in ["ROUTE.CUT", "NEW.CUT", "NEW.CUT"] {
        let output = run(&save, &[path(&card), name, path(&data)]);
        let wanted = format!("{}: 200000 bytes saved as {name}\n", path(&card));
        assert_eq!(String::from_utf8_lossy(&output.stdout), wanted);
        assert!(output.status.success() && output.stderr.is_empty());
    }
    let after = state(&card.bytes()).expect("clean");
    let mut names: Vec<(&[u8], usize)> = after
        .iter()
        .map(|entry| (&entry.1[..], entry.3.len()))
        .collect();
    names.sort();
    assert_eq!(
        names,
        [
            (&b"NEW     CUT"[..], 200_000),
            (&PANEL[..], 5_000),
            (&ROUTE[..], 200_000)
        ]
    );
    assert!(after.iter().any(|entry| entry.3 == points(200_000)));

    // A file that is there keeps its slot; nothing else is left behind.
    let slots: Vec<usize> = after.iter().map(|entry| entry.0).collect();
    assert_eq!(slots, [0, 1, 2]);

    // A card that was cut is recovered first.
    let mut cut = two_files();
    reference::append(&mut cut, ROUTE, &points(1_300), AT, 6);
    let card = Temporary::new(&cut);
    assert!(run(&save, &[path(&card), "PANEL.CUT", path(&data)])
        .status
        .success());
    let after = state(&card.bytes()).expect("clean");
    assert!(after
        .iter()
        .any(|entry| entry.1 == ROUTE && entry.3.len() == 2_600));

    // A file marked read-only stays as it was.
    let mut marked = card.bytes();
    marked[33 * 512 + 32 + 11] |= 0x01;
    let locked = Temporary::new(&marked);
    let output = run(&save, &[path(&locked), "PANEL.CUT", path(&data)]);
    assert_eq!(
        String::from_utf8_lossy(&output.stderr),
        "save: LOCKED: the file is marked read-only\n"
    );
    assert_eq!(output.status.code(), Some(1));
    assert!(locked.bytes() == marked);

    // More than fits: the old file stays as it was, and under a new name none is made.
    let large = Temporary::new(&points(2_000_000));
    let before = card.bytes();
    for (name, what) in [
        ("PANEL.CUT", "save: NOSPACE: "),
        ("KEEL", "fits: NO: the card has too few free clusters\n"),
    ] {
        let output = run(&save, &[path(&card), name, path(&large)]);
        let errors = String::from_utf8_lossy(&output.stderr).into_owned();
        assert!(
            errors.starts_with(what) && errors.lines().count() == 1,
            "{errors}"
        );
        assert_eq!(output.status.code(), Some(1));
        assert!(card.bytes() == before, "{name}");
    }
    for (words, what) in [
        (vec![path(&card), "new.cut", path(&data)], "save: NAME: "),
        (
            vec![path(&card), "A", "/no/such/file"],
            "cannot read /no/such/file",
        ),
        (
            vec!["/no/such/card", "A", path(&data)],
            "/no/such/card: No such file",
        ),
        (vec![path(&data), "A", path(&data)], "recover: BOOT: "),
        (vec![path(&card)], "usage: save"),
    ] {
        let output = run(&save, &words);
        let errors = String::from_utf8_lossy(&output.stderr).into_owned();
        assert_eq!(output.status.code(), Some(1), "{words:?}");
        assert!(
            errors.starts_with(what) && errors.lines().count() == 1,
            "{errors}"
        );
    }
    assert!(card.bytes() == before, "nothing is changed");
}

/// The example dates by the local time of this machine.
#[test]
fn the_date_of_the_example() {
    let save = build("gcc", "c99", &top().join("examples/save.c"));
    let data = Temporary::new(&points(300));
    for (zone, minutes) in [("AAA-14", 14 * 60), ("BBB+9:30", -570), ("UTC0", 0)] {
        let card = Temporary::new(&two_files());
        // The seconds since 1980 began there.
        let now = || {
            let since = SystemTime::now().duration_since(UNIX_EPOCH);
            since.expect("after 1970").as_secs() as i64 - 315_532_800 + minutes * 60
        };
        for (name, slot) in [("ROUTE.CUT", 0), ("NEW.CUT", 2)] {
            let before = now();
            let words = [path(&card), name, path(&data)];
            let output = Command::new(&save.0).args(words).env("TZ", zone).output();
            assert!(output.expect("the program runs").status.success());
            let bytes = card_over(&card.bytes()).slot(slot).try_into();
            let entry = lfat_card::Entry(bytes.expect("a slot"));
            let written = entry.written().expect("a date").seconds();
            let written = i64::from(written.expect("within 2107"));
            assert!((before - 1..=now()).contains(&written), "{zone} {name}");
        }
    }
}

/// A card in a partition, by its number and found.
#[test]
fn the_example_in_a_partition() {
    let save = build("gcc", "c99", &top().join("examples/save.c"));
    let data = Temporary::new(&points(3_000));
    let mut disk = vec![0; 7_000 * 512];
    disk[446 + 4] = 6;
    disk[446 + 8..446 + 12].copy_from_slice(&2_048_u32.to_le_bytes());
    disk[446 + 12..446 + 16].copy_from_slice(&4_150_u32.to_le_bytes());
    disk[510..512].copy_from_slice(&[0x55, 0xAA]);
    disk[2_048 * 512..][..two_files().len()].copy_from_slice(&two_files());
    let card = Temporary::new(&disk);
    let numbered = format!("{}:1", path(&card));
    for word in [path(&card), &numbered] {
        assert!(
            run(&save, &[word, "NEW.CUT", path(&data)]).status.success(),
            "{word}"
        );
    }
    let bytes = card.bytes();
    assert!(bytes[..2_048 * 512] == disk[..2_048 * 512]);
    let after = state(&bytes[2_048 * 512..][..4_150 * 512]).expect("clean");
    assert!(after.iter().any(|entry| entry.3 == points(3_000)));
    let output = run(&save, &[&format!("{}:2", path(&card)), "A", path(&data)]);
    let errors = String::from_utf8_lossy(&output.stderr).into_owned();
    assert!(
        errors.contains("there is no partition 2; it has partitions 1 (type 0x06)"),
        "{errors}"
    );
}

/// Every call, every code of the header, and what is asked wrongly.
const EVERY_CALL: &str = r#"
#include "lfat_disk.h"
#include <stdio.h>
#include <string.h>
static int wrong;
static void due(int line, uint64_t answer, uint32_t code, uint32_t count)
{
    if (LFAT_CODE(answer) != code || LFAT_COUNT(answer) != count) {
        printf("line %d: %lu %lu %s\n", line, (unsigned long)LFAT_CODE(answer), (unsigned long)LFAT_COUNT(answer),
               lfat_disk_message());
        wrong = 1;
    }
}
#define DUE(answer, code, count) due(__LINE__, (answer), (code), (count))
int main(int argc, char **argv)
{
    const uint8_t *route = (const uint8_t *)"ROUTE   CUT", *keel = (const uint8_t *)"KEEL       ";
    const uint8_t *panel = (const uint8_t *)"PANEL   CUT", *hull = (const uint8_t *)"HULL7S~1CUT";
    const uint8_t chars[] = {'H', 0, 'u', 0, 0xFF, 0xFF};
    uint8_t entries[3 * 32], bytes[2000];
    const uint32_t now = lfat_seconds(2026, 11, 17, 19, 30, 59), late = LFAT_LAST_SECOND + 1;
    lfat_disk *disk, *other;
    memset(bytes, 'x', sizeof bytes);
    if (argc != 3)
        return 2;
    DUE(lfat_disk_open(NULL, 0, 0, &disk), LFAT_DISK_ARGUMENT, 0);
    DUE(lfat_disk_open(argv[1], 0, 0, NULL), LFAT_DISK_ARGUMENT, 0);
    DUE(lfat_disk_open(argv[1], 0, 4, &disk), LFAT_DISK_ARGUMENT, 0);
    DUE(lfat_disk_open("/no/such/file", 0, 0, &disk), LFAT_DISK_ERROR, 0);
    if (disk != NULL || lfat_disk_errno() != 2 || strstr(lfat_disk_message(), "No such file") == NULL)
        wrong = 1;
    DUE(lfat_disk_open(argv[1], 7, 0, &disk), LFAT_DISK_PARTITION, 0);
    DUE(lfat_disk_recover(NULL), LFAT_DISK_ARGUMENT, 0);
    lfat_disk_close(NULL);

    DUE(lfat_disk_open(argv[1], 0, LFAT_DISK_TO_READ, &disk), LFAT_DONE, 0);
    DUE(lfat_disk_open(argv[1], 0, 0, &other), LFAT_DISK_IN_USE, 0);
    DUE(lfat_disk_list(disk, entries, 40), LFAT_DONE, 2);
    /* 4,064 clusters of 512 bytes are free, from 23 on. */
    DUE(lfat_disk_fits(disk, 0), LFAT_DONE, 0);
    DUE(lfat_disk_fits(disk, 513), LFAT_DONE, 24);
    DUE(lfat_disk_fits(disk, 2080768), LFAT_DONE, 4086);
    DUE(lfat_disk_fits(disk, 2080769), LFAT_NO, 0);
    if (strcmp(lfat_disk_message(), "NO: the card has too few free clusters") != 0 || lfat_disk_errno() != 0)
        wrong = 1;
    DUE(lfat_disk_fits(disk, UINT64_C(1) << 32), LFAT_NO, 0);
    DUE(lfat_disk_fits(disk, UINT64_MAX), LFAT_NO, 0);
    DUE(lfat_disk_fits(NULL, 0), LFAT_DISK_ARGUMENT, 0);
    DUE(lfat_disk_create(disk, keel, 11, now), LFAT_DISK_READ_ONLY, 0);
    DUE(lfat_disk_format(disk, 4150, 1, 8), LFAT_DISK_READ_ONLY, 0);
    DUE(lfat_disk_sectors(disk), LFAT_DONE, 4150);
    DUE(lfat_disk_sectors(NULL), LFAT_DISK_ARGUMENT, 0);
    lfat_disk_close(disk);

    DUE(lfat_disk_open(argv[1], 0, LFAT_DISK_WAIT, &disk), LFAT_DONE, 0);
    DUE(lfat_disk_recover(disk), LFAT_DONE, 0);
    DUE(lfat_disk_create(disk, keel, 11, now), LFAT_DONE, 3);
    DUE(lfat_disk_create(disk, keel, 11, now), LFAT_EXISTS, 0);
    DUE(lfat_disk_create(disk, keel, 10, now), LFAT_NAME, 0);
    DUE(lfat_disk_create(disk, keel, 10, late), LFAT_CLOCK, 0);
    DUE(lfat_disk_create_long(disk, keel, 11, NULL, 0, late), LFAT_CLOCK, 0);
    DUE(lfat_disk_append(disk, keel, 11, NULL, 0, UINT32_MAX), LFAT_CLOCK, 0);
    DUE(lfat_disk_replace(disk, keel, 11, NULL, 0, late), LFAT_CLOCK, 0);
    DUE(lfat_disk_truncate(disk, keel, 11, 0, lfat_seconds(1979, 12, 31, 23, 59, 59)), LFAT_CLOCK, 0);
    if (strncmp(lfat_disk_message(), "CLOCK: ", 7) != 0 || lfat_disk_errno() != 0)
        wrong = 1;
    DUE(lfat_disk_create(disk, NULL, 11, now), LFAT_DISK_ARGUMENT, 0);
    DUE(lfat_disk_fits(disk, 1), LFAT_DONE, 23);
    DUE(lfat_disk_append(disk, keel, 11, bytes, sizeof bytes, now), LFAT_DONE, 9);
    DUE(lfat_disk_fits(disk, 1), LFAT_DONE, 27);
    DUE(lfat_disk_append(disk, keel, 11, NULL, 0, now), LFAT_DONE, 0);
    DUE(lfat_disk_append(disk, keel, 11, NULL, 1, now), LFAT_DISK_ARGUMENT, 0);
    DUE(lfat_disk_replace(disk, keel, 11, bytes, 600, now), LFAT_DONE, 7);
    DUE(lfat_disk_replace(disk, keel, 11, NULL, 0, now), LFAT_DONE, 5);
    /* Eight groups fill the log: it is cleared first. */
    DUE(lfat_disk_replace(disk, keel, 11, NULL, 0, now), LFAT_DONE, 11);
    DUE(lfat_disk_replace(disk, keel, 11, NULL, 1, now), LFAT_DISK_ARGUMENT, 0);
    DUE(lfat_disk_replace(disk, NULL, 11, bytes, 1, now), LFAT_DISK_ARGUMENT, 0);
    DUE(lfat_disk_replace(disk, (const uint8_t *)"NONE       ", 11, bytes, 1, now), LFAT_ABSENT, 0);
    DUE(lfat_disk_replace(disk, keel, 11, bytes, sizeof bytes, now), LFAT_DONE, 9);
    DUE(lfat_disk_truncate(disk, keel, 11, 2001, now), LFAT_LENGTH, 0);
    DUE(lfat_disk_truncate(disk, keel, 11, 1000, now), LFAT_DONE, 5);
    memset(bytes, 0, sizeof bytes);
    DUE(lfat_disk_read(disk, keel, 11, 10, bytes, sizeof bytes), LFAT_DONE, 990);
    if (bytes[989] != 'x' || bytes[990] != 0)
        wrong = 1;
    DUE(lfat_disk_read(disk, keel, 11, 0, NULL, 0), LFAT_DONE, 0);
    /* The entries of its long name begin in the root sector before. */
    DUE(lfat_disk_delete(disk, route, 11), LFAT_DONE, 6);
    DUE(lfat_disk_rename(disk, keel, 11, route, 11), LFAT_DONE, 3);
    DUE(lfat_disk_list(disk, entries, sizeof entries), LFAT_DONE, 2);
    /* The entry of KEEL, now ROUTE.CUT, with its dates: 19:30:58 on 17 November 2026. */
    if (memcmp(entries + 32 + 13, "\0\xDD\x9B\x71\x5D\x71\x5D\0\0\xDD\x9B\x71\x5D", 13) != 0)
        wrong = 1;
    DUE(lfat_disk_delete(disk, keel, 11), LFAT_ABSENT, 0);
    /* PANEL.CUT is marked read-only. */
    DUE(lfat_disk_append(disk, panel, 11, NULL, 0, now), LFAT_LOCKED, 0);
    DUE(lfat_disk_replace(disk, panel, 11, bytes, 1, now), LFAT_LOCKED, 0);
    DUE(lfat_disk_truncate(disk, panel, 11, 5001, now), LFAT_LOCKED, 0);
    DUE(lfat_disk_delete(disk, panel, 11), LFAT_LOCKED, 0);
    DUE(lfat_disk_rename(disk, panel, 11, route, 11), LFAT_LOCKED, 0);
    if (strcmp(lfat_disk_message(), "LOCKED: the file is marked read-only") != 0)
        wrong = 1;
    DUE(lfat_disk_rename(disk, route, 11, panel, 11), LFAT_EXISTS, 0);
    DUE(lfat_disk_read(disk, panel, 11, 4990, bytes, sizeof bytes), LFAT_DONE, 10);
    /* A long name of three characters, the last of them 0xFFFF. */
    DUE(lfat_disk_create_long(disk, keel, 11, chars, 6, now), LFAT_DONE, 3);
    DUE(lfat_disk_create_long(disk, hull, 11, chars, 6, now), LFAT_EXISTS, 0);
    DUE(lfat_disk_create_long(disk, hull, 11, chars, 5, now), LFAT_LONGNAME, 0);
    DUE(lfat_disk_create_long(disk, hull, 11, NULL, 0, now), LFAT_LONGNAME, 0);
    DUE(lfat_disk_create_long(disk, hull, 11, NULL, 2, now), LFAT_DISK_ARGUMENT, 0);
    DUE(lfat_disk_create_long(disk, NULL, 11, chars, 6, now), LFAT_DISK_ARGUMENT, 0);
    DUE(lfat_disk_create_long(NULL, hull, 11, chars, 6, now), LFAT_DISK_ARGUMENT, 0);
    memset(bytes, 'x', sizeof bytes);
    DUE(lfat_disk_long_name(disk, keel, 11, bytes, sizeof bytes), LFAT_DONE, 3);
    if (memcmp(bytes, chars, 6) != 0 || bytes[6] != 'x')
        wrong = 1;
    DUE(lfat_disk_long_name(disk, keel, 11, NULL, 0), LFAT_DONE, 3);
    DUE(lfat_disk_long_name(disk, keel, 11, NULL, 2), LFAT_DISK_ARGUMENT, 0);
    DUE(lfat_disk_long_name(disk, hull, 11, bytes, 2), LFAT_ABSENT, 0);
    DUE(lfat_disk_long_name(disk, panel, 11, bytes, 2), LFAT_DONE, 0);
    DUE(lfat_disk_delete(disk, keel, 11), LFAT_DONE, 3);
    DUE(lfat_disk_recover(disk), LFAT_DONE, 0);
    DUE(lfat_disk_delete(disk, keel, 11), LFAT_ABSENT, 0);
    if (strstr(lfat_disk_message(), "ABSENT") == NULL || lfat_disk_errno() != 0)
        wrong = 1;
    lfat_disk_close(disk);

    /* A disk of 4,170 sectors that holds no card. */
    DUE(lfat_disk_open(argv[2], 0, 0, &disk), LFAT_DONE, 0);
    DUE(lfat_disk_sectors(disk), LFAT_DONE, 4170);
    DUE(lfat_disk_list(disk, NULL, 0), LFAT_BOOT, 0);
    DUE(lfat_disk_format(disk, 4170, 1, 129), LFAT_SIZE, 0);
    if (strncmp(lfat_disk_message(), "SIZE: ", 6) != 0 || strcmp(lfat_code_name(LFAT_SIZE), "SIZE") != 0)
        wrong = 1;
    DUE(lfat_disk_format(disk, 4171, 1, 8), LFAT_WINDOW, 0);
    DUE(lfat_disk_format(NULL, 4150, 1, 8), LFAT_DISK_ARGUMENT, 0);
    DUE(lfat_disk_format(disk, 4170, 1, 128), LFAT_DONE, 196);
    DUE(lfat_disk_create(disk, keel, 11, now), LFAT_DONE, 3);
    DUE(lfat_disk_fits(disk, 1), LFAT_DONE, 130);
    DUE(lfat_disk_format(disk, 4150, 1, 8), LFAT_DONE, 74);
    DUE(lfat_disk_list(disk, NULL, 0), LFAT_DONE, 0);
    lfat_disk_close(disk);
    return wrong;
}
"#;

#[test]
fn every_call_in_c_and_cpp() {
    for (compiler, standard, suffix) in [("gcc", "c99", "c"), ("g++", "c++11", "cpp")] {
        let named = Temporary::new(&[]);
        let source = named.0.with_extension(suffix);
        std::fs::write(&source, EVERY_CALL).expect("a source");
        let program = build(compiler, standard, &source);
        let _ = std::fs::remove_file(&source);
        let mut start = card_over(&two_files());
        start.mark_read_only(1, true);
        let route = start.slot(0).to_vec();
        start.slot_mut(17).copy_from_slice(&route);
        start.put_long_entries(17, 2);
        start.mark_deleted((0..15).filter(|&slot| slot != 1));
        let card = Temporary::new(&start.bytes);
        let blank = Temporary::new(&disks()[5]);
        let output = run(&program, &[path(&card), path(&blank)]);
        let text = String::from_utf8_lossy(&output.stdout).into_owned();
        assert_eq!(
            (output.status.code(), text.as_str()),
            (Some(0), ""),
            "{compiler}"
        );
        let left = card_over(&card.bytes());
        assert!((15..18).all(|slot| left.slot(slot)[0] == 0xE5));
        let (blank, due) = (blank.bytes(), formatted(&disks()[5], K));
        assert!(blank[..73 * 512] == due[..73 * 512]);
        assert!(blank[4_150 * 512..] == due[4_150 * 512..]);
    }
}
