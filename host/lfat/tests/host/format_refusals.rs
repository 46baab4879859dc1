//! `format` of what holds something: refused without --yes, and left as it was. Needs mtools and dosfstools.

use crate::refusals::folder_with;
use crate::support::cli::Folder;
use crate::support::long::tool;
use crate::support::{card_with_route, points, set_fats, ALL, ROUTE};
use reference::card_k;
use testkit::AT;

/// A format is refused with these words and no more than a line; with --yes it is done.
fn kept(folder: &Folder, words: &str) {
    let before = folder.read("card");
    for line in [
        "format card",
        "format card --json --size 4150s --cluster 1",
        "format card --limit 5",
    ] {
        let run = folder.lfat(line).failed(
            1,
            &format!(
                "lfat: card {words}: formatting loses all of it. Give --yes if that is meant.\n"
            ),
        );
        assert_eq!(run.errors().lines().count(), 1, "{line}");
        assert_eq!(run.text(), "", "{line}");
        assert!(folder.read("card") == before, "{line}: {words}");
    }
    folder.lfat("format card --yes").done();
    assert_eq!(folder.lfat("ls card").done().text(), "");
}

/// A card is formatted without a question.
fn taken(folder: &Folder, what: &str) {
    let run = folder.lfat("format card");
    assert_eq!(run.errors(), "", "{what}");
    assert_eq!(folder.lfat("ls card").done().text(), "", "{what}");
}

/// A card that mkfs.fat made, 4 MB with a label if that is asked for, and no log.
fn by_mkfs(folder: &Folder, options: &[&str]) {
    let _ = std::fs::remove_file(folder.path().join("card"));
    tool(
        folder,
        "mkfs.fat",
        &[&["-s", "1"], options, &["-C", "card", "4096"]].concat(),
    );
}

#[test]
fn cards_of_other_systems() {
    let folder = folder_with("format-others", &[]);
    let fat16 = ["-F", "16"];
    by_mkfs(&folder, &fat16);
    taken(&folder, "empty");
    by_mkfs(&folder, &["-F", "16", "-n", "WORKSHOP"]);
    taken(&folder, "only a label");
    // More reserved sectors, so that sector 1 is no FAT; other numbers of slots.
    by_mkfs(&folder, &["-F", "16", "-R", "8", "-r", "224"]);
    taken(&folder, "empty, other areas");
    by_mkfs(&folder, &["-F", "16", "-R", "8", "-r", "224"]);
    tool(&folder, "mcopy", &["-i", "card", "path", "::ROUTE.CUT"]);
    kept(&folder, "holds 1 file");

    by_mkfs(&folder, &fat16);
    tool(
        &folder,
        "mcopy",
        &["-i", "card", "path", "::Hull 7 sheer panel.cut"],
    );
    kept(&folder, "holds 1 file");
    by_mkfs(&folder, &fat16);
    tool(&folder, "mmd", &["-i", "card", "::PATHS"]);
    kept(&folder, "holds 1 directory");
    by_mkfs(&folder, &fat16);
    tool(&folder, "mmd", &["-i", "card", "::PATHS", "::OLD"]);
    for name in ["::A", "::B", "::PATHS/C"] {
        tool(&folder, "mcopy", &["-i", "card", "path", name]);
    }
    kept(&folder, "holds 2 files and 2 directories");
    // An empty file is one, a deleted file is none.
    by_mkfs(&folder, &fat16);
    folder.write("none", b"");
    tool(&folder, "mcopy", &["-i", "card", "none", "::NONE"]);
    kept(&folder, "holds 1 file");
    by_mkfs(&folder, &fat16);
    tool(&folder, "mcopy", &["-i", "card", "path", "::A"]);
    tool(&folder, "mdel", &["-i", "card", "::A"]);
    taken(&folder, "a deleted file");
}

#[test]
fn other_file_systems() {
    let folder = folder_with("format-systems", &[]);
    by_mkfs(&folder, &["-F", "12", "-s", "8"]);
    kept(&folder, "holds another file system (FAT12)");
    by_mkfs(&folder, &["-F", "32"]);
    kept(&folder, "holds another file system (FAT32)");
    for (at, mark, name) in [
        (3, &b"EXFAT   "[..], "exFAT"),
        (3, b"NTFS    ", "NTFS"),
        (0, b"XFSB", "XFS"),
        (1_080, &[0x53, 0xEF], "ext2, ext3 or ext4"),
        (65_600, b"_BHRfS_M", "Btrfs"),
    ] {
        let mut disk = vec![0; 4_200 * 512];
        disk[at..at + mark.len()].copy_from_slice(mark);
        folder.write("card", &disk);
        kept(&folder, &format!("holds another file system ({name})"));
    }
    // Anything within the first megabyte; a first sector of zeros alone is no sign that nothing is there.
    for at in [0, 511, 512, 40_000, (1 << 20) - 1] {
        let mut disk = vec![0; 4_200 * 512];
        disk[at] = 1;
        folder.write("card", &disk);
        kept(&folder, "holds something that is no FAT16 card");
    }
    folder.write("card", &points(4_200 * 512));
    kept(&folder, "holds something that is no FAT16 card");
    folder.write("card", &vec![0; 4_200 * 512]);
    taken(&folder, "zeros");
}

/// Own cards: empty ones are formatted again, those with files or with something to recover are not.
#[test]
fn own_cards() {
    let folder = folder_with("format-own", &card_k());
    taken(&folder, "empty");
    taken(&folder, "just formatted");
    let with_file = card_with_route(1_300);
    folder.write("card", &with_file);
    kept(&folder, "holds 1 file");
    folder.write("card", &with_file);
    folder.lfat("rm card ROUTE.CUT").done();
    taken(&folder, "a removed file");

    // A create that is pending on an empty card: no system lists a file yet, and recovery makes it.
    let mut pending = card_k();
    reference::create(&mut pending, ROUTE, AT, 1);
    folder.write("card", &pending);
    folder.lfat("ls card").failed(1, "UNCLEAN");
    kept(&folder, "holds a save that was cut");
    let mut half = card_k();
    half[17 * 512 + 200..][..2].copy_from_slice(&[0xFF, 0xFF]);
    folder.write("card", &half);
    folder.lfat("ls card").failed(1, "UNCLEAN");
    kept(&folder, "holds a save that was cut");
    let mut record = card_k();
    record[70 * 512] = b'X';
    folder.write("card", &record);
    folder.lfat("ls card").failed(1, "RECORD");
    kept(&folder, "holds a save that was cut");

    // What other grounds refuse.
    let mut unclean = with_file.clone();
    reference::append(&mut unclean, ROUTE, &points(1_300), AT, 5);
    let mut no_log = with_file.clone();
    (2..10).for_each(|cluster| set_fats(&mut no_log, cluster, 0));
    let mut chain = with_file.clone();
    set_fats(&mut chain, 11, 0);
    for (ground, card) in [("UNCLEAN", unclean), ("LOGAREA", no_log), ("CHAIN", chain)] {
        folder.write("card", &card);
        folder.lfat("get card ROUTE.CUT").failed(1, ground);
        kept(&folder, "holds 1 file");
    }
    let mut after = card_k();
    after[33 * 512 + 40 * 32..][..11].copy_from_slice(ROUTE);
    folder.write("card", &after);
    folder.lfat("ls card").failed(1, "ROOT");
    kept(&folder, "holds 1 file");
    let mut lost = card_with_route(1_300);
    lost[33 * 512] = 0xE5;
    folder.write("card", &lost);
    assert_eq!(folder.lfat("ls card").done().text(), "");
    kept(&folder, "lists no file, but 3 of its clusters are in use");
    let mut bad = card_k();
    set_fats(&mut bad, 100, 0xFFF7);
    folder.write("card", &bad);
    taken(&folder, "a bad cluster");
    let mut longer = card_with_route(1_300);
    longer[19..21].copy_from_slice(&4_151_u16.to_le_bytes());
    folder.write("card", &longer);
    folder.lfat("ls card").failed(1, "WINDOW");
    kept(&folder, "holds the beginning of a FAT16 card");
}

/// A directory alone, in the own card too; and a full root directory.
#[test]
fn many_files() {
    let mut card = card_k();
    reference::create(&mut card, b"SUB        ", AT, ALL);
    card[33 * 512 + 11] = 0x10;
    let folder = folder_with("format-many", &card);
    kept(&folder, "holds 1 directory");
    let mut card = card_k();
    for number in 0..512 {
        let name = format!("{number:<11}");
        reference::create(&mut card, name.as_bytes(), AT, ALL);
    }
    folder.write("card", &card);
    kept(&folder, "holds 512 files");
}

/// What a format that was cut leaves is told from what else begins with zeros.
#[test]
fn no_cut_format() {
    let folder = folder_with("format-no-cut", &[]);
    folder.lfat("format new --log 8").done();
    let mut cut = folder.read("new");
    cut[..512].fill(0);
    folder.write("card", &cut);
    taken(&folder, "a cut format");
    let fat = 512;
    for (what, at, bytes) in [
        ("a file's cluster", fat + 2 * 10, &[0xFF, 0xFF][..]),
        ("a cluster at the end", fat + 510, &[0x03, 0x01]),
        ("two logs", fat + 2 * 20, &[0xF6, 0xFF]),
        ("another media byte", fat, &[0xF0, 0xFF]),
        ("a free cluster before the log", fat + 4, &[0, 0]),
        ("no log", fat + 4, &[0; 16]),
        ("a boot sector of a kind", 510, &[0x55, 0xAA]),
    ] {
        let mut other = cut.clone();
        other[at..at + bytes.len()].copy_from_slice(bytes);
        folder.write("card", &other);
        let run = folder
            .lfat("format card")
            .failed(1, "card holds something that is no FAT16 card");
        assert_eq!(run.errors().lines().count(), 1, "{what}");
        assert!(folder.read("card") == other, "{what}");
    }
}
