//! Where `format` makes a card: partitions, disks that are larger or smaller than a card, paths that are not there.

use crate::json::check;
use crate::refusals::folder_with;
use crate::support::points;
use std::fs::{self, File, OpenOptions};
use std::path::Path;

/// A disk with partitions: 1 is of another system and holds a text, 2 is for a card, 3 is too small for one.
fn disk() -> Vec<u8> {
    let mut disk = vec![0; 20_000 * 512];
    let table = [
        (0x83, 100_u32, 200_u32),
        (0x06, 2_048, 9_000),
        (0x06, 12_000, 4_000),
    ];
    for (index, (kind, first, count)) in table.into_iter().enumerate() {
        let at = 446 + index * 16;
        disk[at + 4] = kind;
        disk[at + 8..at + 12].copy_from_slice(&first.to_le_bytes());
        disk[at + 12..at + 16].copy_from_slice(&count.to_le_bytes());
    }
    disk[510..512].copy_from_slice(&[0x55, 0xAA]);
    disk[100 * 512..][..1_000].copy_from_slice(&points(1_000));
    disk
}

#[test]
fn in_a_partition() {
    let before = disk();
    let folder = folder_with("format-partition", &before);
    let run = folder.lfat("ls card").failed(1, "BOOT");
    let remedy = "Another is named as card:N; 'lfat format card:N' makes it an empty card, and all on it is lost.\n";
    assert!(run.errors().ends_with(remedy), "{}", run.errors());
    let run = folder.lfat("format card:2").done();
    let line = "card:2 is an empty card: 9000 sectors, 4465 clusters of 1024 bytes, 16 of them the log, 4555776 bytes free\n";
    assert_eq!(run.text(), line);
    let after = folder.read("card");
    assert!(after[..2_048 * 512] == before[..2_048 * 512]);
    assert!(after[11_048 * 512..] == before[11_048 * 512..]);
    // It is found without its number too.
    folder.lfat("put card ROUTE.CUT path").done();
    folder
        .lfat("format card:2")
        .failed(1, "lfat: card:2 holds 1 file: ");
    let run = folder
        .lfat("format --partition 2 card --yes --size 4150s --json")
        .done();
    check(
        &folder,
        run.bytes(),
        "(v['partition'], v['sectors'], v['stores']) == (2, 4150, 98)",
    );
    assert!(folder
        .lfat("info card")
        .done()
        .text()
        .starts_with("partition            2, from sector 2048\nsectors              4150 of"));

    let again = folder.read("card");
    for (line, status, words) in [
        ("format card:1", 1, "lfat: SIZE: "),
        ("format card:1", 1, "card:1 has 200 sectors: a FAT16 card has 4150 to 4194144 "),
        ("format card:3 --yes", 1, "card:3 has 4000 sectors: a FAT16 card has 4150"),
        ("format card:3 --yes --size 4150s", 1, "lfat: WINDOW: "),
        ("format card:2 --yes --size 9001s", 1, "card:2 has 9000 sectors, and 9001 are asked for: give a smaller --size, or none.\n"),
        ("format card:4", 2, "there is no partition 4; it has partitions 1 (type 0x83), 2 (type 0x06), 3 (type 0x06)"),
        ("format card:2 --partition many", 2, "'many' is no number"),
    ] {
        let run = folder.lfat(line).failed(status, words);
        assert_eq!(run.errors().lines().count(), 1, "{line}");
        assert!(folder.read("card") == again, "{line}");
    }
}

/// The whole of a disk with partitions is formatted only if that is said; then there are none.
#[test]
fn over_a_partition_table() {
    let folder = folder_with("format-table", &disk());
    folder.lfat("format card").failed(
        1,
        "lfat: card has a partition table (card:1, card:2, card:3): formatting loses all of it. Give --yes if that is meant.\n",
    );
    assert!(folder.read("card") == disk());
    folder.lfat("format card --yes").done();
    assert!(folder
        .lfat("info card")
        .done()
        .text()
        .starts_with("sectors              20000 of"));
    folder
        .lfat("format card:2")
        .failed(2, "it has no partition table");

    // A GPT that is damaged is one all the same.
    let mut gpt = vec![0; 5_000 * 512];
    gpt[446 + 4] = 0xEE;
    gpt[446 + 8] = 1;
    gpt[510..512].copy_from_slice(&[0x55, 0xAA]);
    folder.write("card", &gpt);
    folder
        .lfat("format card")
        .failed(1, "lfat: card has a partition table: formatting");
}

/// A disk that is larger than any card: a line says so, and --size takes the first part of it.
#[test]
fn too_large_and_too_small() {
    let folder = folder_with("format-large", &[]);
    let file = File::create(folder.path().join("large")).expect("a file");
    file.set_len((2 << 30) + 512).expect("a long file");
    let run = folder.lfat("format large").failed(1, "lfat: SIZE: ");
    let words = "large has 4194305 sectors: a FAT16 card has 4150 to 4194144 (--size 2075K to 2G); with --size 2G the first of them are \
                 taken, and the rest stays unused.\n";
    assert!(run.errors().ends_with(words), "{}", run.errors());
    folder.lfat("format large --size 2G").done();
    assert_eq!(file.metadata().expect("there").len(), (2 << 30) + 512);
    // At 2 GiB and a little below nothing has to be said.
    for (length, sectors) in [(2_u64 << 30, 4_194_144), (4_194_143 * 512 + 511, 4_194_143)] {
        file.set_len(0)
            .and_then(|()| file.set_len(length))
            .expect("a long file");
        let run = folder.lfat("format large --json").done();
        check(&folder, run.bytes(), &format!("v['sectors'] == {sectors}"));
        assert_eq!(file.metadata().expect("there").len(), length);
    }
    for length in [0, 511, 4_149 * 512 + 511] {
        file.set_len(length).expect("a short file");
        let words = format!("large has {} sectors: a FAT16 card has 4150", length / 512);
        folder.lfat("format large --yes").failed(1, &words);
        folder.lfat("format large --yes --size 4150s").failed(
            1,
            "lfat: WINDOW: there are fewer bytes than the card has. large has ",
        );
        assert_eq!(file.metadata().expect("there").len(), length);
    }
}

/// Paths that are not there: an image is made, but no device, no partition and no folder.
#[test]
fn what_is_not_there() {
    let folder = folder_with("format-nothing", &[]);
    let names = folder.names();
    for (line, status, words) in [
        (
            "format new:2",
            3,
            "lfat: new:2: no such image, partition or device\n",
        ),
        (
            "format new --partition 2",
            3,
            "lfat: new: no such image, partition or device\n",
        ),
        (
            "format /dev/no-such-disk",
            3,
            "lfat: /dev/no-such-disk: no such image, partition or device\n",
        ),
        (
            "format no/such/folder",
            3,
            "lfat: no/such/folder: No such file or directory",
        ),
        (
            "format .",
            3,
            "lfat: .: neither an image file nor a block device\n",
        ),
        ("format . --yes", 3, "lfat: .: neither"),
        ("format new more", 2, "'more' is one word too many"),
        ("format new --clusters 4085", 2, "unknown option --clusters"),
        ("format new --yes=no", 2, "unknown option --yes=no"),
        ("format new --size", 2, "--size needs a value"),
        ("format new --limit few", 2, "--limit: 'few' is no number"),
        ("format new --size 4149s", 1, "SIZE"),
    ] {
        let run = folder.lfat(line).failed(status, words);
        assert_eq!(run.errors().lines().count(), 1, "{line}");
        assert_eq!(folder.names(), names, "{line}");
    }
    // Files of this machine that live in memory are below /dev too.
    if Path::new("/dev/shm").is_dir() {
        let path = format!("/dev/shm/lfat-{}", std::process::id());
        folder.lfat(&format!("format {path}")).done();
        fs::remove_file(path).expect("removed");
    }
    // One that is stopped is left, to be formatted again.
    folder.lfat("format new --limit 3").failed(
        1,
        "STOPPED after 3 stores, as asked. Run 'lfat format' next.",
    );
    folder.lfat("ls new").failed(1, "BOOT");
    folder.lfat("format new").done();
    folder.lfat("ls new").done();
    fs::remove_file(folder.path().join("new")).expect("removed");
    folder
        .lfat("format new --limit 0 --size 3M")
        .failed(1, "STOPPED after 0");
    assert!(folder.read("new") == vec![0; 3 << 20]);
}

/// What another program has is not formatted.
#[test]
fn in_use() {
    let folder = folder_with("format-in-use", &vec![0; 4_150 * 512]);
    let path = folder.path().join("card");
    let file = OpenOptions::new().write(true).open(path).expect("the card");
    file.lock().expect("a lock");
    folder
        .lfat("format card --yes")
        .failed(3, "card: in use by another program, or mounted.");
    folder.lfat("rack card format").failed(3, "in use");
    assert!(folder.read("card") == vec![0; 4_150 * 512]);
    drop(file);
    folder.lfat("format card").done();
}
