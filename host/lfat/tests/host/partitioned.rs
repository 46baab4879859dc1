//! Cards with a partition table, from the command line.

use crate::refusals::folder_with;
use crate::support::{card_with_route, points};
use reference::card_k;

const FIRST: usize = 2_048;

/// A disk with partitions: 1 is of another system, 2 is the card.
fn disk(card: &[u8]) -> Vec<u8> {
    let mut disk = vec![0; (FIRST + 4_200) * 512];
    for (index, kind, first, count) in [(0, 0x83, 100_u32, 200_u32), (1, 0x06, 2_048, 4_150)] {
        let at = 446 + index * 16;
        disk[at + 4] = kind;
        disk[at + 8..at + 12].copy_from_slice(&first.to_le_bytes());
        disk[at + 12..at + 16].copy_from_slice(&count.to_le_bytes());
    }
    disk[510..512].copy_from_slice(&[0x55, 0xAA]);
    disk[FIRST * 512..][..card.len()].copy_from_slice(card);
    disk
}

#[test]
fn every_command() {
    let folder = folder_with("partitions", &disk(&card_k()));
    folder.lfat("put card ROUTE.CUT path").done();
    folder.lfat("put card:2 PANEL.CUT path").done();
    folder
        .lfat("append card PANEL.CUT path --partition 2")
        .done();
    folder
        .lfat("truncate card --partition=2 PANEL.CUT 2000")
        .done();
    folder.lfat("mv card:2 PANEL.CUT KEEL").done();
    let wanted = "      1300  ROUTE.CUT\n      2000  KEEL\n";
    for image in ["card", "card:2", "--partition 2 card"] {
        assert_eq!(folder.lfat(&format!("ls {image}")).done().text(), wanted);
    }
    assert_eq!(
        folder.lfat("get card ROUTE.CUT").done().bytes(),
        points(1_300)
    );
    // Clusters 10 to 12 and 13 to 16 are taken.
    let wanted = "yes: 1300 bytes in 3 clusters of 512 bytes, up to cluster 19\n";
    for image in ["card", "card:2", "--partition 2 card"] {
        let run = folder.lfat(&format!("fits {image} path")).done();
        assert_eq!(run.text(), wanted, "{image}");
    }
    folder
        .lfat("rm card:2 KEEL --limit 3")
        .failed(1, "STOPPED after 3");
    folder.lfat("ls card").failed(1, "UNCLEAN");
    folder.lfat("recover card").done();
    folder.lfat("rm card ROUTE.CUT").done();
    assert_eq!(folder.lfat("ls card").done().text(), "");
    folder.lfat("log card").done();
    let info = folder.lfat("info card").done().text();
    assert!(info.starts_with("partition            2, from sector 2048\n"));
    folder.lfat("rack card create A --random 1").done();
    folder.lfat("put -f card:2 PANEL.CUT path").done();
    folder.lfat("put -f card:2 PANEL.CUT path").done();
    folder
        .lfat("rack card:2 replace PANEL.CUT path --random 1")
        .done();
    let after = folder.read("card");
    let before = disk(&card_k());
    assert!(after[..FIRST * 512] == before[..FIRST * 512]);
    assert!(after[(FIRST + 4_150) * 512..] == before[(FIRST + 4_150) * 512..]);
}

#[test]
fn what_is_not_there() {
    let card = disk(&card_with_route(1_300));
    let folder = folder_with("no-partition", &card);
    let one = |line: &str, status, words: &str| {
        let run = folder.lfat(line).failed(status, words);
        assert_eq!(run.errors().lines().count(), 1, "{line}");
        assert!(folder.read("card") == card);
    };
    one(
        "ls card:3",
        2,
        "card: there is no partition 3; it has partitions 1 (type 0x83), 2 (type 0x06)",
    );
    one("put card:9 A path", 2, "no partition 9");
    one("fits card:9 1", 2, "no partition 9");
    one("fits card:1 1", 1, "BOOT");
    one("ls card:1", 1, "BOOT");
    one("ls card --partition many", 2, "'many' is no number");
    one("ls card:x", 3, "card:x: No such file");
    // A file of that name is meant first.
    folder.write("card:3", &card_with_route(700));
    assert_eq!(
        folder.lfat("ls card:3").done().text(),
        "       700  ROUTE.CUT\n"
    );
    folder
        .lfat("ls card:3 --partition 1")
        .failed(2, "it has no partition table");
    // None holds a card: the refusal says which there are, and how one is named.
    folder.write("other", &disk(&[]));
    let run = folder.lfat("recover other").failed(1, "BOOT");
    assert!(run
        .errors()
        .contains("it has partitions 1 (type 0x83), 2 (type 0x06). Another is named as other:N;"));
}
