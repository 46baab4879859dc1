//! `format`: what it makes, by which numbers, and what a cut leaves.

use crate::refusals::{folder_with, ALL_COMMANDS};
use crate::support::cli::Folder;
use crate::support::long::lfat;
use lfat_card::{calls, Answer, Form, Refusal};
use lfat_disk::volume::Volume;
use std::fs;

/// The bytes of a card that a format of these numbers makes, over bytes that are all 0xA5.
fn made(form: Form) -> Vec<u8> {
    let mut card = vec![0xA5; form.total as usize * 512];
    let Form {
        total,
        per_cluster,
        log_clusters,
    } = form;
    let answer = calls::format(&mut card, total, per_cluster, log_clusters, u32::MAX);
    assert!(matches!(answer, Answer::Done(_)), "{answer:?}");
    card
}

/// A number in a JSON object.
pub fn field(json: &str, name: &str) -> u64 {
    let (_, after) = json.split_once(&format!("\"{name}\": ")).expect("a field");
    let digits = after.split([',', '}']).next().expect("a number");
    digits.parse().expect("a number")
}

/// Sectors, sectors per cluster and clusters of the log.
pub fn numbers(json: &str) -> [u64; 3] {
    ["sectors", "sectors_per_cluster", "log_clusters"].map(|name| field(json, name))
}

/// A new image without any option: 4 MB, with what the call stores and zeros elsewhere.
#[test]
fn a_new_image() {
    let folder = Folder::new("format-new");
    let run = folder.lfat("format card").done();
    let line = "card is an empty card: 8192 sectors, 8095 clusters of 512 bytes, 32 of them the log, 4128256 bytes free\n";
    assert_eq!(run.text(), line);
    let form = Form::for_sectors(8_192).expect("a card");
    let mut wanted = made(form);
    wanted[129 * 512..].fill(0);
    assert!(folder.read("card") == wanted);
    assert_eq!(folder.lfat("ls card").done().text(), "");
    folder.lfat("info card").done();
    assert_eq!(folder.names(), ["card"]);
}

/// What is there is left as it was, but for the sectors that a format stores.
#[test]
fn over_an_image() {
    let folder = Folder::new("format-over");
    let past = [&[0xA5; 4_150 * 512][..], &[7; 700]].concat();
    folder.write("card", &past);
    let line = "format --yes card --size 4150s --cluster 1 --log 8";
    let run = folder.lfat(line).done();
    assert!(
        run.text()
            .contains(" 4085 clusters of 512 bytes, 8 of them the log, 2087424 bytes free\n"),
        "{}",
        run.text()
    );
    let form = Form {
        total: 4_150,
        per_cluster: 1,
        log_clusters: 8,
    };
    assert!(folder.read("card") == [&made(form)[..], &[7; 700]].concat());
    // Without a size, as large as the image: its last 700 bytes are one sector more.
    folder.lfat("format card").done();
    let run = folder.lfat("info card").done();
    assert!(
        run.text()
            .contains("sectors              4151 of 512 bytes\n"),
        "{}",
        run.text()
    );
}

/// Sizes in all their forms.
#[test]
fn sizes_in_words() {
    let folder = Folder::new("format-words");
    for (options, sectors, per_cluster, log) in [
        ("--size 4150s", 4_150, 1, 32),
        ("--size 2125312", 4_151, 1, 32),
        ("--size=2125311", 4_150, 1, 32),
        ("--size 2075K", 4_150, 1, 32),
        ("--size 2075k", 4_150, 1, 32),
        ("--size 3m", 6_144, 1, 32),
        ("--size 5M", 10_240, 2, 16),
        ("--size 5M --cluster 1", 10_240, 1, 32),
        ("--size 5M --cluster 512", 0, 0, 0),
        ("--size 5M --cluster 1K", 10_240, 2, 16),
        ("--size 20M --cluster 4K --log 16", 40_960, 8, 16),
        ("--size 20M --cluster 8s", 40_960, 8, 4),
        ("--size 1G --cluster 32K", 2_097_152, 64, 1),
        ("--size 1g --cluster 64 --log 2", 2_097_152, 64, 2),
        ("--size 4194304s", 4_194_144, 64, 1),
        ("--size 4194305s", 0, 0, 0),
    ] {
        let run = folder.lfat(&format!("format card --json {options}"));
        if sectors == 0 {
            run.failed(1, "lfat: SIZE: ");
            assert!(folder.names().is_empty(), "{options}");
            continue;
        }
        let json = run.done().text();
        assert_eq!(numbers(&json), [sectors, per_cluster, log], "{options}");
        let about = fs::metadata(folder.path().join("card")).expect("the card");
        assert_eq!(about.len(), sectors * 512);
        fs::remove_file(folder.path().join("card")).expect("removed");
    }
    for (option, word) in [
        ("--size", ""),
        ("--size", "K"),
        ("--size", "-1"),
        ("--size", "+4150s"),
        ("--size", "2.5M"),
        ("--size", "16MB"),
        ("--size", "4150 s"),
        ("--size", "16T"),
        ("--size", "18446744073709551616"),
        ("--size", "18014398509481984G"),
        ("--cluster", "4KiB"),
        ("--cluster", "many"),
    ] {
        let run = lfat(&folder, &["format", "card", &format!("{option}={word}")]);
        run.failed(
            2,
            &format!("{option}: '{word}' is no size as 16M or 4150s; usage: lfat format IMAGE"),
        );
    }
    folder
        .lfat("format card --log 2K")
        .failed(2, "--log: '2K' is no number");
    folder
        .lfat("format card --log -1")
        .failed(2, "--log: '-1' is no number");
    assert!(!folder.path().join("card").exists());
}

/// With every limit: before the first store what was there, then BOOT to every command, and at the end the new card. A format of what
/// was cut needs no --yes.
#[test]
fn cut_and_formatted_again() {
    let folder = folder_with("format-cut", &[]);
    folder.lfat("format --size 4150s --log 8 new").done();
    let fresh = folder.read("new");
    folder.lfat("put new ROUTE.CUT path").done();
    let with_file = folder.read("new");
    for limit in [0, 1, 2, 17, 18, 34, 50, 66, 72, 73, 74] {
        folder.write("card", &with_file);
        let run = folder.lfat(&format!("format card --log 8 --yes --limit {limit}"));
        if limit < 74 {
            run.failed(
                1,
                &format!("STOPPED after {limit} stores, as asked. Run 'lfat format' next.\n"),
            );
        }
        match limit {
            0 => assert!(folder.read("card") == with_file),
            74 => assert_eq!(folder.lfat("ls card").done().text(), ""),
            _ => {
                let boot = "lfat: BOOT: the boot sector is not that of a FAT16 card that is covered. This is no FAT16 card (FAT12, FAT32 and exFAT are \
                            not covered), or a format of it was cut. 'lfat format' makes it an empty card, and all on it is lost.\n";
                for line in ALL_COMMANDS {
                    let run = folder.lfat(line).failed(1, boot);
                    assert_eq!(run.errors().lines().count(), 1, "{line}");
                }
            }
        }
        // Up to the second store the old FAT is there.
        let again = folder.lfat("format card --log 8");
        match limit {
            0 => drop(again.failed(1, "card holds 1 file: ")),
            1 => drop(again.failed(1, "card holds something that is no FAT16 card: ")),
            _ => {
                again.done();
                // What a format does not store is as it was.
                let wanted = [&fresh[..73 * 512], &with_file[73 * 512..]].concat();
                assert!(folder.read("card") == wanted, "{limit}");
            }
        }
    }
}

/// A disk that fails in mid-format has the status of one that fails in mid-save, and its own line.
#[test]
fn a_disk_that_fails() {
    let folder = folder_with("format-fails", &[]);
    folder.lfat("format --size 4150s new").done();
    let fresh = folder.read("new");
    for writes in 0..3 {
        folder.write("card", &vec![0; 4_150 * 512]);
        let run = folder.lfat_with_writes(writes, "format card");
        let errors = run.failed(5, "card: No space left on device").errors();
        assert!(
            errors.ends_with("The card is cut in mid-format: run 'lfat format' on it again.\n"),
            "{errors}"
        );
        assert_eq!(errors.lines().count(), 1);
        folder.lfat("format card").done();
        assert!(folder.read("card") == fresh);
    }
}

/// The fewest and the most sectors, for every size of clusters, as the library has them and as the lines say.
#[test]
fn ranges() {
    let folder = Folder::new("format-ranges");
    for power in 0..7 {
        let per_cluster = 1 << power;
        let (least, most) = (65 + 4_085 * per_cluster, 544 + 65_525 * per_cluster);
        let accepts = |total: u32, log: u32| {
            calls::format(&mut [], total, per_cluster, log, 0) == Answer::Refused(Refusal::Window)
        };
        assert_eq!(
            [least - 1, least, most, most + 1].map(|total| accepts(total, 1)),
            [false, true, true, false]
        );
        let longest = 128 / per_cluster;
        assert_eq!(
            [0, 1, longest, longest + 1].map(|log| accepts(least, log)),
            [false, true, true, false]
        );
        for total in [least - 1, most + 1] {
            let run = folder.lfat(&format!(
                "format card --size {total}s --cluster {per_cluster}"
            ));
            let words = match total {
                4_149 => "4149 sectors are asked for: a FAT16 card has 4150 to 4194144 (--size 2075K to 2G).\n".to_string(),
                // Up to 2 GiB the largest card is made.
                4_194_145 => {
                    run.done();
                    fs::remove_file(folder.path().join("card")).expect("removed");
                    continue;
                }
                _ => format!(
                    "{total} sectors are asked for: with {per_cluster} per cluster a FAT16 card has {least} to {most} (--size {least}s to {most}s).\n"
                ),
            };
            run.failed(1, &words);
        }
        for log in [0, longest + 1] {
            let line = format!("format card --size {least}s --cluster {per_cluster} --log {log}");
            let words = format!(
                "With {per_cluster} sectors per cluster --log is 1 to {longest} clusters.\n"
            );
            folder.lfat(&line).failed(1, &words);
        }
        assert!(folder.names().is_empty());
        let line = format!("format card --size {least}s --cluster {per_cluster} --log {longest}");
        folder.lfat(&line).done();
        let card = folder.read("card");
        let volume = Volume::open(&card).expect("a card");
        assert_eq!(
            (volume.layout.clusters, volume.log_clusters()),
            (4_085, Some(2..2 + longest as usize))
        );
        fs::remove_file(folder.path().join("card")).expect("removed");
    }
}
