//! New cards as other programs see them. Needs mtools and dosfstools.

use crate::format::{field, numbers};
use crate::refusals::folder_with;
use crate::support::cli::Folder;
use crate::support::long::{assert_clean, tool};
use crate::support::points;
use std::fs;
use std::os::unix::fs::MetadataExt;
use std::process::Command;
use testkit::mtools::free_bytes;

/// Cards of the sizes that are sold: nothing but their tables and their log is written, and mtools use them.
#[test]
fn real_sizes() {
    let folder = Folder::new("format-sizes");
    folder.write("path", &points(100_000));
    for (size, per_cluster, log, most) in [
        ("16M", 4, 8, 32_768),
        ("32M", 4, 8, 65_536),
        ("128M", 4, 8, 262_144),
        ("512M", 16, 2, 1_048_576),
        ("1G", 32, 1, 2_097_152),
        ("2G", 64, 1, 4_194_144),
    ] {
        let _ = fs::remove_file(folder.path().join("card"));
        let run = folder
            .lfat(&format!("format card --size {size} --json"))
            .done();
        let json = run.text();
        assert_eq!(numbers(&json), [most, per_cluster, log], "{size}");
        let about = fs::metadata(folder.path().join("card")).expect("the card");
        assert!(about.blocks() < 2_048, "{size}: {} blocks", about.blocks());

        let listed = tool(&folder, "mdir", &["-i", "card", "::"]);
        assert_eq!(field(&json, "free_bytes"), free_bytes(listed.as_bytes()));
        let info = tool(&folder, "minfo", &["-i", "card", "::"]);
        assert!(
            info.contains(&format!("cluster size: {per_cluster} sectors")),
            "{info}"
        );
        // What mtools put is read, and what is put mtools read.
        tool(&folder, "mcopy", &["-i", "card", "path", "::MTOOLS.CUT"]);
        assert_eq!(
            folder.lfat("get card MTOOLS.CUT").done().bytes(),
            points(100_000)
        );
        folder.lfat("put card OWN.CUT path").done();
        assert!(
            tool(&folder, "mtype", &["-i", "card", "::OWN.CUT"]).into_bytes() == points(100_000)
        );
        let found = tool(&folder, "mdir", &["-b", "-i", "card", "::"]);
        assert_eq!(found, "::/MTOOLS.CUT\n::/OWN.CUT\n");
    }
}

/// fsck.fat finds nothing, on a new card and once files are there.
#[test]
fn clean_to_fsck() {
    let folder = folder_with("format-fsck", &[]);
    folder.lfat("format --yes new --size 4150s --log 8").done();
    fs::rename(folder.path().join("new"), folder.path().join("card")).expect("renamed");
    assert_clean(&folder);
    tool(&folder, "mcopy", &["-i", "card", "path", "::MTOOLS.CUT"]);
    folder.lfat("put card OWN.CUT path").done();
    assert_clean(&folder);
    // As it stands, of the card itself fsck.fat tells the log and the missing label, and nothing else.
    let check = Command::new("fsck.fat")
        .args(["-n", "card"])
        .env("PATH", "/usr/sbin:/usr/bin:/sbin:/bin")
        .current_dir(folder.path())
        .output();
    let text = String::from_utf8_lossy(&check.expect("dosfstools are there").stdout).into_owned();
    let known = [
        "fsck.fat ",
        "Cluster ",
        "Label ''",
        "  Auto-removing",
        "Reclaimed 8 unused",
        "Leaving",
        "card: 2 files",
    ];
    let other = text
        .lines()
        .find(|line| !line.is_empty() && !known.iter().any(|start| line.starts_with(start)));
    assert_eq!(other, None, "{text}");
}

/// mkfs.fat makes clusters of the same size, where its own default is the same table.
#[test]
fn clusters_as_mkfs_makes_them() {
    let folder = Folder::new("format-mkfs");
    for kib in [16_384, 65_536, 262_144, 500_000, 1_048_576, 2_000_000] {
        for file in ["other", "card"] {
            let _ = fs::remove_file(folder.path().join(file));
        }
        tool(
            &folder,
            "mkfs.fat",
            &["-F", "16", "-C", "other", &kib.to_string()],
        );
        folder.lfat(&format!("format card --size {kib}K")).done();
        let per_cluster = |file: &str| {
            let info = folder.lfat(&format!("info {file} --json")).text();
            field(&info, "sectors_per_cluster")
        };
        assert_eq!(per_cluster("card"), per_cluster("other"), "{kib}");
    }
}
