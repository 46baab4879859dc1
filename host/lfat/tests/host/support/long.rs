//! Commands with long names in their words, and what other programs find.

use super::cli::{Folder, Run};
use super::points;
use std::ffi::OsStr;
use std::process::Command;

pub const HULL: &str = "Hull 7 sheer panel.cut";

/// Runs lfat with these words.
pub fn lfat(folder: &Folder, words: &[&str]) -> Run {
    let words: Vec<&OsStr> = words.iter().map(OsStr::new).collect();
    folder.lfat_words(&words)
}

pub fn tool(folder: &Folder, program: &str, words: &[&str]) -> String {
    let path = std::env::var("PATH").unwrap_or_default() + ":/usr/sbin:/sbin";
    let output = Command::new(program)
        .args(words)
        .current_dir(folder.path())
        .envs([
            ("MTOOLSRC", "/dev/null"),
            ("MTOOLS_SKIP_CHECK", "1"),
            ("LC_ALL", "C.UTF-8"),
            ("PATH", &path),
        ])
        .output()
        .expect("mtools and dosfstools are there");
    let errors = String::from_utf8_lossy(&output.stderr);
    assert!(output.status.success(), "{program} {words:?}: {errors}");
    String::from_utf8_lossy(&output.stdout).into_owned()
}

/// A folder with a new card, laid out as card K, on which ROUTE.CUT is, and the file `path`, both of 1,300 bytes.
pub fn formatted_folder(name: &str) -> Folder {
    let folder = Folder::new(name);
    folder.write("path", &points(1_300));
    folder.lfat("format card --size 4150s --log 8").done();
    folder.lfat("put card ROUTE.CUT path").done();
    folder
}

/// fsck.fat finds nothing on a new card with files. It is given a copy: the log's clusters are marked bad there, which it knows, and the
/// boot sector has a label, which it asks for.
pub fn assert_clean(folder: &Folder) {
    let mut copy = folder.read("card");
    copy[38] = 0x29;
    copy[43..54].copy_from_slice(b"NO NAME    ");
    for fat in [1, 17] {
        for cluster in 2..10 {
            copy[fat * 512 + 2 * cluster] = 0xF7;
        }
    }
    folder.write("copy", &copy);
    let text = tool(folder, "fsck.fat", &["-n", "copy"]);
    assert_eq!(text.lines().count(), 2, "{text}");
}
