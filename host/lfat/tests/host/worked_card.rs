//! The worked card in C: all thirteen calls.

use crate::support::c::{build, top};
use crate::support::cli::Folder;
use std::process::Stdio;

#[test]
fn all_thirteen_calls() {
    let folder = Folder::new("worked-card");
    let program = folder.path().join("worked");
    build("gcc", "c99", &top().join("examples/worked.c"), &program).expect("gcc is there");
    let run = folder.run(&program, "", Stdio::null()).done();
    let text = run.text();
    assert_eq!(text.lines().count(), 64);
    for line in [
        "    format, 3 sectors per cluster: SIZE 0",
        "    format, a sector more than there is: WINDOW 0",
        "    format, cut after 73 stores: STOPPED 73",
        "    no card until formatted: BOOT 0",
        "    format: DONE 74",
        "    fits, no bytes: DONE 0",
        "    fits 1300, in clusters 10 to 12: DONE 12",
        "    fits, a byte more: NO 0",
        "    unclean until recovered, fits: UNCLEAN 0",
        "M3  create ROUTE.CUT: DONE 3",
        "M5  append 1300, cut after 4 stores: STOPPED 4",
        "M6  append 1300, cut after 5 stores: STOPPED 5",
        "    read: DONE 1300",
        "    replace by 600, cut after 3 stores: STOPPED 3",
        "    replace by 600, cut after 4 stores: STOPPED 4",
        "    replace by 600: DONE 7",
        "    replace by nothing again: DONE 3",
        "    replace, marked read-only: LOCKED 0",
        "    append nothing, marked read-only: LOCKED 0",
        "    create with a long name: DONE 3",
        "    the long name: DONE 22",
        "    its first five characters: DONE 22",
        "    the same once more: EXISTS 0",
        "    a star in it: LONGNAME 0",
        "    append nothing: DONE 0",
        "    append nothing, a second past 2107: CLOCK 0",
        "    truncate to 0, at no date: CLOCK 0",
        "    truncate to 1401: LENGTH 0",
        "M10 rename, the ninth group: DONE 11",
        "    list, with room for two: DONE 3",
    ] {
        assert!(text.lines().any(|own| own == line), "no line {line:?}");
    }
}
