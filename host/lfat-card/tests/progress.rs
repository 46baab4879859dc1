//! `.ci/prove-progress`, with a stand-in for rt: a line for each crate, pages only of what is not proved, rt's exit status.

use std::fs;
use std::os::unix::fs::PermissionsExt;
use std::path::Path;
use std::process::Command;

const CRATES: &str =
    "# three of four are needed\none:\ntwo: one\nother: one two\ntop: two # and one\n";

/// What the script prints and ends with, where rt is a script with these lines.
fn run(name: &str, rt: &str) -> (String, Option<i32>) {
    let folder = Path::new(env!("CARGO_TARGET_TMPDIR")).join(format!("progress-{name}"));
    fs::create_dir_all(folder.join("crates/top")).expect("a folder");
    fs::write(folder.join("crates.txt"), CRATES).expect("crates.txt");
    let program = folder.join("rt");
    fs::write(&program, format!("#!/bin/sh\n{rt}")).expect("a stand-in");
    fs::set_permissions(&program, fs::Permissions::from_mode(0o755)).expect("a program");
    let path = format!(
        "{}:{}",
        folder.display(),
        std::env::var("PATH").unwrap_or_default()
    );
    let output = Command::new(concat!(
        env!("CARGO_MANIFEST_DIR"),
        "/../../.ci/prove-progress"
    ))
    .arg("top")
    .current_dir(&folder)
    .env("PATH", path)
    .output()
    .expect("the script runs");
    fs::remove_dir_all(folder).expect("removed");
    let text = String::from_utf8_lossy(&output.stdout);
    // The stand-in may run across the turn of a second.
    let text = text.replace(" 1 s", " 0 s");
    (text, output.status.code())
}

/// What rt prints of a crate: its functions, and last whether it is proved.
fn page(name: &str, proved: bool) -> String {
    let verdict = if proved {
        "proved functions=1"
    } else {
        "not-proved"
    };
    format!("echo 'fn {name}::f: proved' >&2\necho 'crate {name}: modules loaded=0 checked=9'\necho 'logic={verdict}'\n")
}

#[test]
fn all_proved() {
    // Of what has not changed since it was proved rt prints nothing.
    let rt = format!(
        "[ \"$*\" = lib ] || exit 9\n{}{}",
        page("one", true),
        page("top", true)
    );
    let lines = "  1 of 3  one          0 s\n  2 of 3  two          unchanged\n  3 of 3  top          0 s, and built\n";
    assert_eq!(run("proved", &rt), (lines.to_string(), Some(0)));
}

#[test]
fn a_dependency_not_proved() {
    let rt = format!(
        "{}echo 'two/src/lib.rt:3:1: error: no'\n{}echo 'rt: the library two did not build, so nothing above it was checked'\nexit 1\n",
        page("one", true),
        page("two", false)
    );
    let lines = "  1 of 3  one          0 s\ntwo/src/lib.rt:3:1: error: no\nfn two::f: proved\n\
                 crate two: modules loaded=0 checked=9\nlogic=not-proved\n\
                 rt: the library two did not build, so nothing above it was checked\n";
    assert_eq!(run("dependency", &rt), (lines.to_string(), Some(1)));
}

#[test]
fn the_crate_itself_not_proved() {
    let rt = format!(
        "{}{}echo 'top/src/lib.rt:9:1: error: no'\nexit 3\n",
        page("one", true),
        page("two", true)
    );
    let lines =
        "  1 of 3  one          0 s\n  2 of 3  two          0 s\ntop/src/lib.rt:9:1: error: no\n";
    assert_eq!(run("itself", &rt), (lines.to_string(), Some(3)));
}
