//! The folder that LFAT_LIB_DIR names is the one that the library is linked from.

use std::fs;
use std::path::{Path, PathBuf};
use std::process::{Command, Output};

/// Builds the wrapper with a folder of the library, in a folder of its own.
fn build(folder: &Path) -> Output {
    Command::new(env!("CARGO"))
        .args([
            "build",
            "--offline",
            "--package",
            "lfat-card",
            "--message-format=json",
        ])
        .arg("--manifest-path")
        .arg(concat!(env!("CARGO_MANIFEST_DIR"), "/Cargo.toml"))
        .arg("--target-dir")
        .arg(folder.join("target"))
        .env("LFAT_LIB_DIR", folder)
        .output()
        .expect("cargo runs")
}

fn fresh_folder() -> PathBuf {
    let folder = Path::new(env!("CARGO_TARGET_TMPDIR")).join("library-folder");
    let _ = fs::remove_dir_all(&folder);
    fs::create_dir_all(&folder).expect("a folder");
    folder
}

#[test]
fn library_folder() {
    let folder = fresh_folder();
    let missing = build(&folder);
    let said = String::from_utf8_lossy(&missing.stderr);
    assert!(
        !missing.status.success()
            && said.contains("liblfat.a is missing")
            && said.contains("LFAT_LIB_DIR"),
        "{said}"
    );

    fs::copy(env!("LFAT_LIBRARY"), folder.join("liblfat.a")).expect("a copy");
    let found = build(&folder);
    let said = String::from_utf8_lossy(&found.stderr);
    assert!(found.status.success(), "{said}");
    let messages = String::from_utf8_lossy(&found.stdout);
    let searched = format!("\"linked_paths\":[\"native={}\"]", folder.display());
    assert!(messages.contains(&searched), "{messages}");
    fs::remove_dir_all(folder).expect("removed");
}
