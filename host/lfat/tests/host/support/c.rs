//! Building C and C++ programs against the header and the library.

use std::path::{Path, PathBuf};
use std::process::Command;

/// The library, where `lfat-card` is linked with it too.
fn library() -> PathBuf {
    let folder = std::env::var_os("LFAT_LIB_DIR").map(PathBuf::from);
    let folder = folder.unwrap_or_else(|| top().join("target/staticlib"));
    folder.join("liblfat.a")
}

/// The top of the repository.
pub fn top() -> PathBuf {
    Path::new(env!("CARGO_MANIFEST_DIR")).join("../..")
}

/// Builds a program from one source with every warning an error. `None` if there is no such compiler.
pub fn build(compiler: &str, standard: &str, source: &Path, program: &Path) -> Option<()> {
    let output = Command::new(compiler)
        .arg(format!("-std={standard}"))
        .args(["-Wall", "-Wextra", "-Wpedantic", "-Werror", "-O2"])
        .arg("-I")
        .arg(top().join("include"))
        .arg(source)
        .arg(library())
        .arg("-o")
        .arg(program)
        .output()
        .ok()?;
    let errors = String::from_utf8_lossy(&output.stderr);
    assert!(output.status.success(), "{compiler} {standard}: {errors}");
    Some(())
}
