// Links liblfat.a: from the folder LFAT_LIB_DIR, or from where `.ci/build` writes it.
use std::env;
use std::path::PathBuf;

fn main() {
    println!("cargo::rerun-if-env-changed=LFAT_LIB_DIR");
    let folder = match env::var_os("LFAT_LIB_DIR") {
        Some(folder) => PathBuf::from(folder),
        None => PathBuf::from(env::var_os("CARGO_MANIFEST_DIR").unwrap_or_default())
            .join("../../target/staticlib"),
    };
    let library = folder.join("liblfat.a");
    println!("cargo::rerun-if-changed={}", library.display());
    if env::var("CARGO_CFG_TARGET_ARCH").as_deref() != Ok("x86_64") {
        println!("cargo::error=the library is for x86-64 only");
    }
    if !library.exists() {
        println!(
            "cargo::error={} is missing: run `.ci/build`, or set LFAT_LIB_DIR to the folder of a built library",
            library.display()
        );
    }
    println!("cargo::rustc-link-search=native={}", folder.display());
    println!("cargo::rustc-link-lib=static=lfat");
    // For the tests that look into the library.
    println!("cargo::rustc-env=LFAT_LIBRARY={}", library.display());
}
