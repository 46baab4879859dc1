//! Memory: no more than the tables of a card, whatever its size, and no file without an end.

use crate::support::cli::Folder;
use crate::support::points;
use std::fs::File;
use std::process::Stdio;

/// The most memory that a command had, in kB.
fn peak(folder: &Folder, line: &str) -> usize {
    let program = "import resource, subprocess, sys\n\
         subprocess.run(sys.argv[1:], check=True, stdout=subprocess.DEVNULL)\n\
         print(resource.getrusage(resource.RUSAGE_CHILDREN).ru_maxrss)\n";
    folder.write("peak.py", program.as_bytes());
    let lfat = env!("CARGO_BIN_EXE_lfat");
    let run = folder.run("python3", &format!("peak.py {lfat} {line}"), Stdio::null());
    run.done().text().trim().parse().expect("a number")
}

#[test]
fn a_large_file() {
    let folder = Folder::new("memory");
    folder.lfat("format card --size 128M").done();
    let data = points(48 << 20);
    folder.write("large", &data);
    folder.write("small", &data[..100_000]);
    // The file itself is mapped, and the library's copy of it is in a file too: both count as long as there is room for them.
    let put = peak(&folder, "put card LARGE large");
    assert!(put < 2 * (48 << 10) + 12_000, "{put} kB");
    for line in [
        "ls card",
        "get card LARGE",
        "get card LARGE -o back",
        "append card LARGE small",
        "truncate card LARGE 50331648",
        "put card SMALL small",
        "put --replace card SMALL small",
        "rack card replace SMALL small --random 1",
        "rack card append LARGE small --random 1",
        "rm card LARGE --limit 70",
    ] {
        if line.ends_with("70") {
            folder.lfat(line).failed(1, "STOPPED");
            continue;
        }
        let most = peak(&folder, line);
        assert!(most < 20_000, "{line}: {most} kB");
    }
    assert!(folder.read("back") == data);
    assert!(peak(&folder, "recover card") < 20_000);
    // Nothing of the old bytes is read, and the new ones are held as those of a new file are.
    let over = peak(&folder, "put -f card LARGE large");
    assert!(over < 2 * (48 << 10) + 12_000, "{over} kB");
    assert!(peak(&folder, "put -f card LARGE small") < 20_000);
}

/// The largest card takes no more memory than its tables.
#[test]
fn a_new_card() {
    let folder = Folder::new("memory-format");
    for line in [
        "format card --size 2G",
        "format card",
        "rack card format --depth 0 --random 0",
    ] {
        let most = peak(&folder, line);
        assert!(most < 20_000, "{line}: {most} kB");
    }
}

/// A source without an end does not fit, and is not read to the end that it has not.
#[test]
fn an_endless_file() {
    let folder = Folder::new("endless");
    folder.lfat("format card").done();
    let card = folder.read("card");
    folder.lfat("put card A /dev/zero").failed(1, "NOSPACE");
    folder.lfat("put -f card A /dev/zero").failed(1, "NOSPACE");
    let zeros = File::open("/dev/zero").expect("zeros");
    let run = folder.run(env!("CARGO_BIN_EXE_lfat"), "put card A -", zeros.into());
    run.failed(1, "NOSPACE");
    folder.lfat("put card A .").failed(3, "Is a directory");
    assert!(folder.read("card") == card);
}
