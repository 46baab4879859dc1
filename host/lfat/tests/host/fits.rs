//! `fits`: yes and no by exit status and in one line, numbers and files, and a put that does as was told. Needs mtools.

use crate::refusals::folder_with;
use crate::support::cli::{Folder, Run};
use crate::support::random::Random;
use crate::support::{card_with_route, points, set_fats, spec, ALL, PANEL};
use reference::card_k;
use std::ffi::OsStr;
use std::fs::File;
use std::os::unix::ffi::OsStrExt;
use std::os::unix::fs::symlink;
use std::process::Command;
use testkit::mtools::free_bytes;
use testkit::AT;

/// It says no: status 1, one line on standard output, and nothing went wrong.
fn said_no(run: Run) -> String {
    assert_eq!((run.status(), run.errors().as_str()), (1, ""));
    run.text()
}

/// ROUTE.CUT has clusters 10, 11 and 12; 4,074 are free.
#[test]
fn yes_and_no() {
    let card = card_with_route(1_300);
    let folder = folder_with("fits", &card);
    for (word, line) in [
        ("0", "yes: 0 bytes in no cluster\n"),
        (
            "1",
            "yes: 1 byte in 1 cluster of 512 bytes, up to cluster 13\n",
        ),
        (
            "512",
            "yes: 512 bytes in 1 cluster of 512 bytes, up to cluster 13\n",
        ),
        (
            "513",
            "yes: 513 bytes in 2 clusters of 512 bytes, up to cluster 14\n",
        ),
        (
            "0000513",
            "yes: 513 bytes in 2 clusters of 512 bytes, up to cluster 14\n",
        ),
        (
            "path",
            "yes: 1300 bytes in 3 clusters of 512 bytes, up to cluster 15\n",
        ),
        (
            "2085888",
            "yes: 2085888 bytes in 4074 clusters of 512 bytes, up to cluster 4086\n",
        ),
    ] {
        let run = folder.lfat(&format!("fits card {word}")).done();
        assert_eq!(run.text(), line);
    }
    for (word, line) in [
        ("2085889", "no: 2085889 bytes in 4075 clusters of 512 bytes; 4074 free, at most 2085888 bytes fit\n"),
        (
            "18446744073709551615",
            "no: 18446744073709551615 bytes in 36028797018963968 clusters of 512 bytes; 4074 free, at most 2085888 bytes fit\n",
        ),
    ] {
        assert_eq!(said_no(folder.lfat(&format!("fits card {word}"))), line);
    }
    assert!(folder.read("card") == card, "it is only asked");
    // Another program that reads the card is not in the way.
    let file = File::open(folder.path().join("card")).expect("the card");
    file.lock_shared().expect("a lock");
    folder.lfat("fits card 1").done();
}

#[test]
fn full_card() {
    let mut card = card_k();
    (10..4_087).for_each(|cluster| set_fats(&mut card, cluster, 0xFFF7));
    let folder = folder_with("fits-full", &card);
    folder.write("none", b"");
    for word in ["0", "none"] {
        let run = folder.lfat(&format!("fits card {word}")).done();
        assert_eq!(run.text(), "yes: 0 bytes in no cluster\n");
    }
    assert_eq!(
        said_no(folder.lfat("fits card 1")),
        "no: 1 byte in 1 cluster of 512 bytes; 0 free, at most 0 bytes fit\n"
    );
    folder.lfat("put card NONE none").done();
    folder.lfat("put card PATH path").failed(1, "NOSPACE");
}

/// Digits alone are a number, though there is a file of that name; anything else is a file.
#[test]
fn numbers_and_files() {
    let folder = folder_with("fits-words", &card_k());
    for name in ["700", "+700", "7_00", "700.", "0x10", "-700", "sub"] {
        folder.write(name, &points(1_300));
    }
    symlink("path", folder.path().join("link")).expect("a link");
    let large = File::create(folder.path().join("large")).expect("a file");
    large.set_len(1 << 40).expect("a file of holes");
    for (line, size) in [
        ("fits card 700", 700),
        ("fits card ./700", 1_300),
        ("fits card +700", 1_300),
        ("fits card 7_00", 1_300),
        ("fits card 700.", 1_300),
        ("fits card 0x10", 1_300),
        ("fits card -- -700", 1_300),
        ("fits -- card 700", 700),
        ("fits --wait card link", 1_300),
    ] {
        let run = folder.lfat(line).done();
        let words = format!("yes: {size} bytes in ");
        assert!(run.text().starts_with(&words), "{line}: {}", run.text());
    }
    let text = said_no(folder.lfat("fits card large"));
    assert!(text.starts_with("no: 1099511627776 bytes in 2147483648 clusters of 512"));
    // A name that is no text, and none at all.
    let odd = OsStr::from_bytes(b"\xFF\xFE");
    std::fs::write(folder.path().join(odd), points(600)).expect("a file");
    let run = folder.lfat_words(&["fits".as_ref(), "card".as_ref(), odd]);
    assert!(run
        .done()
        .text()
        .starts_with("yes: 600 bytes in 2 clusters"));
    let run = folder.lfat_words(&["fits".as_ref(), "card".as_ref(), "".as_ref()]);
    run.failed(3, "lfat: : No such file");
}

/// A refusal is no answer: status 1 as for a no, but told on standard error, and nothing on standard output.
#[test]
fn refusals_are_no_answers() {
    let mut cut = card_with_route(1_300);
    reference::append(&mut cut, b"ROUTE   CUT", &points(1_300), AT, 6);
    let folder = folder_with("fits-refused", &cut);
    for word in ["0", "1", "99999999999", "path"] {
        let run = folder.lfat(&format!("fits card {word}"));
        let run = run
            .failed(1, "lfat: UNCLEAN: ")
            .failed(1, "Run 'lfat recover' first.");
        assert_eq!(run.bytes(), b"", "{word}");
    }
    folder.lfat("recover card").done();
    folder.lfat("fits card path").done();
}

/// Cards of several cluster sizes, nearly full by turns: what is told is what put, and put over a file, then do.
#[test]
fn as_put_does() {
    let mut random = Random::new(0x9B05_688C_2B3E_6C1F);
    for sectors_per_cluster in [1, 4, 16] {
        let cluster = usize::from(sectors_per_cluster) * 512;
        let mut card = spec(sectors_per_cluster).build();
        let mut free = Vec::new();
        for number in 4..4_087 {
            match random.one_in(500) || number == 4_086 {
                true => free.push(number),
                false => set_fats(&mut card, number, 0xFFF7),
            }
        }
        reference::create(&mut card, PANEL, AT, ALL);
        let folder = folder_with("fits-put", &card);
        for clusters in [1, free.len() / 2, free.len(), free.len() + 1] {
            for bytes in [(clusters - 1) * cluster + 1, clusters * cluster] {
                folder.write("data", &vec![7; bytes]);
                let asked = folder.lfat("fits card data");
                assert_eq!(
                    folder.lfat(&format!("fits card {bytes}")).text(),
                    asked.text()
                );
                let Some(highest) = free.get(clusters - 1) else {
                    let most = format!(
                        "; {} free, at most {} bytes fit\n",
                        free.len(),
                        free.len() * cluster
                    );
                    assert!(said_no(asked).ends_with(&most));
                    folder.lfat("put card NEW data").failed(1, "NOSPACE");
                    folder
                        .lfat("put -f card PANEL.CUT data")
                        .failed(1, "NOSPACE");
                    continue;
                };
                let text = asked.done().text();
                assert!(
                    text.ends_with(&format!(", up to cluster {highest}\n")),
                    "{text}"
                );
                for line in ["put card NEW data", "put -f card PANEL.CUT data"] {
                    folder.lfat(line).done();
                    folder.write("card", &card);
                }
            }
        }
    }
}

/// What mtools says a card has free, in bytes.
fn free_by_mdir(folder: &Folder) -> u64 {
    let output = Command::new("mdir")
        .args(["-i", "card", "::"])
        .env("MTOOLS_SKIP_CHECK", "1")
        .current_dir(folder.path())
        .output()
        .expect("mtools is there");
    free_bytes(&output.stdout)
}

/// mcopy fills a card and deletes a file in the middle: the room is what mdir says is free, and mcopy too goes by it.
#[test]
fn filled_by_mtools() {
    let folder = folder_with("fits-mtools", &[]);
    let mtools = |program: &str, words: &[&str]| {
        let output = Command::new(program)
            .args([&["-i", "card"], words].concat())
            .env("MTOOLS_SKIP_CHECK", "1")
            .current_dir(folder.path())
            .output();
        output.expect("mtools is there").status.success()
    };
    std::fs::remove_file(folder.path().join("card")).expect("removed");
    folder
        .lfat("format card --size 16405s --cluster 4 --log 2")
        .done();
    // Clusters 4 to 4,086 are free: 4,083 of 2,048 bytes.
    assert_eq!(free_by_mdir(&folder), 4_083 * 2_048);
    folder.write("gap", &points(10_000));
    folder.write("rest", &vec![7; 4_076 * 2_048]);
    for name in ["gap", "rest"] {
        assert!(mtools(
            "mcopy",
            &[name, &format!("::{}.CUT", name.to_uppercase())]
        ));
    }
    assert_eq!(free_by_mdir(&folder), 2 * 2_048);
    folder.lfat("fits card 4096").done();
    said_no(folder.lfat("fits card 4097"));
    assert!(mtools("mdel", &["::GAP.CUT"]));
    let free = free_by_mdir(&folder);
    assert_eq!(free, 7 * 2_048);

    let run = folder.lfat(&format!("fits card {free}")).done();
    assert!(
        run.text().ends_with(", up to cluster 4086\n"),
        "{}",
        run.text()
    );
    let run = folder.lfat("fits card 10000").done();
    assert!(run
        .text()
        .ends_with(" in 5 clusters of 2048 bytes, up to cluster 8\n"));
    said_no(folder.lfat(&format!("fits card {}", free + 1)));
    folder.write("more", &vec![8; free as usize + 1]);
    folder.lfat("put card MORE.CUT more").failed(1, "NOSPACE");
    assert!(!mtools("mcopy", &["more", "::MORE.CUT"]));
    mtools("mdel", &["::MORE.CUT"]);
    folder.write("more", &vec![8; free as usize]);
    folder.lfat("put card MORE.CUT more").done();
    assert_eq!(free_by_mdir(&folder), 0);
    said_no(folder.lfat("fits card 1"));
    folder.lfat("fits card 0").done();
    let check = Command::new("fsck.fat")
        .args(["-n", "card"])
        .env("PATH", "/usr/sbin:/usr/bin:/sbin:/bin")
        .current_dir(folder.path())
        .output();
    let text = String::from_utf8_lossy(&check.expect("dosfstools are there").stdout).into_owned();
    assert!(
        !text.contains("MORE.CUT") && !text.contains("REST.CUT"),
        "{text}"
    );
}
