//! Files of this machine that commands write: whole or not at all, and never the card itself.

use crate::refusals::folder_with;
use crate::support::{card_with_route, points};
use std::fs;
use std::os::unix::fs::symlink;

#[test]
fn get_writes_beside_and_renames() {
    let card = card_with_route(5_000);
    let folder = folder_with("get", &card);
    let names = folder.names();
    folder.write("old", b"what was there");
    folder.lfat("get card ROUTE.CUT -o old").done();
    folder.lfat("get card ROUTE.CUT -o new").done();
    assert!(folder.read("old") == points(5_000) && folder.read("new") == points(5_000));
    assert_eq!(
        folder.lfat("get card ROUTE.CUT -o -").done().bytes(),
        points(5_000)
    );
    folder.lfat("get card ROUTE.CUT -o /dev/null").done();
    // A link stays one; what it points to is replaced.
    symlink("old", folder.path().join("link")).expect("a link");
    folder.write("old", b"again");
    folder.lfat("get card ROUTE.CUT -o link").done();
    assert!(folder.read("old") == points(5_000));
    assert!(fs::symlink_metadata(folder.path().join("link"))
        .expect("there")
        .is_symlink());
    let mut wanted = names;
    wanted.extend(["link", "new", "old"].map(str::to_string));
    wanted.sort();
    assert_eq!(folder.names(), wanted, "nothing else is left");
}

#[test]
fn a_failed_get_leaves_nothing() {
    let card = card_with_route(5_000);
    let folder = folder_with("get-failed", &card);
    folder.write("old", b"what was there");
    let names = folder.names();
    folder.lfat("get card PANEL.CUT -o old").failed(1, "ABSENT");
    folder.lfat("get card PANEL.CUT -o new").failed(1, "ABSENT");
    for file in ["old", "new"] {
        let run = folder.lfat_with_writes(0, &format!("get card ROUTE.CUT -o {file}"));
        run.failed(3, &format!("{file}: No space left"));
    }
    folder
        .lfat("get card ROUTE.CUT -o .")
        .failed(3, "directory");
    assert_eq!(folder.names(), names);
    assert_eq!(folder.read("old"), b"what was there");
}

#[test]
fn never_onto_the_card() {
    let card = card_with_route(5_000);
    let folder = folder_with("onto", &card);
    symlink("card", folder.path().join("link")).expect("a link");
    fs::hard_link(folder.path().join("card"), folder.path().join("hard")).expect("a link");
    for file in ["card", "./card", "link", "hard"] {
        let run = folder.lfat(&format!("get card ROUTE.CUT -o {file}"));
        assert_eq!(
            run.failed(2, "is the card itself").errors().lines().count(),
            1
        );
        for words in ["put card NEW.CUT", "put -f card ROUTE.CUT", "fits card"] {
            let run = folder.lfat(&format!("{words} {file}"));
            run.failed(2, "is the card itself");
        }
        assert!(folder.read("card") == card);
    }
}

#[test]
fn a_failed_format_leaves_nothing() {
    let folder = folder_with("format-failed", &[]);
    let names = folder.names();
    let run = folder.lfat_with_writes(0, "format new");
    let errors = run.failed(3, "lfat: new: No space left on device").errors();
    assert!(errors.ends_with("(os error 28)\n"), "{errors}");
    folder
        .lfat("format no/such/folder")
        .failed(3, "No such file");
    assert_eq!(folder.names(), names);
}

/// A disk that fails in mid-save has a status of its own; the card is then recovered to old or new.
#[test]
fn a_disk_that_fails() {
    for (line, start) in [
        ("append card ROUTE.CUT path", 1_300),
        ("put --replace card ROUTE.CUT path", 2_600),
    ] {
        fails(line, start);
    }
}

/// Of a command that leaves 1,300 bytes where there were 2,600, or the other way round.
fn fails(line: &str, start: usize) {
    let folder = folder_with("fails", &[]);
    let mut seen = Vec::new();
    for writes in 0.. {
        folder.write("card", &card_with_route(start));
        let run = folder.lfat_with_writes(writes, line);
        if run.status() == 0 {
            break;
        }
        let errors = run.failed(5, "card: No space left on device").errors();
        assert!(errors.contains("run 'lfat recover' on it") && errors.lines().count() == 1);
        folder.lfat("recover card").done();
        seen.push(folder.lfat("ls card").done().text());
    }
    let text = |size: usize| format!("{size:>10}  ROUTE.CUT\n");
    let (old, new) = (&text(start), &text(3_900 - start));
    let wanted = [old, old, old, old, old, new, new, new];
    assert!(
        seen.iter().all(|text| text == old || text == new),
        "{seen:?}"
    );
    assert!(
        seen.len() >= 6 && seen.len() <= wanted.len() + 1,
        "{seen:?}"
    );
    assert!(seen.iter().any(|text| text == new), "{seen:?}");
}
