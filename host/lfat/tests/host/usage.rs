//! Command lines that are wrong, and files that cannot be used: a plain sentence, and an image that is left as it was.

use crate::refusals::{folder_with, ALL_COMMANDS};
use crate::support::card_with_route;
use reference::card_k;

#[test]
fn files_that_cannot_be_used() {
    let folder = folder_with("files", &card_k());
    for line in ALL_COMMANDS {
        let line = line.replacen("card", "missing", 1);
        folder.lfat(&line).failed(3, "lfat: missing: No such file");
        assert!(!folder.path().join("missing").exists());
    }
    folder
        .lfat("put card A nothing")
        .failed(3, "lfat: nothing: No such file");
    folder.lfat("fits card nothing").failed(
        3,
        "lfat: nothing: No such file or directory (os error 2); a number of bytes is digits alone\n",
    );
    folder
        .lfat("fits card .")
        .failed(3, "lfat: .: is a directory\n");
    folder
        .lfat("fits card /dev/null")
        .failed(3, "lfat: /dev/null: is no plain file");
    folder
        .lfat("append card A nothing")
        .failed(3, "nothing: No such file");
    folder.lfat("ls .").failed(3, "lfat: .: ");
    folder.lfat("recover .").failed(3, "lfat: .: ");
    folder.lfat("put card A path").done();
    folder
        .lfat("get card A -o no/such/folder")
        .failed(3, "no/such/folder: No such file");
    folder
        .lfat("rack card rm A --svg no/such/folder")
        .failed(3, "no/such/folder: No such");
}

#[test]
fn wrong_usage() {
    let card = card_with_route(1_300);
    let folder = folder_with("usage", &card);
    folder.lfat("").failed(2, "COMMAND is missing");
    folder
        .lfat("blank card")
        .failed(2, "there is no command 'blank'");
    for line in [
        "format", "ls", "get", "fits", "put", "append", "truncate", "rm", "mv", "recover", "log",
        "info", "rack",
    ] {
        let run = folder.lfat(line).failed(2, "lfat: IMAGE ");
        assert!(run.errors().contains("missing; usage: "), "{line}");
        assert!(run.errors().contains(&format!("usage: lfat {line} IMAGE")));
    }
    for (line, words) in [
        ("get card", "NAME is missing"),
        ("put card A", "FILE is missing"),
        ("put card A -f", "FILE is missing"),
        (
            "put card A path --replace=yes",
            "unknown option --replace=yes",
        ),
        ("append card ROUTE.CUT path -f", "unknown option -f"),
        ("rack card replace ROUTE.CUT", "FILE is missing"),
        (
            "rack card put ROUTE.CUT path --replace",
            "unknown option --replace",
        ),
        ("append card ROUTE.CUT", "FILE is missing"),
        ("truncate card ROUTE.CUT", "SIZE is missing"),
        ("truncate card ROUTE.CUT -1", "unknown option -1"),
        (
            "truncate card ROUTE.CUT 18446744073709551616",
            "SIZE: '18446744073709551616' is no number",
        ),
        ("fits card", "BYTES|FILE is missing"),
        ("fits card 1 path", "'path' is one word too many"),
        ("fits card -1", "unknown option -1"),
        ("fits card 1 --raw", "unknown option --raw"),
        (
            "fits card -",
            "FILE: - has no size before it is read; give a number of bytes",
        ),
        (
            "fits card 18446744073709551616",
            "BYTES: 18446744073709551616 is over 18446744073709551615, the most",
        ),
        (
            "fits card 00099999999999999999999999999999999999999999",
            "BYTES: 000999",
        ),
        ("rm card", "NAME is missing"),
        ("mv card ROUTE.CUT", "NEW is missing"),
        (
            "rm card ROUTE.CUT PANEL.CUT",
            "'PANEL.CUT' is one word too many",
        ),
        ("ls card more", "'more' is one word too many"),
        ("ls card --long", "unknown option --long"),
        ("rm card ROUTE.CUT --limit", "--limit needs a value"),
        ("rm card ROUTE.CUT --limit x", "--limit: 'x' is no number"),
        ("log card --raw=1", "unknown option --raw=1"),
        ("rack card", "OPERATION is missing"),
        ("rack card ls", "OPERATION: 'ls' is none of"),
        ("rack card truncate ROUTE.CUT", "SIZE is missing"),
        (
            "rack card rm ROUTE.CUT --depth deep",
            "--depth: 'deep' is no number",
        ),
    ] {
        let run = folder.lfat(line).failed(2, words);
        assert!(run.errors().contains("usage: lfat "), "{line}");
        assert_eq!(run.errors().lines().count(), 1, "{line}: one line");
        assert!(folder.read("card") == card, "{line}");
    }
}
