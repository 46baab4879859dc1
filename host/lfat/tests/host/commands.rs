//! The commands, end to end.

use crate::support::cli::Folder;
use crate::support::points;

/// A folder with an empty card and a path of 1,300 bytes.
fn start(name: &str) -> Folder {
    let folder = Folder::new(name);
    folder.lfat("format card --size 4150s --log 8").done();
    folder.write("path", &points(1_300));
    folder
}

#[test]
fn a_card_in_use() {
    let folder = start("life");
    assert_eq!(folder.lfat("ls card").done().text(), "");
    folder.lfat("put card ROUTE.CUT path").done();
    folder.lfat_from("put card PANEL.CUT -", "path").done();
    let listed = folder.lfat("ls card").done().text();
    assert_eq!(listed, "      1300  ROUTE.CUT\n      1300  PANEL.CUT\n");
    assert_eq!(
        folder.lfat("get card ROUTE.CUT").done().bytes(),
        points(1_300)
    );
    folder.lfat("get card PANEL.CUT -o copy").done();
    assert_eq!(folder.read("copy"), points(1_300));

    folder.lfat("append card ROUTE.CUT path").done();
    folder.lfat_from("append card ROUTE.CUT -", "path").done();
    let long = [points(1_300), points(1_300), points(1_300)].concat();
    assert_eq!(folder.lfat("get card ROUTE.CUT").done().bytes(), long);
    folder.lfat("truncate card ROUTE.CUT 2000").done();
    assert_eq!(
        folder.lfat("get card ROUTE.CUT").done().bytes(),
        &long[..2_000]
    );
    folder.lfat("mv card ROUTE.CUT KEEL").done();
    folder.lfat("rm card PANEL.CUT").done();
    assert_eq!(folder.lfat("ls card").done().text(), "      2000  KEEL\n");
    assert_eq!(
        folder.lfat("recover card").done().text(),
        "nothing to recover\n"
    );
}

/// `put --replace` and `-f`: longer, shorter, by nothing, from standard input, and a name that is not there.
#[test]
fn saved_over() {
    let folder = start("over");
    folder.lfat("put card PANEL.CUT path").done();
    folder.write("long", &points(40_000));
    folder.write("none", b"");
    folder.lfat("put --replace card ROUTE.CUT path").done();
    for (line, length) in [
        ("put --replace card ROUTE.CUT long", 40_000),
        ("put card ROUTE.CUT path -f", 1_300),
        ("put -f card ROUTE.CUT none", 0),
        ("put -f card ROUTE.CUT none", 0),
        ("put card -f --replace ROUTE.CUT path", 1_300),
    ] {
        folder.lfat(line).done();
        let back = folder.lfat("get card ROUTE.CUT").done();
        assert_eq!(back.bytes(), points(length), "{line}");
    }
    folder.lfat_from("put -f card ROUTE.CUT -", "long").done();
    let listed = folder.lfat("ls card").done().text();
    assert_eq!(listed, "      1300  PANEL.CUT\n     40000  ROUTE.CUT\n");
    let panel = folder.lfat("get card PANEL.CUT").done();
    assert_eq!(panel.bytes(), points(1_300));
    let log = folder.lfat("log card").done().text();
    assert!(
        log.contains(" replace committed ?OUTE.CUT slot 1 first "),
        "{log}"
    );
}

/// A save over a file that is cut, with every limit: the old bytes or the new ones, whole.
#[test]
fn saved_over_and_cut() {
    let folder = start("over-cut");
    folder.lfat("put card ROUTE.CUT path").done();
    let before = folder.read("card");
    let new: Vec<u8> = points(700).into_iter().rev().collect();
    folder.write("new", &new);
    // Two sectors of data, FAT2, the log record, FAT1, root directory, commit mark.
    for limit in 0..7 {
        folder.write("card", &before);
        folder
            .lfat(&format!("put -f card ROUTE.CUT new --limit {limit}"))
            .failed(1, &format!("STOPPED after {limit} stores"));
        folder.lfat("recover card").done();
        let wanted = if limit < 4 {
            points(1_300)
        } else {
            new.clone()
        };
        let back = folder.lfat("get card ROUTE.CUT").done();
        assert_eq!(back.bytes(), wanted, "{limit}");
    }
    folder.write("card", &before);
    folder.lfat("put -f card ROUTE.CUT new --limit 7").done();
}

/// A new name takes two calls with the option too: no file, an empty one, or the whole one.
#[test]
fn new_and_cut() {
    let folder = start("new-cut");
    let before = folder.read("card");
    for limit in 0..11 {
        folder.write("card", &before);
        folder
            .lfat(&format!(
                "put --replace card ROUTE.CUT path --limit {limit}"
            ))
            .failed(1, "STOPPED");
        folder.lfat("recover card").done();
        // Create: log record, root directory, commit mark. Append: three sectors of data, FAT2, log record ..
        let wanted = match limit {
            0 => "",
            1..=7 => "         0  ROUTE.CUT\n",
            _ => "      1300  ROUTE.CUT\n",
        };
        assert_eq!(folder.lfat("ls card").done().text(), wanted, "{limit}");
    }
    folder.write("card", &before);
    folder.lfat("put -f card ROUTE.CUT path --limit 11").done();
}

#[test]
fn info_shows_the_card() {
    let folder = start("info");
    folder.lfat("put card ROUTE.CUT path").done();
    let text = folder.lfat("info card").done().text();
    for line in [
        "sectors              4150 of 512 bytes",
        "sectors per cluster  1",
        "clusters             4085, 4074 free (2085888 bytes)",
        "FAT1                 sectors 1 to 16",
        "FAT2                 sectors 17 to 32",
        "root directory       sectors 33 to 64, 512 slots, 1 in use",
        "data                 sectors 65 to 4149",
        "log                  sectors 65 to 72, clusters 2 to 9, 2 of 8 sectors used",
        "state                clean",
    ] {
        assert!(text.lines().any(|other| other == line), "{line}\n{text}");
    }
}

/// A save that is cut, with every limit: refused until it is recovered, then old or new.
#[test]
fn cut_and_recovered() {
    let folder = start("cut");
    folder.lfat("put card ROUTE.CUT path").done();
    let before = folder.read("card");
    for limit in 0..9 {
        folder.write("card", &before);
        let words = format!("STOPPED after {limit} stores");
        folder
            .lfat(&format!("append card ROUTE.CUT path --limit {limit}"))
            .failed(1, &words);
        // Data alone does not make a card unclean.
        if limit > 4 {
            folder.lfat("ls card").failed(1, "UNCLEAN");
            let info = folder.lfat("info card").failed(1, "lfat recover");
            assert!(info.text().contains("state                UNCLEAN"));
        }
        if limit > 5 {
            folder
                .lfat("recover card --limit 1")
                .failed(1, "STOPPED after 1 stores");
        }
        folder.lfat("recover card").done();
        let size = if limit < 6 { 1_300 } else { 2_600 };
        assert_eq!(
            folder.lfat("ls card").done().text(),
            format!("{size:>10}  ROUTE.CUT\n")
        );
    }
    folder.write("card", &before);
    folder.lfat("append card ROUTE.CUT path --limit=9").done();
}

#[test]
fn help_everywhere() {
    let folder = Folder::new("help");
    let overview = folder.lfat("--help").done().text();
    assert_eq!(folder.lfat("help").done().text(), overview);
    let commands = [
        "format", "ls", "get", "fits", "put", "append", "truncate", "rm", "mv", "recover", "log",
        "info", "rack",
    ];
    for command in commands {
        assert!(overview.contains(&format!("\n  {command} ")), "{command}");
        let help = folder.lfat(&format!("{command} --help")).done().text();
        assert!(
            help.starts_with(&format!("usage: lfat {command} IMAGE")),
            "{help}"
        );
    }
    let put = folder.lfat("put --help").done().text();
    for words in [
        "[--replace] [--at TIME] [--limit N]",
        "\n  --replace   ",
        "\n  -f ",
        "\n  --at TIME   ",
        "in local time (TZ)",
        "\n  --limit N ",
    ] {
        assert!(put.contains(words), "{words}: {put}");
    }
    for (command, words) in [
        ("append", "[--at TIME] [--limit N]\n"),
        ("truncate", "[--at TIME] [--limit N]\n"),
        ("rack", "\n  --at TIME "),
        ("ls", "[-l] [--json]\n"),
        ("ls", "\n  -l  "),
        (
            "ls",
            "created, written (as 2026-11-17T19:30:58) and accessed",
        ),
        ("log", "stamp"),
        (
            "format",
            "[--size SIZE] [--cluster N] [--log N] [--yes] [--json] [--limit N]\n",
        ),
        ("format", "\n  --yes "),
        ("format", "rounded down to whole sectors"),
        ("format", "\n  --partition N "),
        ("rack", "mv OLD NEW; format."),
    ] {
        let help = folder.lfat(&format!("{command} --help")).done().text();
        assert!(help.contains(words), "{words}: {help}");
    }
    for command in ["rm", "mv", "recover"] {
        let help = folder.lfat(&format!("{command} --help")).done().text();
        assert!(
            !help.contains("--at") && help.contains("--limit N"),
            "{help}"
        );
    }
    let fits = folder.lfat("fits --help").done().text();
    for words in [
        "usage: lfat fits IMAGE BYTES|FILE [--json]\n",
        "exit status 0 for yes, 1 for no\n",
        "A file named by digits is given as ./123.",
        "\n  --json ",
        "\n  --partition N ",
    ] {
        assert!(fits.contains(words), "{words}: {fits}");
    }
    assert!(overview.contains("1 refused, stopped, a mismatch or no;"));
    let rack = folder.lfat("rack --help").done().text();
    assert!(rack.contains("replace NAME FILE"), "{rack}");
}

/// After `--` a name may begin with a dash.
#[test]
fn name_with_a_dash() {
    let folder = start("dash");
    folder
        .lfat("put card -A path")
        .failed(2, "unknown option -A");
    folder.lfat("put card -- -A path").done();
    assert_eq!(folder.lfat("get card -- -A").done().bytes(), points(1_300));
}
