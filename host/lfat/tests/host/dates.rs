//! `--at`, and dates as `ls -l`, `--json`, `log` and `recover` show them.

use crate::json::check;
use crate::refusals::folder_with;
use crate::support::cli::Folder;
use crate::support::long::{lfat, HULL};
use crate::support::{card_with_route, mark_read_only, ALL, PANEL, ROUTE};
use reference::card_k;
use testkit::dates::{stamp_created, stamp_written};
use testkit::AT;

/// What `ls --json` has of the dates of the files, in slot order.
fn assert_dates(folder: &Folder, wanted: &str) {
    let run = folder.lfat("ls card --json").done();
    let dates = "[(e['created'], e['written'], e['accessed']) for e in v['entries']]";
    check(folder, run.bytes(), &format!("{dates} == {wanted}"));
}

/// A new file has one time everywhere; the others set those of writing and the day of access.
#[test]
fn what_each_command_sets() {
    let folder = folder_with("dates", &card_k());
    folder
        .lfat("put card A.CUT path --at 2026-11-17T19:30:59")
        .done();
    let a = "('2026-11-17T19:30:58', '2026-11-17T19:30:58', '2026-11-17')";
    assert_dates(&folder, &format!("[{a}]"));
    folder
        .lfat("put -f --at=2000-02-29T23:59:58 card B.CUT path")
        .done();
    let b = "('2000-02-29T23:59:58', '2000-02-29T23:59:58', '2000-02-29')";
    assert_dates(&folder, &format!("[{a}, {b}]"));
    for (line, written) in [
        (
            "append card A.CUT path --at 2027-01-01T00:00:00",
            "2027-01-01T00:00:00",
        ),
        (
            "truncate card A.CUT 700 --at 2100-02-28T13:00:01",
            "2100-02-28T13:00:00",
        ),
        (
            "put --replace card A.CUT path --at 1980-01-01T00:00:01",
            "1980-01-01T00:00:00",
        ),
        (
            "put -f card A.CUT /dev/null --at 2107-12-31T23:59:59",
            "2107-12-31T23:59:58",
        ),
        // A replace dates the file, also by no bytes where it has none.
        (
            "put -f card A.CUT /dev/null --at 2001-01-01T00:00:00",
            "2001-01-01T00:00:00",
        ),
    ] {
        folder.lfat(line).done();
        let a = format!("('2026-11-17T19:30:58', '{written}', '{}')", &written[..10]);
        assert_dates(&folder, &format!("[{a}, {b}]"));
    }
    // Of two times the last counts.
    folder
        .lfat("put -f card A.CUT /dev/null --at 1999-09-09T09:09:09 --at 2001-01-01T00:00:00")
        .done();
    // Nothing appended, nothing cut off: no date is set, no byte written.
    let before = folder.read("card");
    folder
        .lfat("append card A.CUT /dev/null --at 2030-01-01T00:00:00")
        .done();
    folder
        .lfat("truncate card A.CUT 0 --at 2030-01-01T00:00:00")
        .done();
    assert!(folder.read("card") == before);
    // Other commands leave dates alone.
    folder.lfat("mv card B.CUT C.CUT").done();
    folder.lfat("get card C.CUT -o out").done();
    let a = "('2026-11-17T19:30:58', '2001-01-01T00:00:00', '2001-01-01')";
    assert_dates(&folder, &format!("[{a}, {b}]"));
    // Every byte of the slot is that of the rule, tenths included.
    let mut slot = [0; 32];
    slot[..12].copy_from_slice(b"A       CUT ");
    stamp_created(&mut slot, 1_479_411_059);
    stamp_written(&mut slot, 662_774_400);
    assert_eq!(folder.read("card")[33 * 512..][..32], slot);
}

/// A long name: the long entries have no dates, the file's own has all.
#[test]
fn a_file_with_a_long_name() {
    let folder = folder_with("dates-long", &card_with_route(700));
    lfat(
        &folder,
        &["put", "card", HULL, "path", "--at", "2026-11-17T19:30:59"],
    )
    .done();
    let route = "('2026-06-17T13:45:30', '2026-06-17T13:45:30', '2026-06-17')";
    let hull = "('2026-11-17T19:30:58', '2026-11-17T19:30:58', '2026-11-17')";
    assert_dates(&folder, &format!("[{route}, {hull}]"));
    let listed = "       700  2026-06-17 13:45:30  ROUTE.CUT\n      1300  2026-11-17 19:30:58  HULL7S~1.CUT  'Hull 7 sheer panel.cut'\n";
    assert_eq!(folder.lfat("ls -l card").done().text(), listed);
    lfat(
        &folder,
        &[
            "append",
            "card",
            HULL,
            "path",
            "--at",
            "2027-01-01T00:00:00",
        ],
    )
    .done();
    let hull = "('2026-11-17T19:30:58', '2027-01-01T00:00:00', '2027-01-01')";
    assert_dates(&folder, &format!("[{route}, {hull}]"));
    // The log tells the time of a long create too, whose stamp is not listed.
    let run = folder.lfat("log card --json").done();
    let stamps = "[(r['operation'], r['stamp']) for r in v['records'][4:]]";
    let long =
        "('create', '2026-11-17T19:30:58'), ('update', '2026-11-17T19:30:58'), ('part', None)";
    let wanted = format!("[{long}, ('update', '2027-01-01T00:00:00'), ('part', None)]");
    check(&folder, run.bytes(), &format!("{stamps} == {wanted}"));
}

/// `ls` as it was, and with `-l` the time of the last write before the name; what is no date is a dash, or null.
#[test]
fn listed() {
    let mut card = card_with_route(1_300);
    for name in [
        PANEL,
        b"SUB        ",
        b"NONE       ",
        b"MONTH      ",
        b"HOUR       ",
    ] {
        reference::create(&mut card, name, 0, ALL);
    }
    let slot = |at: usize| 33 * 512 + at * 32;
    mark_read_only(&mut card, 1);
    card[slot(2) + 11] = 0x10;
    card[slot(3) + 14..slot(3) + 20].fill(0);
    card[slot(3) + 22..slot(3) + 26].fill(0);
    // Month 13, and 24 o'clock; the other dates of these files are good.
    card[slot(4) + 24..][..2].copy_from_slice(&0x01A1_u16.to_le_bytes());
    card[slot(5) + 22..][..2].copy_from_slice(&0xC000_u16.to_le_bytes());
    let folder = folder_with("dates-ls", &card);
    let plain = "      1300  ROUTE.CUT\n         0  PANEL.CUT  (read-only)\n directory  SUB\n         0  NONE\n         0  MONTH\n         0  HOUR\n";
    assert_eq!(folder.lfat("ls card").done().text(), plain);
    let long = "      1300  2026-06-17 13:45:30  ROUTE.CUT\n\
                \x20        0  1980-01-01 00:00:00  PANEL.CUT  (read-only)\n\
                \x20directory  1980-01-01 00:00:00  SUB\n\
                \x20        0  -                    NONE\n\
                \x20        0  -                    MONTH\n\
                \x20        0  -                    HOUR\n";
    assert_eq!(folder.lfat("ls -l card").done().text(), long);
    assert_eq!(folder.lfat("ls card -l").done().text(), long);
    let first = "('1980-01-01T00:00:00', '1980-01-01T00:00:00', '1980-01-01')";
    let bad = "('1980-01-01T00:00:00', None, '1980-01-01')";
    let at = "('2026-06-17T13:45:30', '2026-06-17T13:45:30', '2026-06-17')";
    assert_dates(
        &folder,
        &format!("[{at}, {first}, {first}, (None, None, None), {bad}, {bad}]"),
    );
    let json = folder.lfat("ls card --json").done().text();
    assert_eq!(folder.lfat("ls -l card --json").done().text(), json);
    // Each of the three dates stands for itself, the odd second of a creation by another system too.
    let mut card = card_with_route(5);
    stamp_created(&mut card[slot(0)..][..32], 86_400 * 400);
    stamp_written(&mut card[slot(0)..][..32], AT);
    card[slot(0) + 13] = 150;
    card[slot(0) + 18..][..2].copy_from_slice(&0x5D71_u16.to_le_bytes());
    folder.write("card", &card);
    assert_dates(
        &folder,
        "[('1981-02-04T00:00:01', '2026-06-17T13:45:30', '2026-11-17')]",
    );
    assert!(folder
        .lfat("ls -l card")
        .done()
        .text()
        .contains("  2026-06-17 13:45:30  "));
}

/// The rack tries the calls with the time that is given, and finds the old dates or the new ones after every cut.
#[test]
fn on_the_rack() {
    let card = card_with_route(700);
    let folder = folder_with("dates-rack", &card);
    let time = "2031-05-06T07:08:09";
    for (verb, dated) in [
        ("create A.CUT", vec![time]),
        ("create small.name", vec![time]),
        ("put A.CUT path", vec![time, time]),
        ("append ROUTE.CUT path", vec![time]),
        ("replace ROUTE.CUT path", vec![time]),
        ("truncate ROUTE.CUT 600", vec![time]),
    ] {
        let line = format!("rack card {verb} --at {time} --random 2 --json");
        let run = folder.lfat(&line).done();
        let operations = "[(o['at'], o['mismatch']) for o in v['operations']]";
        let wanted: Vec<String> = dated
            .iter()
            .map(|time| format!("('{time}', None)"))
            .collect();
        check(
            &folder,
            run.bytes(),
            &format!("{operations} == [{}]", wanted.join(", ")),
        );
    }
    for verb in ["rm ROUTE.CUT", "mv ROUTE.CUT A.CUT"] {
        let run = folder
            .lfat(&format!("rack card {verb} --random 2 --json"))
            .done();
        check(&folder, run.bytes(), "v['operations'][0]['at'] is None");
    }
    // Where the root directory is stored after the commit mark, dates too are lost.
    let line = format!("rack card replace ROUTE.CUT /dev/null --at {time} --break");
    folder.lfat(&line).failed(1, "not the new state: ");
    assert!(folder.read("card") == card);
}

/// A text that is no date and time: wrong usage, one line, before the card is looked at.
#[test]
fn bad_texts() {
    let folder = folder_with("dates-bad", &card_with_route(700));
    for text in [
        "",
        "now",
        "2026-11-17",
        "2026-11-17T19:30",
        "2026-11-17T19:30:58Z",
        "2026-13-17T19:30:58",
        "2026-02-29T00:00:00",
        "2100-02-29T00:00:00",
        "2026-11-17T24:00:00",
        "2026-11-17T19:30:60",
        "26-11-17T19:30:58",
        "1979-02-30T00:00:00",
        "0",
    ] {
        for line in [
            "put no-card A.CUT path",
            "append no-card ROUTE.CUT path",
            "truncate no-card ROUTE.CUT 5",
            "put -f no-card ROUTE.CUT path",
            "rack no-card append ROUTE.CUT path",
            "rack no-card rm ROUTE.CUT",
        ] {
            let wanted = format!(
                "lfat: --at: '{text}' is no date and time as 2026-11-17T19:30:58; usage: lfat "
            );
            let run = folder
                .lfat(&format!("{line} --at={text}"))
                .failed(2, &wanted);
            assert_eq!(run.errors().lines().count(), 1, "{line}");
        }
    }
    lfat(
        &folder,
        &["put", "card", "A", "path", "--at", "2026-11-17 19:30:58"],
    )
    .failed(2, "is no date and time");
    lfat(&folder, &["put", "card", "A", "path", "--at", "x\ny"]).failed(2, "--at: 'x?y' is no");
    folder
        .lfat("put card A path --at")
        .failed(2, "--at needs a value");
    for line in [
        "rm card ROUTE.CUT",
        "mv card ROUTE.CUT A",
        "recover card",
        "ls card",
        "get card ROUTE.CUT",
        "fits card 5",
        "format new",
    ] {
        let line = format!("{line} --at 2026-11-17T19:30:58");
        folder.lfat(&line).failed(2, "unknown option --at");
    }
    for verb in ["rm ROUTE.CUT", "mv ROUTE.CUT A"] {
        let line = format!("rack card {verb} --at 2026-11-17T19:30:58");
        folder.lfat(&line).failed(2, "dates no file");
    }
    assert!(folder.read("card") == card_with_route(700));
}

/// Years that a card cannot date are CLOCK: after what is wrong with the card, before what is with the name.
#[test]
fn out_of_range() {
    let card = card_with_route(700);
    let folder = folder_with("dates-range", &card);
    for (text, shown) in [
        ("1979-12-31T23:59:59", "1979-12-31 23:59:59"),
        ("2108-01-01T00:00:00", "2108-01-01 00:00:00"),
        ("2116-02-07T06:28:16", "2116-02-07 06:28:16"),
        ("0000-02-29T00:00:00", "0000-02-29 00:00:00"),
        ("9999-12-31T23:59:59", "9999-12-31 23:59:59"),
    ] {
        for line in [
            "put card A.CUT path",
            "put card ROUTE.CUT path",
            "put -f card ROUTE.CUT path",
            "put card a*b path",
            "append card NONE path",
            "append card ROUTE.CUT /dev/null",
            "truncate card ROUTE.CUT 700",
            "truncate card ROUTE.CUT 701",
            "rack card create ROUTE.CUT",
            "rack card put A.CUT path",
            "rack card replace ROUTE.CUT path",
            "rack card truncate ROUTE.CUT 1",
            "rack card append NONE path",
            "rack card append no.such.name path",
            "rack card create a*b",
        ] {
            let run = folder.lfat(&format!("{line} --at {text}"));
            let wanted = format!(
                "lfat: CLOCK: the time is not within 1980 to 2107, the years that a card can date. This one is {shown}. \
                 Give another, as --at 2026-11-17T19:30:58.\n"
            );
            assert_eq!((run.status(), run.errors()), (1, wanted), "{line}");
        }
    }
    for text in ["1980-01-01T00:00:00", "2107-12-31T23:59:59"] {
        folder
            .lfat(&format!("append card ROUTE.CUT /dev/null --at {text}"))
            .done();
    }
    assert!(folder.read("card") == card);
    let mut cut = card.clone();
    reference::append(&mut cut, ROUTE, b"G0", AT, 2);
    folder.write("card", &cut);
    for line in [
        "put card A.CUT path",
        "append card NONE path",
        "rack card create A.CUT",
    ] {
        folder
            .lfat(&format!("{line} --at 1979-12-31T23:59:59"))
            .failed(1, "lfat: UNCLEAN: ");
    }
}
