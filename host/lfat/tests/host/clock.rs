//! The clock of the machine: local time by TZ, summer time, years that a card cannot date, one reading for a command.

use crate::json::check;
use crate::refusals::folder_with;
use crate::support::card_with_route;
use crate::support::cli::Folder;
use crate::support::clock::{lfat_at, lfat_stepping};
use reference::card_k;

/// 1 July 2026, 12:00:01 and 1 January 2027, 23:30:00 in Greenwich.
const SUMMER: i64 = 1_782_907_201;
const WINTER: i64 = 1_798_846_200;

const EAST: &str = "EET-2EEST,M3.5.0/3,M10.5.0/4";
const WEST: &str = "AAA+5:30";

/// The date and time in the line of a file.
fn shown(folder: &Folder, name: &str) -> String {
    let text = folder.lfat("ls -l card").done().text();
    let line = text.lines().find(|line| line.ends_with(name));
    line.expect("the file is there")[12..31].to_string()
}

#[test]
fn local_time() {
    let folder = folder_with("clock", &card_k());
    for (clock, zone, wanted) in [
        (SUMMER, "UTC0", "2026-07-01 12:00:00"),
        (SUMMER, EAST, "2026-07-01 15:00:00"),
        (SUMMER, WEST, "2026-07-01 06:30:00"),
        (WINTER, "UTC0", "2027-01-01 23:30:00"),
        (WINTER, EAST, "2027-01-02 01:30:00"),
        (WINTER, WEST, "2027-01-01 18:00:00"),
        // The last second of a year in Greenwich; it is another year there.
        (1_798_761_599, "UTC0", "2026-12-31 23:59:58"),
        (1_798_761_599, EAST, "2027-01-01 01:59:58"),
        // The hour that is left out in spring, and the one that comes twice in autumn.
        (1_774_745_999, EAST, "2026-03-29 02:59:58"),
        (1_774_746_000, EAST, "2026-03-29 04:00:00"),
        (1_792_889_999, EAST, "2026-10-25 03:59:58"),
        (1_792_890_000, EAST, "2026-10-25 03:00:00"),
        // The first and the last moment of a card, by local time.
        (315_532_800, "UTC0", "1980-01-01 00:00:00"),
        (315_525_600, EAST, "1980-01-01 00:00:00"),
        (4_354_819_199, "UTC0", "2107-12-31 23:59:58"),
        (4_354_838_999, WEST, "2107-12-31 23:59:58"),
        // 29 February 2000 is a day; the day after 28 February 2100 is 1 March.
        (951_868_799, "UTC0", "2000-02-29 23:59:58"),
        (4_107_542_400, "UTC0", "2100-03-01 00:00:00"),
        (4_107_542_399, "UTC0", "2100-02-28 23:59:58"),
    ] {
        folder.write("card", &card_k());
        lfat_at(&folder, clock, zone, "put card A.CUT path").done();
        assert_eq!(shown(&folder, "A.CUT"), wanted, "put, {clock} {zone}");
    }
    for line in [
        "append card ROUTE.CUT path",
        "truncate card ROUTE.CUT 5",
        "put -f card ROUTE.CUT path",
    ] {
        for (zone, wanted) in [
            ("UTC0", "2026-07-01 12:00:00"),
            (EAST, "2026-07-01 15:00:00"),
        ] {
            folder.write("card", &card_with_route(700));
            lfat_at(&folder, SUMMER, zone, line).done();
            assert_eq!(shown(&folder, "ROUTE.CUT"), wanted, "{line}");
        }
    }
    // A zone of the system's files, where there are some.
    if std::path::Path::new("/usr/share/zoneinfo/Europe/Helsinki").exists() {
        folder.write("card", &card_k());
        lfat_at(&folder, SUMMER, "Europe/Helsinki", "put card A.CUT path").done();
        assert_eq!(shown(&folder, "A.CUT"), "2026-07-01 15:00:00");
    }
}

/// A clock that nobody has set: one line with the remedy, and the remedy works. What dates nothing needs no clock.
#[test]
fn years_that_a_card_cannot_date() {
    let card = card_with_route(700);
    let folder = folder_with("clock-unset", &card);
    for (clock, zone, says) in [
        (
            7,
            "UTC0",
            "The clock of this machine says 1970-01-01 00:00:07.",
        ),
        (
            -1,
            "UTC0",
            "The clock of this machine says 1969-12-31 23:59:59.",
        ),
        (
            315_532_799,
            "UTC0",
            "The clock of this machine says 1979-12-31 23:59:59.",
        ),
        (
            315_532_800,
            WEST,
            "The clock of this machine says 1979-12-31 18:30:00.",
        ),
        (
            4_354_819_200,
            "UTC0",
            "The clock of this machine says 2108-01-01 00:00:00.",
        ),
        (
            4_354_819_199,
            EAST,
            "The clock of this machine says 2108-01-01 01:59:59.",
        ),
        (
            400_000_000_000,
            "UTC0",
            "The clock of this machine shows no date.",
        ),
    ] {
        for line in [
            "put card A.CUT path",
            "put -f card ROUTE.CUT path",
            "append card ROUTE.CUT path",
            "append card ROUTE.CUT /dev/null",
            "truncate card ROUTE.CUT 700",
            "rack card create A.CUT",
            "rack card put A.CUT path",
        ] {
            let run = lfat_at(&folder, clock, zone, line);
            let wanted = format!(
                "lfat: CLOCK: the time is not within 1980 to 2107, the years that a card can date. {says} \
                 Set it, or give the time, as --at 2026-11-17T19:30:58.\n"
            );
            assert_eq!((run.status(), run.errors()), (1, wanted), "{line}");
            assert!(folder.read("card") == card, "{line} changes nothing");
        }
        for line in [
            "ls -l card",
            "rack card rm ROUTE.CUT --random 1",
            "fits card path",
            "recover card",
        ] {
            lfat_at(&folder, clock, zone, line).done();
        }
        let line = "put card A.CUT path --at 2026-11-17T19:30:58";
        lfat_at(&folder, clock, zone, line).done();
        assert_eq!(shown(&folder, "A.CUT"), "2026-11-17 19:30:58");
        folder.write("card", &card);
    }
}

/// A put makes two calls and a rack many: the clock is read once for all of them.
#[test]
fn read_once() {
    let folder = folder_with("clock-once", &card_k());
    let stepping = |line: &str| lfat_stepping(&folder, SUMMER, 86_400, "UTC0", line).done();
    for name in ["A.CUT", "a.small.name"] {
        stepping(&format!("put card {name} path"));
    }
    let run = folder.lfat("ls card --json").done();
    let same = "all(e['created'] == e['written'] == '2026-07-01T12:00:00' for e in v['entries'])";
    check(
        &folder,
        run.bytes(),
        &format!("len(v['entries']) == 2 and {same}"),
    );
    let run = stepping("rack card put B.CUT path --random 2 --json");
    let dated = "[o['at'] for o in v['operations']] == ['2026-07-01T12:00:01'] * 2";
    check(&folder, run.bytes(), dated);
    for line in [
        "rack card append A.CUT path --random 2",
        "rack card replace A.CUT path --random 2",
        "rack card truncate A.CUT 5 --random 2",
        "rack card put B.CUT path --random 2",
    ] {
        let text = stepping(line).text();
        assert!(text.trim_end().ends_with(" 0"), "{line}: {text}");
    }
}
