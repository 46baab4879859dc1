//! Dates that mtools and fsck.fat find are those that `ls -l` shows, and theirs are shown right. Needs both.

use crate::support::cli::Folder;
use crate::support::long::{assert_clean, formatted_folder, lfat, tool, HULL};
use std::fs::File;
use std::time::{Duration, UNIX_EPOCH};

const ZONES: [&str; 3] = ["TZ=UTC0", "TZ=AAA-9:30", "TZ=EET-2EEST,M3.5.0/3,M10.5.0/4"];

const TIMES: [&str; 6] = [
    "1980-01-01T00:00:00",
    "1999-12-31T23:59:59",
    "2000-02-29T12:34:57",
    "2026-11-17T19:30:58",
    "2031-07-08T09:10:11",
    "2037-12-31T01:02:03",
];

/// The names with dates and times, as `ls -l` has them.
fn listed(folder: &Folder) -> Vec<(String, String)> {
    let text = folder.lfat("ls -l card").done().text();
    let line = |line: &str| (line[33..].to_string(), line[12..31].to_string());
    text.lines().map(line).collect()
}

/// A time with an even second, as people read it.
fn even(time: &str) -> String {
    let second: u32 = time[17..].parse().expect("a number");
    format!("{} {}{:02}", &time[..10], &time[11..17], second / 2 * 2)
}

/// Files of six times: mdir shows the day and the minute, a copy has the second; all files are whole.
#[test]
fn ours_as_mtools_have_them() {
    let folder = formatted_folder("dates-mdir");
    folder.lfat("rm card ROUTE.CUT").done();
    for (at, time) in TIMES.iter().enumerate() {
        folder
            .lfat(&format!("put card F{at}.CUT path --at {time}"))
            .done();
    }
    lfat(&folder, &["put", "card", HULL, "path", "--at", TIMES[3]]).done();
    for zone in ZONES {
        let text = tool(&folder, "env", &[zone, "mdir", "-i", "card", "::"]);
        for (at, time) in TIMES.iter().enumerate() {
            let line = text
                .lines()
                .find(|line| line.starts_with(&format!("F{at} ")));
            let words: Vec<&str> = line.expect("a line").split_whitespace().collect();
            // Of an hour below 10 mdir shows one digit.
            let minute = time[11..16].strip_prefix('0').unwrap_or(&time[11..16]);
            assert_eq!(words[3..5], [&time[..10], minute], "{text}");
        }
        let hull = text.lines().find(|line| line.ends_with(HULL));
        assert!(
            hull.expect("a line").contains("2026-11-17  19:30"),
            "{text}"
        );
        for (at, time) in TIMES.iter().enumerate() {
            let name = format!("::F{at}.CUT");
            tool(
                &folder,
                "env",
                &[zone, "mcopy", "-n", "-o", "-m", "-i", "card", &name, "out"],
            );
            let stat = ["date", "-r", "out", "+%Y-%m-%d %H:%M:%S"];
            let text = tool(&folder, "env", &[&[zone], &stat[..]].concat());
            assert_eq!(text.trim_end(), even(time), "{zone}");
            assert_eq!(tool(&folder, "mtype", &["-i", "card", &name]).len(), 1_300);
        }
    }
    let mut wanted: Vec<(String, String)> = TIMES
        .iter()
        .enumerate()
        .map(|(at, time)| (format!("F{at}.CUT"), even(time)))
        .collect();
    wanted.push((format!("HULL7S~1.CUT  '{HULL}'"), even(TIMES[3])));
    assert_eq!(listed(&folder), wanted);
    assert_clean(&folder);
}

/// What append, truncate and put --replace set; a rename by either side keeps it.
#[test]
fn changed_files_as_mtools_have_them() {
    let folder = formatted_folder("dates-changed");
    let day = |name: &str| {
        let text = tool(&folder, "mdir", &["-i", "card", "::"]);
        let line = text.lines().find(|line| line.starts_with(name));
        let words: Vec<String> = line
            .expect("a line")
            .split_whitespace()
            .map(str::to_string)
            .collect();
        words[3..5].join(" ")
    };
    for (line, day_and_minute) in [
        (
            "append card ROUTE.CUT path --at 2027-03-04T10:06:07",
            "2027-03-04 10:06",
        ),
        (
            "truncate card ROUTE.CUT 9 --at 2028-02-29T23:59:59",
            "2028-02-29 23:59",
        ),
        (
            "put -f card ROUTE.CUT path --at 2029-01-01T12:00:01",
            "2029-01-01 12:00",
        ),
    ] {
        folder.lfat(line).done();
        assert_eq!(day("ROUTE"), day_and_minute, "{line}");
        assert_clean(&folder);
    }
    folder.lfat("mv card ROUTE.CUT PANEL.CUT").done();
    assert_eq!(day("PANEL"), "2029-01-01 12:00");
    tool(
        &folder,
        "mren",
        &["-i", "card", "::PANEL.CUT", "::KEEL.CUT"],
    );
    let wanted = ("KEEL.CUT".to_string(), "2029-01-01 12:00:00".to_string());
    assert_eq!(listed(&folder), [wanted]);
}

/// Files that mtools dated, with `mcopy -m` from files of this machine.
#[test]
fn theirs_as_we_show_them() {
    let folder = formatted_folder("dates-mcopy");
    folder.lfat("rm card ROUTE.CUT").done();
    // Seconds since 1970 began in Greenwich, and the local times in the three zones.
    for (at, (seconds, times)) in [
        (
            1_795_000_001,
            [
                "2026-11-18 11:06:40",
                "2026-11-18 20:36:40",
                "2026-11-18 13:06:40",
            ],
        ),
        (
            1_782_907_203,
            [
                "2026-07-01 12:00:02",
                "2026-07-01 21:30:02",
                "2026-07-01 15:00:02",
            ],
        ),
    ]
    .into_iter()
    .enumerate()
    {
        for (zone, wanted) in ZONES.into_iter().zip(times) {
            let file = File::create(folder.path().join("in")).expect("a file");
            let time = UNIX_EPOCH + Duration::from_secs(seconds);
            file.set_modified(time).expect("dated");
            let name = format!("T{at}.CUT");
            let words = [zone, "mcopy", "-o", "-m", "-i", "card", "in"];
            tool(
                &folder,
                "env",
                &[&words[..], &[&format!("::{name}")]].concat(),
            );
            let listed = listed(&folder);
            let found = listed.iter().find(|(listed, _)| *listed == name);
            assert_eq!(found.map(|(_, time)| time.as_str()), Some(wanted), "{zone}");
        }
    }
    tool(&folder, "mmd", &["-i", "card", "::SUB"]);
    let text = folder.lfat("ls -l card").done().text();
    let line = text.lines().last().expect("a line");
    assert!(
        line.starts_with(" directory  20") && line.ends_with("  SUB"),
        "{text}"
    );
}

/// fsck.fat prints the dates of two files of one name, seconds included.
#[test]
fn as_fsck_prints_them() {
    let folder = formatted_folder("dates-fsck");
    folder
        .lfat("put -f card ROUTE.CUT path --at 2026-11-17T19:30:59")
        .done();
    folder
        .lfat("put card PANEL.CUT path --at 2107-12-31T23:59:59")
        .done();
    assert_clean(&folder);
    let mut card = folder.read("card");
    card[33 * 512 + 32..][..5].copy_from_slice(b"ROUTE");
    folder.write("card", &card);
    let text = tool(&folder, "sh", &["-c", "fsck.fat -n card; true"]);
    assert!(
        text.contains("First    Size 1300 bytes, date 19:30:58 Nov 17 2026"),
        "{text}"
    );
    assert!(
        text.contains("Second   Size 1300 bytes, date 23:59:58 Dec 31 2107"),
        "{text}"
    );
    let times: Vec<String> = listed(&folder).into_iter().map(|(_, time)| time).collect();
    assert_eq!(times, ["2026-11-17 19:30:58", "2107-12-31 23:59:58"]);
}
