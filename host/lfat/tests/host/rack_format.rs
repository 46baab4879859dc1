//! The rack on a format: the old card, BOOT, and the new card; and what it notices.

use crate::json::check;
use crate::refusals::folder_with;
use crate::support::{card_with_route, points};

const QUICK: &str = "--log 8 --depth 0 --random 0";

/// The table in full, over a card with a file; the card is only read.
#[test]
fn table() {
    let card = card_with_route(1_300);
    let folder = folder_with("rack-format", &card);
    let run = folder.lfat(&format!("rack card format {QUICK}")).done();
    let wanted = "\
format 4150 sectors, 1 per cluster, log of 8: 74 stores

last store made     cuts     formats       old      BOOT       new  mismatch
none                   1           1         1         0         0         0
boot cleared           1           1         0         1         0         0
FAT1                  16          16         0        16         0         0
FAT2                  16          16         0        16         0         0
root                  32          32         0        32         0         0
log cleared            8           8         0         8         0         0
boot sector            1           1         0         0         1         0
all                   75          75         1        73         1         0
";
    assert_eq!(run.text(), wanted);
    assert!(folder.read("card") == card);
}

/// With formats that are cut in turn, and stores that a disk keeps back; over what is no card too, and in a partition.
#[test]
fn in_many_ways() {
    let folder = folder_with("rack-format-ways", &card_with_route(1_300));
    let all = |text: &str| {
        let row = text
            .lines()
            .rfind(|line| line.starts_with("all "))
            .expect("a row")
            .to_string();
        let words = row.split_whitespace().skip(1);
        words
            .map(|word| word.parse().expect("a number"))
            .collect::<Vec<usize>>()
    };
    let run = folder.lfat("rack card format --log 8 --random 4").done();
    // One whole format after each cut, one that was cut in each of 74 places first, and four at random.
    assert_eq!(
        all(&run.text()),
        [75, 75 * (1 + 2 * 78), 79, 73 * 79, 79, 0]
    );
    for what in [vec![0; 4_200 * 512], points(4_200 * 512)] {
        folder.write("card", &what);
        let run = folder.lfat("rack card format --depth 0 --random 2").done();
        assert_eq!(all(&run.text()), [101, 101 * 5, 3, 99 * 3, 3, 0]);
        assert!(folder.read("card") == what);
    }
    let mut disk = vec![0; 10_000 * 512];
    disk[446 + 4] = 6;
    disk[446 + 8..446 + 12].copy_from_slice(&2_048_u32.to_le_bytes());
    disk[446 + 12..446 + 16].copy_from_slice(&5_000_u32.to_le_bytes());
    disk[510..512].copy_from_slice(&[0x55, 0xAA]);
    folder.write("card", &disk);
    let run = folder.lfat(&format!("rack card:1 format {QUICK}")).done();
    assert!(
        run.text()
            .starts_with("format 5000 sectors, 1 per cluster, log of 8: 82 stores\n"),
        "{}",
        run.text()
    );
    let run = folder
        .lfat(&format!("rack card format {QUICK} --size 3M --cluster 1"))
        .done();
    assert!(
        run.text()
            .starts_with("format 6144 sectors, 1 per cluster, log of 8: 90 stores\n"),
        "{}",
        run.text()
    );
    assert!(folder.read("card") == disk);
}

/// Wrong orders: the boot sector not last, or not first; the tables may go to the card in any order.
#[test]
fn wrong_turns_are_noticed() {
    let card = card_with_route(1_300);
    let folder = folder_with("rack-format-turns", &card);
    let rack = |swap: &str| folder.lfat(&format!("rack card format {QUICK} --break{swap}"));
    rack("").failed(
        1,
        "lfat: MISMATCH: cut after 73 stores (boot sector): list answers Done(0), not BOOT\n",
    );
    rack("=2,74").failed(
        1,
        "MISMATCH: cut after 2 stores (boot sector): list answers Done(1), not BOOT\n",
    );
    rack("=1,2").failed(
        1,
        "MISMATCH: cut after 1 stores (FAT1): list answers Refused(Unclean), not BOOT\n",
    );
    rack("=1,74").failed(1, "MISMATCH: cut after 1 stores (boot sector): ");
    rack("=2,73").done();
    rack("=18,40").done();
    rack("=74,75").failed(2, "no two of the 74 stores are 74 and 75");
    assert!(folder.read("card") == card);
}

#[test]
fn as_json_and_as_a_picture() {
    let folder = folder_with("rack-format-json", &card_with_route(1_300));
    let run = folder
        .lfat(&format!("rack card format {QUICK} --json --svg cuts.svg"))
        .done();
    check(
        &folder,
        run.bytes(),
        "[v['operations'][0][k] for k in ('stores', 'at', 'mismatch')] == [74, None, None]",
    );
    check(
        &folder,
        run.bytes(),
        "v['operations'][0]['rows'][-1] == {'last': 'all', 'cuts': 75, 'formats': 75, 'old': 1, 'boot': 73, 'new': 1, 'mismatch': 0}",
    );
    check(
        &folder,
        run.bytes(),
        "[r['last'] for r in v['operations'][0]['rows']] == ['none', 'boot cleared', 'FAT1', 'FAT2', 'root', 'log cleared', 'boot sector', 'all']",
    );
    let text = String::from_utf8(folder.read("cuts.svg")).expect("text");
    let cells = |colour: &str| {
        text.lines()
            .filter(|line| line.contains("<title>") && line.contains(colour))
            .count()
    };
    assert_eq!(
        ["#7f9fc4", "#b9bec4", "#f0b429", "#b3123c"].map(cells),
        [1, 73, 1, 0]
    );
    assert!(text.contains("BOOT: to be formatted again"), "{text}");
    assert!(
        text.contains("the last: root; 0 old, 1 BOOT, 0 new, 0 mismatch"),
        "{text}"
    );
    // Of other operations there is no such colour.
    folder
        .lfat("rack card rm ROUTE.CUT --random 0 --svg cuts.svg")
        .done();
    let text = String::from_utf8(folder.read("cuts.svg")).expect("text");
    assert!(
        !text.contains("BOOT") && text.contains("old: as before"),
        "{text}"
    );
}

#[test]
fn wrong_usage() {
    let card = card_with_route(1_300);
    let folder = folder_with("rack-format-usage", &card);
    for (line, status, words) in [
        (
            "rack card format ROUTE.CUT",
            2,
            "'ROUTE.CUT' is one word too many",
        ),
        (
            "rack card format --at 2026-11-17T19:30:58",
            2,
            "--at: format dates no file",
        ),
        (
            "rack card rm ROUTE.CUT --size 3M",
            2,
            "--size: rm makes no card",
        ),
        (
            "rack card create A --cluster 1",
            2,
            "--cluster: create makes no card",
        ),
        (
            "rack card put A path --log 1",
            2,
            "--log: put makes no card",
        ),
        ("rack card format --yes", 2, "unknown option --yes"),
        (
            "rack card format --size much",
            2,
            "--size: 'much' is no size",
        ),
        ("rack card format --size 4151s", 1, "WINDOW"),
        ("rack card format --log 129", 1, "SIZE"),
        ("rack missing format", 3, "missing: No such file"),
        ("rack card:1 format", 2, "no partition table"),
    ] {
        let run = folder.lfat(line).failed(status, words);
        assert_eq!(run.errors().lines().count(), 1, "{line}");
        assert!(folder.read("card") == card, "{line}");
    }
}
