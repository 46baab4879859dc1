//! The rack: passes what the library does, and notices two swapped stores.

use crate::support::cli::Folder;
use crate::support::ram::Ram;
use crate::support::{card_with_route, points, set_fats, ALL, PANEL};
use lfat::rack::stage::Stage;
use lfat::rack::{run, Settings};
use lfat_disk::lists::Planned;
use lfat_disk::{Access, DiskCard, Operation};
use testkit::AT;

const OPERATIONS: [&str; 7] = [
    "create NEW.CUT",
    "append ROUTE.CUT path",
    "put NEW.CUT path",
    "replace ROUTE.CUT path",
    "truncate ROUTE.CUT 100",
    "rm ROUTE.CUT",
    "mv ROUTE.CUT NEW.CUT",
];

fn start(name: &str) -> (Folder, Vec<u8>) {
    let folder = Folder::new(name);
    let mut card = card_with_route(1_300);
    reference::create(&mut card, PANEL, AT, ALL);
    reference::append(&mut card, PANEL, &points(5_000), AT, ALL);
    folder.write("card", &card);
    folder.write("path", &points(1_300));
    (folder, card)
}

/// The last row of a table, as numbers: cuts, recoveries, old, new, mismatch.
fn totals(text: &str) -> Vec<usize> {
    let row = text
        .lines()
        .rfind(|line| line.starts_with("all "))
        .expect("a row");
    let words = row.split_whitespace().skip(1);
    words.map(|word| word.parse().expect("a number")).collect()
}

#[test]
fn all_operations_pass() {
    let (folder, card) = start("rack");
    for operation in OPERATIONS {
        let run = folder
            .lfat(&format!("rack card {operation} --random 4"))
            .done();
        let totals = totals(&run.text());
        assert!(totals[0] >= 4 && totals[1] > totals[0], "{}", run.text());
        assert!(totals[2] > 0 && totals[3] > 0, "{}", run.text());
        assert_eq!(totals[4], 0);
        assert!(folder.read("card") == card, "the image is only read");
    }
}

/// The table of an append to four sectors, in full, with one recovery for each cut.
#[test]
fn table() {
    let (folder, _) = start("table");
    let run = folder
        .lfat("rack card append ROUTE.CUT path --depth 0 --random 0")
        .done();
    let wanted = "\
append 1300 bytes to ROUTE.CUT: 9 stores

last store made     cuts  recoveries       old       new  mismatch
none                   1           1         1         0         0
data                   4           4         4         0         0
FAT2                   1           1         1         0         0
log record             1           1         0         1         0
FAT1                   1           1         0         1         0
root                   1           1         0         1         0
commit                 1           1         0         1         0
all                   10          10         6         4         0
";
    assert_eq!(run.text(), wanted);
}

/// The table of a replace: three sectors of new data, and old clusters freed with new ones linked in the one FAT sector.
#[test]
fn table_of_a_replace() {
    let (folder, _) = start("table-replace");
    let run = folder
        .lfat("rack card replace ROUTE.CUT path --depth 0 --random 0")
        .done();
    let wanted = "\
replace ROUTE.CUT by 1300 bytes: 8 stores

last store made     cuts  recoveries       old       new  mismatch
none                   1           1         1         0         0
data                   3           3         3         0         0
FAT2                   1           1         1         0         0
log record             1           1         0         1         0
FAT1                   1           1         0         1         0
root                   1           1         0         1         0
commit                 1           1         0         1         0
all                    9           9         5         4         0
";
    assert_eq!(run.text(), wanted);
    // By no bytes: no data.
    folder.write("none", b"");
    let run = folder.lfat("rack card replace ROUTE.CUT none").done();
    assert!(run
        .text()
        .starts_with("replace ROUTE.CUT by 0 bytes: 5 stores\n"));
    assert_eq!(totals(&run.text())[0], 6);
}

/// Wrong orders of a replace: data 1 to 3, FAT2 4, log record 5, FAT1 6, root directory 7, commit mark 8.
#[test]
fn wrong_turns_of_a_replace_are_noticed() {
    let (folder, _) = start("turns-replace");
    folder.write("other", &points(5_000)[2_000..3_300]);
    let rack =
        |swap: &str| folder.lfat(&format!("rack card replace ROUTE.CUT other --break={swap}"));
    rack("4,5").failed(
        1,
        "cut after 4 stores (log record), one whole recovery: not the new state: FAT1 differs",
    );
    rack("3,5").failed(
        1,
        "cut after 3 stores (log record), one whole recovery: not the new state: ",
    );
    rack("6,8").failed(1, "cut after 6 stores (commit), one whole recovery: ");
    rack("5,7").failed(
        1,
        "cut after 5 stores (root), one whole recovery: not the old state: ",
    );
    rack("1,3").done();
}

/// The rack can fail: with the commit mark before the root directory, the cut between the two loses the operation.
#[test]
fn swapped_stores_are_noticed() {
    let (folder, card) = start("break");
    for operation in OPERATIONS {
        let run = folder.lfat(&format!("rack card {operation} --break --random 2"));
        let run = run.failed(
            1,
            "(commit), one whole recovery: not the new state: the root directory differs",
        );
        assert!(run.errors().starts_with("lfat: MISMATCH: cut after"));
        assert!(totals(&run.text())[4] > 0, "{}", run.text());
        assert!(folder.read("card") == card);
    }
}

/// Other wrong orders of an append: data 1 to 4, FAT2 5, log record 6, FAT1 7, root directory 8, commit mark 9.
#[test]
fn wrong_turns_are_noticed() {
    let (folder, _) = start("turns");
    let rack = |swap: &str| folder.lfat(&format!("rack card append ROUTE.CUT path --break={swap}"));
    rack("5,6").failed(
        1,
        "cut after 5 stores (log record), one whole recovery: not the new state: FAT1 differs",
    );
    // Without new clusters: data 1, log record 2, root directory 3, commit mark 4.
    folder.write("few", &points(100));
    let run = folder.lfat("rack card append ROUTE.CUT few --break=1,2");
    run.failed(
        1,
        "cut after 1 stores (log record), one whole recovery: not the new state: a file differs",
    );
    rack("7,9").failed(1, "cut after 7 stores (commit), one whole recovery: ");
    // Data may go to the card in any order.
    rack("1,2").done();
    rack("0,1").failed(2, "no two of the 9 stores are 0 and 1");
    rack("9,10").failed(2, "no two of the 9 stores");
    rack("3,3").failed(2, "no two of the 9 stores");
    rack("3").failed(2, "two numbers");
    rack("a,b").failed(2, "'a' is no number");
    let nothing = folder.lfat("rack card truncate ROUTE.CUT 1300 --break");
    nothing.failed(2, "no two of the 0 stores");
}

#[test]
fn strip_of_cuts() {
    let (folder, _) = start("svg");
    let line = "rack card append ROUTE.CUT path --random 1";
    folder.lfat(&format!("{line} --svg good.svg")).done();
    folder
        .lfat(&format!("{line} --break --svg bad.svg"))
        .failed(1, "MISMATCH");
    let colours = |file: &str| {
        let text = String::from_utf8(folder.read(file)).expect("text");
        assert!(text.starts_with("<svg ") && text.ends_with("</svg>\n"));
        let cells: Vec<String> = text
            .lines()
            .filter(|line| line.contains("<title>"))
            .map(str::to_string)
            .collect();
        ["#7f9fc4", "#f0b429", "#b3123c"]
            .map(|c| cells.iter().filter(|cell| cell.contains(c)).count())
    };
    assert_eq!(colours("good.svg"), [6, 4, 0]);
    assert_eq!(colours("bad.svg"), [6, 3, 1]);
}

/// A full log is cleared first, and the clearing is cut too.
#[test]
fn full_log() {
    let mut card = card_with_route(1_300);
    for sector in 65..73 {
        card[sector * 512] = 0xE5;
    }
    let name = b"ROUTE   CUT";
    let settings = Settings {
        depth: 2,
        random: 8,
        seed: 3,
        swap: None,
    };
    let data = &points(700)[..];
    for operation in [
        Operation::Delete { name },
        Operation::Replace {
            name,
            data,
            seconds: AT,
        },
    ] {
        let mut card = DiskCard::on(Ram(card.clone()), Planned, Access::Read).expect("opened");
        let report = run(&mut card, &operation, &settings).expect("granted");
        let clearing = report
            .cuts
            .iter()
            .filter(|cut| cut.last == Some(Stage::Clearing));
        assert_eq!(clearing.count(), 8);
        assert_eq!(report.mismatch, None);
        assert!(report
            .cuts
            .iter()
            .all(|cut| cut.mismatch == 0 && cut.old + cut.new > 8));
    }
}

/// On a card whose files share a cluster the FATs and the root directory are compared, and the table says so.
#[test]
fn unsound_card() {
    let (folder, mut card) = start("unsound");
    set_fats(&mut card, 12, 13);
    folder.write("card", &card);
    let text = folder.lfat("rack card mv PANEL.CUT NEW.CUT").done().text();
    assert!(text.contains("their bytes were not compared"), "{text}");
}

/// An operation that stores nothing has one cut, and leaves the card as it was.
#[test]
fn nothing_stored() {
    let (folder, _) = start("nothing");
    let text = folder
        .lfat("rack card truncate ROUTE.CUT 1300")
        .done()
        .text();
    assert_eq!(totals(&text), [1, 17, 17, 0, 0]);
}
