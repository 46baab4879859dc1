//! Files with long names: what `rm`, `mv`, `recover` and the rack say and do. Needs mtools.

use crate::json::check;
use crate::refusals::folder_with;
use crate::support::cli::{Folder, Run};
use crate::support::long::tool;
use crate::support::{card_with_route, mark_read_only, points};
use reference::CardSpec;
use testkit::cards::Card;

/// Runs one of mtools on the card.
fn mtool(folder: &Folder, program: &str, words: &[&str]) -> String {
    tool(folder, program, &[&["-i", "card"], words].concat())
}

/// Names that mcopy writes, with what is told of each by `rm`.
const NAMES: [(&str, &str, &str); 5] = [
    ("sheer panel, port.cut", "SHEERP~1.CUT", "2 entries"),
    ("Mixed.Cut", "MIXED.CUT", "1 entry"),
    ("Путь один.cut", "______~1.CUT", "1 entry"),
    ("abcdefghijklm", "ABCDEF~1", "1 entry"),
    ("KEEL.CUT", "KEEL.CUT", ""),
];

/// A new card with these names.
fn folder(name: &str) -> Folder {
    let folder = Folder::new(name);
    folder.write("path", &points(700));
    folder.lfat("format card --size 4150s --log 8").done();
    for (name, _, _) in NAMES {
        mtool(&folder, "mcopy", &["path", &format!("::/{name}")]);
    }
    folder
}

/// The names that mtools list.
fn listed(folder: &Folder) -> Vec<String> {
    let text = mtool(folder, "mdir", &["-b", "-a", "::"]);
    text.lines().map(|line| line.replace("::/", "")).collect()
}

#[test]
fn removed() {
    let folder = folder("long-rm");
    for (index, (name, short, entries)) in NAMES.into_iter().enumerate() {
        let run = folder.lfat(&format!("rm card {short}")).done();
        let expected = match entries {
            "" => String::new(),
            _ => format!("{short} is removed, and its long name '{name}' ({entries}) with it\n"),
        };
        assert_eq!(run.text(), expected);
        let left: Vec<&str> = NAMES[index + 1..].iter().map(|name| name.0).collect();
        assert_eq!(listed(&folder).join(","), left.join(","));
    }
    // Nothing of them is left in use.
    let root = &folder.read("card")[33 * 512..65 * 512];
    assert!(root.chunks(32).all(|slot| matches!(slot[0], 0 | 0xE5)));
}

#[test]
fn renamed() {
    let folder = folder("long-mv");
    for (index, (name, short, entries)) in NAMES.into_iter().enumerate() {
        let run = folder.lfat(&format!("mv card {short} NEW_{index}")).done();
        let expected = match entries {
            "" => String::new(),
            _ => format!(
                "{short} is now NEW_{index}; its long name '{name}' ({entries}) is removed\n"
            ),
        };
        assert_eq!(run.text(), expected);
        let names = listed(&folder);
        assert!(!names.contains(&name.to_string()), "{names:?}");
        assert!(names.contains(&format!("NEW_{index}")), "{names:?}");
        assert_eq!(names.len(), NAMES.len());
        let got = folder.lfat(&format!("get card NEW_{index}")).done();
        assert_eq!(got.bytes(), points(700));
    }
    let root = &folder.read("card")[33 * 512..65 * 512];
    let live = root.chunks(32).filter(|slot| !matches!(slot[0], 0 | 0xE5));
    assert_eq!(live.count(), NAMES.len());
}

#[test]
fn as_json() {
    let folder = folder("long-json");
    let run = folder.lfat("rm card ______~1.CUT --json").done();
    let fields = "'slot': 6, 'name': '______~1.CUT', 'new_name': None, 'long_name': 'Путь один.cut', 'long_entries': 1, 'stores': 5";
    check(&folder, run.bytes(), &format!("v == {{{fields}}}"));
    let run = folder.lfat("mv --json card SHEERP~1.CUT NEW.CUT").done();
    let fields = "'slot': 2, 'name': 'SHEERP~1.CUT', 'new_name': 'NEW.CUT', 'long_name': 'sheer panel, port.cut', 'long_entries': 2";
    check(
        &folder,
        run.bytes(),
        &format!("v == {{{fields}, 'stores': 3}}"),
    );
    let run = folder.lfat("log card --json").done();
    check(
        &folder,
        run.bytes(),
        "[r['long_entries'] for r in v['records']] == [1, 2, 2]",
    );
    let run = folder.lfat("rm card KEEL.CUT --json").done();
    check(
        &folder,
        run.bytes(),
        "v['long_name'] is None and v['long_entries'] == 0 and v['slot'] == 9 and v['stores'] == 5",
    );
    let run = folder.lfat("rm card KEEL.CUT --json").failed(1, "ABSENT");
    assert_eq!(run.bytes(), b"");
    let run = folder
        .lfat("rm card MIXED.CUT --json --limit 2")
        .failed(1, "STOPPED");
    assert_eq!(run.bytes(), b"");
    folder.lfat("ls card --json").failed(1, "UNCLEAN");
}

/// A file whose short name no rule allows, as mtools make them of other letters: it is reached by its slot, and takes its long
/// name along all the same.
#[test]
fn by_slot() {
    for (command, expected) in [
        ("rm card slot:11", "slot:11 (K?RPER.CUT) is removed, and its long name 'Körper.cut' (1 entry) with it\n"),
        ("mv card slot:11 BODY.CUT", "slot:11 (K?RPER.CUT) is now BODY.CUT; its long name 'Körper.cut' (1 entry) is removed\n"),
    ] {
        let folder = folder("long-slot");
        mtool(&folder, "mcopy", &["path", "::/Körper.cut"]);
        assert!(folder.lfat("ls card").done().text().contains("K?RPER.CUT  (slot:11)"));
        assert_eq!(folder.lfat(command).done().text(), expected);
        let card = folder.read("card");
        assert_eq!(card[33 * 512 + 10 * 32], 0xE5);
        let run = folder.lfat("log card --json").done();
        check(&folder, run.bytes(), "v['records'][0]['long_entries'] == 1");
        assert_eq!(listed(&folder).len(), NAMES.len() + usize::from(command.starts_with("mv")));
    }
}

/// A call that is refused tells nothing and leaves the entries; so do entries that do not belong.
#[test]
fn what_stays() {
    let folder = folder("long-stays");
    let mut card = folder.read("card");
    mark_read_only(&mut card, 2);
    folder.write("card", &card);
    for line in ["rm card SHEERP~1.CUT", "mv card SHEERP~1.CUT NEW.CUT"] {
        let run = folder.lfat(line).failed(1, "LOCKED");
        assert_eq!(run.bytes(), b"");
    }
    let run = folder
        .lfat("mv card MIXED.CUT KEEL.CUT")
        .failed(1, "EXISTS");
    assert_eq!(run.bytes(), b"");
    assert!(folder.read("card") == card);
    // The short name was changed by a machine that knows no long names: the checksum is another.
    card[33 * 512 + 4 * 32] = b'F';
    folder.write("card", &card);
    assert_eq!(folder.lfat("rm card FIXED.CUT").done().text(), "");
    assert_eq!(folder.read("card")[33 * 512 + 3 * 32], 0x41);
}

/// Cut after each store: before the log record all is as it was, from it on recovery takes file and long name away.
#[test]
fn cut_and_recovered() {
    let folder = folder("long-cut");
    let start = folder.read("card");
    let told =
        "recovered: the save that was cut is finished (delete SHEERP~1.CUT with its long name)";
    for limit in 0..5 {
        folder.write("card", &start);
        let line = format!("rm card SHEERP~1.CUT --limit {limit}");
        let run = folder.lfat(&line).failed(1, "STOPPED");
        assert_eq!(run.bytes(), b"");
        let text = folder.lfat("recover card").done().text();
        assert_eq!(text.starts_with(told), limit >= 2, "{limit}: {text}");
        let is_there = listed(&folder).contains(&NAMES[0].0.to_string());
        assert_eq!(is_there, limit < 2);
        let slot = 33 * 512;
        let now = folder.read("card");
        for at in [slot, slot + 32, slot + 64] {
            let expected = if is_there { start[at] } else { 0xE5 };
            assert_eq!(now[at], expected, "{limit}");
        }
    }
}

/// Control characters in a long name do not reach the terminal; in JSON they are as they are.
#[test]
fn odd_characters() {
    let mut made = Card {
        spec: CardSpec::K,
        bytes: card_with_route(700),
    };
    let slot = made.give_long_name(0, 1).expect("room");
    made.slot_mut(slot - 1)[1..11].copy_from_slice(b"a\0\x1B\0\n\0\x7F\0'\0");
    made.slot_mut(slot - 1)[14] = 0;
    let folder = folder_with("long-odd", &made.bytes);
    let run = folder.lfat("rm card ROUTE.CUT").done();
    let expected = "ROUTE.CUT is removed, and its long name 'a???'' (1 entry) with it\n";
    assert_eq!(run.text(), expected);
    folder.write("card", &made.bytes);
    let run = folder.lfat("rm card ROUTE.CUT --json").done();
    check(
        &folder,
        run.bytes(),
        "v['long_name'] == 'a\\x1b\\n\\x7f\\''",
    );
}

/// Card K with files, of which ROUTE.CUT has so many long entries before its slot.
fn racked(slot: usize, count: usize) -> Vec<u8> {
    let mut card = Card {
        spec: CardSpec::K,
        bytes: card_with_route(1_300),
    };
    let bytes = card.slot(0).to_vec();
    card.fill_root(0);
    for unused in slot + 1..512 {
        card.slot_mut(unused).fill(0);
    }
    card.slot_mut(slot).copy_from_slice(&bytes);
    card.put_long_entries(slot, count);
    card.bytes
}

/// The tables in full, with one recovery for each cut: a delete over two root sectors, a rename over four.
#[test]
fn on_the_rack() {
    let folder = folder_with("long-rack", &racked(17, 2));
    let run = folder
        .lfat("rack card rm ROUTE.CUT --depth 0 --random 0")
        .done();
    let wanted = "\
rm ROUTE.CUT with 2 long entries: 6 stores

last store made     cuts  recoveries       old       new  mismatch
none                   1           1         1         0         0
FAT2                   1           1         1         0         0
log record             1           1         0         1         0
FAT1                   1           1         0         1         0
root                   2           2         0         2         0
commit                 1           1         0         1         0
all                    7           7         2         5         0
";
    assert_eq!(run.text(), wanted);
    let mut card = Card {
        spec: CardSpec::K,
        bytes: racked(51, 20),
    };
    card.mark_deleted([0]);
    folder.write("card", &card.bytes);
    let run = folder
        .lfat("rack card mv ROUTE.CUT NEW.CUT --depth 0 --random 0")
        .done();
    let wanted = "\
mv ROUTE.CUT to NEW.CUT with 20 long entries: 6 stores

last store made     cuts  recoveries       old       new  mismatch
none                   1           1         1         0         0
log record             1           1         0         1         0
root                   4           4         0         4         0
commit                 1           1         0         1         0
all                    7           7         1         6         0
";
    assert_eq!(run.text(), wanted);
    for line in ["rm ROUTE.CUT", "mv ROUTE.CUT NEW.CUT"] {
        folder.lfat(&format!("rack card {line} --depth 3")).done();
        assert!(folder.read("card") == card.bytes, "the image is only read");
    }
    let run: Run = folder
        .lfat("rack card rm ROUTE.CUT --json --random 1")
        .done();
    check(
        &folder,
        run.bytes(),
        "v['operations'][0]['long_entries'] == 20 and v['operations'][0]['stores'] == 7",
    );
}

/// Each root store is needed before the commit mark: rename stores log record 1, root 2 to 5, commit 6.
#[test]
fn wrong_turns_are_noticed() {
    let mut card = Card {
        spec: CardSpec::K,
        bytes: racked(51, 20),
    };
    card.mark_deleted([0]);
    let folder = folder_with("long-turns", &card.bytes);
    let rack = |swap: &str| folder.lfat(&format!("rack card mv ROUTE.CUT NEW.CUT --break={swap}"));
    for root in 2..6 {
        rack(&format!("{root},6")).failed(1, "not the new state: the root directory differs");
        rack(&format!("1,{root}")).failed(1, "not the old state: the root directory differs");
    }
    // Root sectors may go to the card in any order.
    rack("2,5").done();
}
