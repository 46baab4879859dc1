//! New files with long names on the command line. Needs mtools and fsck.fat.

use crate::json::check;
use crate::refusals::folder_with;
use crate::support::long::{assert_clean, formatted_folder, lfat, tool, HULL};
use crate::support::points;
use testkit::characters::bytes_of_text;

#[test]
fn put_and_read() {
    let folder = formatted_folder("long-put");
    let run = lfat(&folder, &["put", "card", HULL, "path"]).done();
    assert_eq!(
        run.text(),
        "'Hull 7 sheer panel.cut' is saved as HULL7S~1.CUT\n"
    );
    let listed = "      1300  ROUTE.CUT\n      1300  HULL7S~1.CUT  'Hull 7 sheer panel.cut'\n";
    assert_eq!(lfat(&folder, &["ls", "card"]).done().text(), listed);
    let json = lfat(&folder, &["ls", "card", "--json"]).done();
    let names = "[(e['name'], e['long_name']) for e in v['entries']] == [('ROUTE.CUT', None), ('HULL7S~1.CUT', 'Hull 7 sheer panel.cut')]";
    check(&folder, json.bytes(), names);
    for name in [HULL, "HULL7S~1.CUT"] {
        assert_eq!(
            lfat(&folder, &["get", "card", name]).done().bytes(),
            points(1_300)
        );
    }
    folder.write("more", &points(200));
    lfat(&folder, &["append", "card", HULL, "more"]).done();
    assert_eq!(
        lfat(&folder, &["get", "card", HULL]).done().bytes().len(),
        1_500
    );
    lfat(&folder, &["truncate", "card", HULL, "100"]).done();
    assert_eq!(
        lfat(&folder, &["get", "card", HULL]).done().bytes(),
        points(100)
    );
    let exists = lfat(&folder, &["put", "card", HULL, "path"]);
    exists.failed(
        1,
        "EXISTS: the name is taken. Save over Hull 7 sheer panel.cut with 'lfat put --replace'",
    );
    assert_eq!(
        lfat(&folder, &["put", "-f", "card", HULL, "path"])
            .done()
            .text(),
        ""
    );
    assert_eq!(
        lfat(&folder, &["get", "card", HULL]).done().bytes(),
        points(1_300)
    );
    assert!(tool(&folder, "mdir", &["-i", "card", "::"]).contains(HULL));
    assert_eq!(
        tool(&folder, "mtype", &["-i", "card", &format!("::/{HULL}")]).len(),
        1_300
    );
    assert_clean(&folder);
    let run = lfat(&folder, &["mv", "card", HULL, "PANEL.CUT"]).done();
    let moved = "HULL7S~1.CUT is now PANEL.CUT; its long name 'Hull 7 sheer panel.cut' (2 entries) is removed\n";
    assert_eq!(run.text(), moved);
    lfat(&folder, &["put", "card", HULL, "path"]).done();
    let run = lfat(&folder, &["rm", "card", HULL]).done();
    let removed =
        "HULL7S~1.CUT is removed, and its long name 'Hull 7 sheer panel.cut' (2 entries) with it\n";
    assert_eq!(run.text(), removed);
    lfat(&folder, &["rm", "card", HULL]).failed(1, "ABSENT: no file has the name. 'lfat ls'");
    assert_clean(&folder);
}

/// Short names as mtools makes them, on the same card.
#[test]
fn short_names_of_mtools() {
    let folder = folder_with("short-names", &[]);
    folder.lfat("format card.new").done();
    folder.lfat("format tool").done();
    let mut names: Vec<String> = [
        "a+b=c;d,1.cut",
        "two.dots.in it",
        "Mixed.Cut",
        "a b.cut",
        ".hidden",
        "ab.long",
        "x.tar.gz",
        "1234567890.cut",
        "....a",
        "a..b",
        "route~1.longer",
        "abcdefgh.c u",
        "ABCDEFGHI",
        "a[1].cut",
        "  lead.cut",
        "verylong.extension",
        "verylong.extensi",
        "UPPER lower.CUT",
        "日本.cut",
        "日本日本日本日本.cut",
        "航路計画 a.cut",
        "Путь.cut",
        "a.b.c",
        "..x",
        "one.two.three",
    ]
    .map(str::to_string)
    .into();
    names.extend((0..12).map(|number| format!("Hull panel {number}.cut")));
    for name in &names {
        let run = lfat(&folder, &["put", "card.new", name, "path"]).done();
        tool(
            &folder,
            "mcopy",
            &["-i", "tool", "path", &format!("::/{name}")],
        );
        assert!(
            run.text().starts_with(&format!("'{name}' is saved as ")),
            "{}",
            run.text()
        );
    }
    let listed = |card: &str| lfat(&folder, &["ls", card]).done().text();
    let (own, other) = (listed("card.new"), listed("tool"));
    for (own, other) in own.lines().zip(other.lines()) {
        assert_eq!(own, other);
    }
    assert_eq!(own.lines().count(), names.len());
    assert_eq!(own, other);
    assert!(own.contains("HULLPA~9.CUT  'Hull panel 8.cut'"), "{own}");
    assert!(own.contains("HULLP~10.CUT  'Hull panel 9.cut'"), "{own}");
    // The lowest number that is free serves again.
    lfat(&folder, &["rm", "card.new", "Hull panel 3.cut"]).done();
    let run = lfat(&folder, &["put", "card.new", "Hull panel x.cut", "path"]).done();
    assert_eq!(run.text(), "'Hull panel x.cut' is saved as HULLPA~4.CUT\n");
}

/// Small letters alone: the capitals are the short name. Names in capitals that fit are plain ones, without a long name.
#[test]
fn capitals() {
    let folder = folder_with("capitals", &reference::card_k());
    let run = lfat(&folder, &["put", "card", "keel.cut", "path"]).done();
    assert_eq!(run.text(), "'keel.cut' is saved as KEEL.CUT\n");
    assert_eq!(
        lfat(&folder, &["put", "card", "STEM.CUT", "path"])
            .done()
            .text(),
        ""
    );
    let root = &folder.read("card")[33 * 512..34 * 512];
    assert_eq!(root[32 + 11], 0x20);
    assert_eq!(root[11], 0x0F);
    assert_eq!(root[64..75], *b"STEM    CUT");
    // Other systems do not tell small letters from capitals.
    for name in ["Keel.cut", "stem.cut", "Stem.Cut"] {
        lfat(&folder, &["put", "card", name, "path"])
            .failed(1, "EXISTS: the name is taken. Other systems take it for ");
        lfat(&folder, &["get", "card", name])
            .failed(1, "ABSENT: no file has the name. Did you mean ");
    }
    lfat(&folder, &["put", "-f", "card", "KEEL.CUT", "path"]).done();
    lfat(&folder, &["get", "card", "KEEL.CUT"]).done();
}

/// Characters outside 16 bits are surrogate pairs; 208 units are taken, 209 are not.
#[test]
fn characters_and_lengths() {
    let folder = formatted_folder("units");
    let boat = "\u{1F6F6}\u{1F6F6} σχέδιο 航路.cut";
    let run = lfat(&folder, &["put", "card", boat, "path"]).done();
    assert_eq!(
        run.text(),
        format!("'{boat}' is saved as _______~1.CUT\n").replace("_______", "______")
    );
    let mut buffer = [0; 200];
    let answer = reference::long_name(&folder.read("card"), b"______~1CUT", &mut buffer);
    let units = bytes_of_text(boat);
    assert_eq!(answer, reference::Answer::Done(units.len() as u32 / 2));
    assert_eq!(
        buffer[..8],
        [0x3D, 0xD8, 0xF6, 0xDE, 0x3D, 0xD8, 0xF6, 0xDE]
    );
    assert_eq!(
        lfat(&folder, &["get", "card", boat]).done().bytes(),
        points(1_300)
    );
    for (name, words) in [
        ("x".repeat(209), "LONGNAME: a long name has 1 to 208 characters, none below 32 and none of \" * / : < > ? \\ |. This one has 209."),
        ("\u{1F6F6}".repeat(105), "This one has 210."),
        ("a*b.cut".to_string(), "This one has a *"),
        ("tab\tbed".to_string(), "This one has a control character."),
    ] {
        let before = folder.read("card");
        let run = lfat(&folder, &["put", "card", &name, "path"]).failed(1, words);
        assert_eq!(run.errors().lines().count(), 1);
        assert!(folder.read("card") == before);
    }
    lfat(&folder, &["put", "card", &"x".repeat(208), "path"]).done();
    lfat(&folder, &["put", "card", &"\u{1F6F6}".repeat(104), "path"]).done();
    assert_clean(&folder);
    let text = lfat(&folder, &["ls", "card"]).done().text();
    assert!(text.contains(&"\u{1F6F6}".repeat(104)) && text.contains(&"x".repeat(208)));
}
