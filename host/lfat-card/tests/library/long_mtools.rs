//! Long names that the library writes, judged by mtools and fsck.fat, and names of mtools as the library reads them: the entries
//! are the same, byte for byte. `support::image` has how the cards are made.
//! mtools know characters of 16 bits only: of names with surrogate pairs they show the halves as `_`.

use crate::support::image::Image;
use lfat_card::calls::{self, Answer};
use lfat_card::Refusal;
use testkit::characters::bytes_of_text;
use testkit::{Name, ALL, AT};

/// Long names as mcopy is given them, with the short names that it makes.
fn names() -> Vec<(String, Name)> {
    let name = |long: &str, short: &Name| (long.to_string(), *short);
    vec![
        name("Hull 7 sheer panel.cut", b"HULL7S~1CUT"),
        name("Mixed.Cut", b"MIXED   CUT"),
        name("a+b=c;d,1.cut", b"A_B_C_~1CUT"),
        name("two.dots.in it", b"TWODOT~1IN "),
        name("Путь один.cut", b"______~1CUT"),
        name("航路計画.cut", b"____    CUT"),
        name("\u{FF21}\u{FF22}\u{FFFD}\u{E55}\u{100}.cut", b"AB__A   CUT"),
        name(&"d".repeat(12), b"DDDDDD~1   "),
        name(&"e".repeat(13), b"EEEEEE~1   "),
        name(&"f".repeat(14), b"FFFFFF~1   "),
        name(&"g".repeat(26), b"GGGGGG~1   "),
        name(&"h".repeat(27), b"HHHHHH~1   "),
        name(&"x".repeat(195), b"XXXXXX~1   "),
        name(&"y".repeat(208), b"YYYYYY~1   "),
    ]
}

fn slot(card: &[u8], index: usize) -> &[u8] {
    let sectors = usize::from(u16::from_le_bytes([card[22], card[23]]));
    &card[(1 + 2 * sectors) * 512 + 32 * index..][..32]
}

fn is_long(slot: &[u8]) -> bool {
    slot[0] != 0xE5 && slot[0] != 0 && slot[11] == 0x0F
}

/// The long name of a file as the library reads it.
fn read_back(card: &[u8], name: &[u8]) -> Vec<u8> {
    let mut buffer = vec![0xA5; 521];
    match calls::long_name(card, name, &mut buffer) {
        Answer::Done(count) => {
            let (name, rest) = buffer.split_at(2 * count as usize);
            assert!(rest.iter().all(|&byte| byte == 0xA5));
            name.to_vec()
        }
        other => panic!("{other:?}"),
    }
}

/// The name written by mtools, and by the library on the same card with the short name that mtools made: the long entries in the
/// same slots, byte for byte. Every name is read back, and mtools find the library's.
#[test]
fn the_entries_of_mtools() {
    let mut image = Image::format("written.img", 1, 2_200, 512);
    image.copy_in(b"first", "::/FIRST.CUT");
    for (long, alias) in names() {
        let before = image.card.clone();
        image.copy_in(long.as_bytes(), &format!("::/{long}"));
        let by_tool = image.card.clone();
        let entries = (0..512).filter(|&at| slot(&by_tool, at) != slot(&before, at));
        let entries: Vec<usize> = entries.collect();
        let (&short, entries) = entries.split_last().expect("new slots");
        let made: Name = slot(&by_tool, short)[..11].try_into().expect("11 bytes");
        assert!(made == alias, "{long}: {}", made.escape_ascii());
        let characters = bytes_of_text(&long);
        assert_eq!(read_back(&by_tool, &made), characters, "{long}");

        let answer = calls::create_long(&mut image.card, &alias, &characters, AT, ALL);
        assert_eq!(answer, Answer::Refused(Refusal::Exists));
        image.card = before;
        let answer = calls::create_long(&mut image.card, &made, &characters, AT, ALL);
        assert!(matches!(answer, Answer::Done(3..)), "{long}: {answer:?}");
        for &entry in entries {
            assert!(is_long(slot(&by_tool, entry)), "{long}");
            assert_eq!(slot(&image.card, entry), slot(&by_tool, entry), "{long}");
        }
        assert_eq!(slot(&image.card, short)[..12], slot(&by_tool, short)[..12]);
        assert_eq!(read_back(&image.card, &made), characters, "{long}");
        let answer = calls::append(&mut image.card, &made, long.as_bytes(), AT, ALL);
        assert!(matches!(answer, Answer::Done(1..)), "{long}: {answer:?}");
        image.save();
        assert!(image.listed().contains(&long), "{long}");
        let typed = image.tool("mtype", &[&format!("::/{long}")]);
        assert_eq!(typed, long.as_bytes());
        image.check();
    }
}

/// mtools take the library's names away, and rename its files: nothing is left over. Their names of up to 255 characters are read.
#[test]
fn mtools_on_the_librarys_names() {
    let mut image = Image::format("judged-long.img", 2, 4_300, 256);
    for (long, alias) in names()
        .into_iter()
        .filter(|(long, _)| !long.contains('\u{FF21}'))
    {
        let characters = bytes_of_text(&long);
        let answer = calls::create_long(&mut image.card, &alias, &characters, AT, ALL);
        assert!(matches!(answer, Answer::Done(3..)), "{long}: {answer:?}");
        image.save();
        image.check();
        if long.len() % 2 == 0 {
            image.tool("mren", &[&format!("::/{long}"), "::/RENAMED.CUT"]);
            image.load();
            assert_eq!(read_back(&image.card, b"RENAMED CUT"), b"");
            image.tool("mdel", &["::/RENAMED.CUT"]);
        } else {
            image.tool("mdel", &[&format!("::/{long}")]);
        }
        image.load();
        assert_eq!(image.listed(), Vec::<String>::new());
        image.check();
    }
    for length in [209, 247, 248, 255] {
        let long = "w".repeat(length);
        image.copy_in(b"w", &format!("::/{long}"));
        assert_eq!(read_back(&image.card, b"WWWWWW~1   "), bytes_of_text(&long));
        let refused = calls::create_long(
            &mut image.card,
            b"W          ",
            &bytes_of_text(&long),
            AT,
            ALL,
        );
        assert_eq!(refused, Answer::Refused(Refusal::Longname));
        image.tool("mdel", &[&format!("::/{long}")]);
        image.load();
    }
}

/// Surrogate pairs, trailing dots and blanks, 0xFFFF: fsck.fat finds nothing, and mtools find the files by their short names.
#[test]
fn names_that_mtools_do_not_write() {
    let mut image = Image::format("odd-long.img", 1, 2_200, 512);
    for (at, long) in [
        "\u{1F6F6} canoe.cut",
        "dots...",
        " blank ",
        "\u{FFFF}\u{FFFE}x",
        "a\u{10FFFF}",
    ]
    .into_iter()
    .enumerate()
    {
        let alias: Name = format!("ODD~{at}   CUT")
            .as_bytes()
            .try_into()
            .expect("11 bytes");
        let characters = bytes_of_text(long);
        let answer = calls::create_long(&mut image.card, &alias, &characters, AT, ALL);
        assert!(matches!(answer, Answer::Done(3..)), "{long}: {answer:?}");
        let answer = calls::append(&mut image.card, &alias, long.as_bytes(), AT, ALL);
        assert!(matches!(answer, Answer::Done(1..)), "{long}");
        image.save();
        assert_eq!(read_back(&image.card, &alias), characters);
        let typed = image.tool("mtype", &[&format!("::/ODD~{at}.CUT")]);
        assert_eq!(typed, long.as_bytes());
        image.check();
    }
}
