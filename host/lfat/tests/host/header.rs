//! The header, as C99 and as C++: its constants are the library's, and its examples run.

use crate::support::c::{build, top};
use crate::support::cli::Folder;
use crate::support::{card_with_route, points};
use lfat_card::Refusal;
use testkit::AT;

fn refusals() -> impl Iterator<Item = Refusal> {
    (1..).map_while(Refusal::with_number)
}

/// Prints every constant that a caller may use.
fn constants_source() -> String {
    let mut source = "#include \"lfat.h\"\n#include <stdio.h>\nint main(void) {\n".to_string();
    let mut codes: Vec<&str> = refusals().map(Refusal::name).collect();
    codes.extend(["DONE", "NO", "STOPPED"]);
    for code in codes {
        source +=
            &format!("printf(\"%d %s\\n\", (int)LFAT_{code}, lfat_code_name(LFAT_{code}));\n");
    }
    source += "printf(\"%s %s\\n\", lfat_code_name(20), lfat_code_name(0xFFFFFFFFu));\n\
               printf(\"%lu %lu\\n\", (unsigned long)LFAT_CODE(UINT64_C(255) << 32 | 7), \
               (unsigned long)LFAT_COUNT(UINT64_C(255) << 32 | 7));\n\
               printf(\"%lx %d %d %d %d %d\\n\", (unsigned long)LFAT_NO_LIMIT, LFAT_SECTOR_BYTES, \
               LFAT_NAME_BYTES, LFAT_ENTRY_BYTES, LFAT_NEW_CHARACTERS, LFAT_LONG_CHARACTERS);\n\
               printf(\"%lu\\n\", (unsigned long)LFAT_LAST_SECOND);\nreturn 0;\n}\n";
    source
}

fn constants_expected() -> String {
    let mut text: String = refusals()
        .map(|refusal| format!("{} {}\n", refusal.number(), refusal.name()))
        .collect();
    text += "0 DONE\n254 NO\n255 STOPPED\nunknown unknown\n255 7\nffffffff 512 11 32 208 260\n4039286399\n";
    text
}

/// The lines of code in the header's comment that follow these words.
pub fn example(words: &str) -> String {
    let header = std::fs::read_to_string(top().join("include/lfat.h")).expect("the header");
    let (_, rest) = header.split_once(words).expect("the header has the words");
    let is_code = |line: &&str| line.starts_with(" *     ");
    let code = rest.lines().skip_while(|line| !is_code(line));
    code.take_while(is_code)
        .map(|line| format!("{}\n", &line[2..]))
        .collect()
}

/// The example that saves, run on an empty card; prints what it left, and the dates of slot 0 as they stand.
fn saving_source() -> String {
    let example = example("Example: save");
    assert!(
        example.contains("lfat_append")
            && example.contains("lfat_seconds(2026, 11, 17, 19, 30, 58)")
    );
    format!(
        "#include \"lfat.h\"\n#include <stdio.h>\nstatic uint8_t card[4150 * 512];\n\
         int main(void) {{\nsize_t card_len = sizeof card;\nuint8_t back[9];\nuint64_t read;\n\
         if (fread(card, 1, card_len, stdin) != card_len) return 1;\n{{\n{example}\n\
         read = lfat_read(card, card_len, name, 11, 0, back, sizeof back);\n}}\n\
         printf(\"%lu %.3s\", (unsigned long)LFAT_COUNT(read), (const char *)back);\n\
         fwrite(card + 33 * 512 + 13, 1, 13, stdout);\nreturn 0;\n}}\n"
    )
}

/// The example that replaces, run on a card with ROUTE.CUT or without; prints the code and what the file has then.
fn replacing_source() -> String {
    let example = example("Example: replace");
    assert!(example.contains("lfat_replace") && example.contains("LFAT_ABSENT"));
    format!(
        "#include \"lfat.h\"\n#include <stdio.h>\nstatic uint8_t card[4150 * 512];\n\
         static const uint8_t name[] = \"ROUTE   CUT\", data[] = \"G1 X9\\n\";\nstatic const uint32_t seconds = 0;\n\
         int main(void) {{\nsize_t card_len = sizeof card, data_len = 6;\nuint8_t back[2000];\nuint64_t read;\n\
         if (fread(card, 1, card_len, stdin) != card_len) return 1;\n{{\n{example}\n\
         printf(\"%s \", lfat_code_name(LFAT_CODE(answer)));\n}}\n\
         read = lfat_read(card, card_len, name, 11, 0, back, sizeof back);\n\
         fwrite(back, 1, LFAT_COUNT(read), stdout);\nreturn 0;\n}}\n"
    )
}

/// The example that asks whether bytes fit, with their number from the first line of standard input, before the card.
fn fitting_source() -> String {
    let example = example("Example: ask whether");
    assert!(example.contains("lfat_fits") && example.contains("LFAT_NO"));
    format!(
        "#include \"lfat.h\"\n#include <stdio.h>\n#include <string.h>\nstatic uint8_t card[4150 * 512], before[sizeof card];\n\
         int main(void) {{\nsize_t card_len = sizeof card;\nunsigned long data_len;\n\
         if (scanf(\"%lu\", &data_len) != 1 || getchar() != '\\n') return 1;\n\
         if (fread(card, 1, card_len, stdin) != card_len) return 1;\nmemcpy(before, card, card_len);\n{{\n{example}\n}}\n\
         return memcmp(before, card, card_len) != 0;\n}}\n"
    )
}

/// The example of a long name, run on a card; prints the code, the count and the characters as they were read back.
fn naming_source() -> String {
    let example = example("Example: a file with a long name");
    assert!(example.contains("lfat_create_long") && example.contains("lfat_long_name"));
    format!(
        "#include \"lfat.h\"\n#include <stdio.h>\nstatic uint8_t card[4150 * 512];\n\
         static const uint8_t name[] = \"PORT7   CUT\";\nstatic const uint32_t seconds = LFAT_LAST_SECOND;\n\
         int main(void) {{\nsize_t card_len = sizeof card;\n\
         if (fread(card, 1, card_len, stdin) != card_len) return 1;\n{{\n{example}\n\
         printf(\"%s %lu \", lfat_code_name(LFAT_CODE(answer)), (unsigned long)LFAT_COUNT(answer));\n\
         fwrite(text, 2, LFAT_COUNT(answer), stdout);\n}}\nreturn 0;\n}}\n"
    )
}

/// The example that formats, over what comes on standard input; prints what it tells, and the card.
fn formatting_source() -> String {
    let example = example("Example: make an empty card");
    assert!(example.contains("lfat_format(card, card_len, 16384, 2, 16, LFAT_NO_LIMIT)"));
    format!(
        "#include \"lfat.h\"\n#include <stdio.h>\nstatic uint8_t card[16384 * 512];\n\
         int main(void) {{\nsize_t card_len = fread(card, 1, sizeof card, stdin);\n{{\n{example}\n}}\n\
         fwrite(card, 1, card_len, stdout);\nreturn 0;\n}}\n"
    )
}

/// An example that reads ROUTE.CUT; prints what it used.
fn reading_source(words: &str) -> String {
    let example = example(words);
    assert!(example.contains("lfat_read"));
    format!(
        "#include \"lfat.h\"\n#include <stdio.h>\nstatic uint8_t card[4150 * 512];\n\
         static const uint8_t name[] = \"ROUTE   CUT\";\nenum {{ LONGEST = 1300 }};\n\
         static void use(const uint8_t *bytes, size_t length) {{ fwrite(bytes, 1, length, stdout); }}\n\
         int main(void) {{\nsize_t card_len = sizeof card;\n\
         if (fread(card, 1, card_len, stdin) != card_len) return 1;\n{example}\nreturn 0;\n}}\n"
    )
}

/// A program in a folder of its own, built from a source.
pub struct Program(pub Folder);

impl Program {
    pub fn build(compiler: &str, standard: &str, what: &str, source: &str) -> Option<Program> {
        let folder = Folder::new(&format!("header-{standard}-{what}"));
        let suffix = if standard.starts_with("c++") {
            "cpp"
        } else {
            "c"
        };
        let file = folder.path().join(format!("source.{suffix}"));
        std::fs::write(&file, source).expect("a source");
        build(compiler, standard, &file, &folder.path().join("program"))?;
        Some(Program(folder))
    }

    /// What it prints with a card as standard input.
    pub fn printed(&self, card: &[u8]) -> Vec<u8> {
        self.0.write("card", card);
        let card = std::fs::File::open(self.0.path().join("card")).expect("the card");
        let program = self.0.path().join("program");
        self.0.run(program, "", card.into()).done().bytes().to_vec()
    }
}

/// `None` if there is no such compiler.
fn check(compiler: &str, standard: &str) -> Option<()> {
    let program = |what, source: String| Program::build(compiler, standard, what, &source);
    let constants = program("constants", constants_source())?;
    assert_eq!(constants.printed(&[]), constants_expected().into_bytes());
    let saving = program("saving", saving_source())?;
    let mut slot = [0; 32];
    testkit::dates::stamp_created(&mut slot, 1_479_411_058);
    let wanted = [b"3 G0\n", &slot[13..26]].concat();
    assert_eq!(saving.printed(&reference::card_k()), wanted);

    let replacing = program("replacing", replacing_source())?;
    for card in [
        card_with_route(1_300),
        card_with_route(0),
        reference::card_k(),
    ] {
        assert_eq!(replacing.printed(&card), b"DONE G1 X9\n");
    }
    let mut cut = card_with_route(1_300);
    reference::append(&mut cut, b"ROUTE   CUT", &points(1_300), AT, 6);
    assert_eq!(replacing.printed(&cut), b"UNCLEAN ");

    let naming = program("naming", naming_source())?;
    let named = naming.printed(&card_with_route(1_300));
    assert_eq!(named, b"DONE 6 P\0o\0r\0t\0 \x007\0");
    assert_eq!(naming.printed(&cut), b"UNCLEAN 0 ");

    // ROUTE.CUT has three of 4,077 clusters.
    let fitting = program("fitting", fitting_source())?;
    for (bytes, words) in [
        (0, "fits\n"),
        (2_085_888, "fits\n"),
        (2_085_889, "does not fit\n"),
        (1 << 32, "does not fit\n"),
        (u64::MAX, "does not fit\n"),
    ] {
        let input = [format!("{bytes}\n").as_bytes(), &card_with_route(1_300)].concat();
        assert_eq!(fitting.printed(&input), words.as_bytes(), "{bytes}");
    }
    assert_eq!(fitting.printed(&[b"1\n", &cut[..]].concat()), b"UNCLEAN\n");

    let formatting = program("formatting", formatting_source())?;
    let mut card = vec![0xA5; 16_384 * 512];
    let short = [b"WINDOW\n", &card[512..]].concat();
    assert!(formatting.printed(&card[512..]) == short);
    let printed = formatting.printed(&card);
    reference::format(&mut card, 16_384, 2, 16, u32::MAX);
    assert!(printed == card);

    let whole = program(
        "whole",
        reading_source("a count below that is a whole file"),
    )?;
    for (size, used) in [
        (0, 0),
        (1_299, 1_299),
        (1_300, 1_300),
        (1_301, 0),
        (5_000, 0),
    ] {
        assert_eq!(
            whole.printed(&card_with_route(size)),
            points(used),
            "{size}"
        );
    }
    let pieces = program("pieces", reading_source("so take large pieces"))?;
    for size in [0, 1, 65_535, 65_536, 65_537, 131_072, 140_000] {
        assert!(
            pieces.printed(&card_with_route(size)) == points(size),
            "{size}"
        );
    }
    Some(())
}

#[test]
fn as_c99() {
    check("gcc", "c99").expect("gcc is there");
}

#[test]
fn as_cpp() {
    check("g++", "c++11").expect("g++ is there");
}
