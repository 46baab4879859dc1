//! What the header says of the library as a file: the machine, the functions that it needs, no variables. Needs binutils.

use std::collections::BTreeSet;
use std::process::Command;

const HEADER: &str = include_str!("../../../include/lfat.h");

/// What a tool of binutils prints about the library.
fn printed(tool: &str, option: &str) -> String {
    let output = Command::new(tool)
        .arg(option)
        .arg(env!("LFAT_LIBRARY"))
        .output();
    let output = output.unwrap_or_else(|error| panic!("{tool} of binutils: {error}"));
    assert!(output.status.success(), "{tool} {option}");
    String::from_utf8(output.stdout).expect("plain text")
}

/// The symbols of the library, each with nm's letter.
fn symbols() -> Vec<(char, String)> {
    let text = printed("nm", "--format=posix");
    let symbol = |line: &str| {
        let mut words = line.split(' ');
        let (name, letter) = (words.next()?, words.next()?);
        Some((letter.chars().next()?, name.to_string()))
    };
    text.lines().filter_map(symbol).collect()
}

fn with_letter(wanted: char) -> BTreeSet<String> {
    let symbols = symbols().into_iter();
    symbols
        .filter(|(letter, _)| *letter == wanted)
        .map(|(_, name)| name)
        .collect()
}

fn words(text: &str) -> BTreeSet<String> {
    text.split(", ").map(str::to_string).collect()
}

#[test]
fn functions_that_it_needs() {
    let (_, rest) = HEADER
        .split_once("functions of C, and nothing else: ")
        .expect("the list");
    let (listed, _) = rest.split_once(';').expect("its end");
    assert_eq!(with_letter('U'), words(listed));
}

#[test]
fn functions_that_it_has() {
    let declared = HEADER
        .lines()
        .filter_map(|line| line.strip_prefix("uint64_t "));
    let declared = declared.filter_map(|line| line.split_once('('));
    let declared: BTreeSet<String> = declared.map(|(name, _)| name.to_string()).collect();
    assert_eq!(declared.len(), 13);
    assert_eq!(with_letter('T'), declared);
}

/// Code, constants, and what it needs: no symbol of another kind, and no bytes that can be written.
#[test]
fn no_variables() {
    let other: Vec<_> = symbols()
        .into_iter()
        .filter(|(letter, _)| !"TtrRU".contains(*letter))
        .collect();
    assert!(other.is_empty(), "{other:?}");
    let sizes = printed("size", "--format=sysv");
    let sections: Vec<(&str, &str)> = sizes
        .lines()
        .filter_map(|line| line.split_once(' '))
        .map(|(name, rest)| (name, rest.split_whitespace().next().unwrap_or_default()))
        .filter(|(name, _)| name.starts_with('.'))
        .collect();
    assert!(
        sections.iter().any(|(name, _)| name.starts_with(".text")),
        "{sizes}"
    );
    let is_data = |name: &str| {
        [".data", ".bss", ".tdata", ".tbss"]
            .iter()
            .any(|kind| name.starts_with(kind))
    };
    let variables: Vec<_> = sections
        .iter()
        .filter(|(name, size)| is_data(name) && *size != "0")
        .collect();
    assert!(variables.is_empty(), "{variables:?}");
}

#[test]
fn machine() {
    let formats = printed("objdump", "--file-headers");
    let formats: BTreeSet<&str> = formats
        .lines()
        .filter_map(|line| line.split_once("file format "))
        .map(|(_, format)| format)
        .collect();
    assert_eq!(formats, BTreeSet::from(["elf64-x86-64"]));
}
