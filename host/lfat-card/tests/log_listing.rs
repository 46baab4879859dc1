//! The listing program, run on many tables, against the independent implementation.

use std::io::Write;
use std::process::{Command, Stdio};
use testkit::dates::stamp_record;
use testkit::random::Random;
use testkit::{AT, ROUTE};

/// What the program prints for a log table on its standard input.
fn printed(table: &[u8]) -> Vec<u8> {
    let program = concat!(env!("CARGO_MANIFEST_DIR"), "/../../target/bin/loglist");
    let mut child = Command::new(program)
        .stdin(Stdio::piped())
        .stdout(Stdio::piped())
        .spawn()
        .expect("loglist is built by `.ci/build --loglist`");
    let mut input = child.stdin.take().expect("a pipe");
    let table = table.to_vec();
    let writer = std::thread::spawn(move || {
        // The program may end before it has read all of too long an input.
        let _ = input.write_all(&table);
    });
    let output = child.wait_with_output().expect("loglist ends");
    writer.join().expect("the writer ends");
    output.stdout
}

fn same(table: &[u8]) {
    let own = printed(table);
    let other = reference::log_listing(table);
    assert!(
        own == other,
        "{} bytes:\n{}\n{}",
        table.len(),
        String::from_utf8_lossy(&own),
        String::from_utf8_lossy(&other)
    );
}

#[test]
fn lengths() {
    for n in [
        0, 1, 511, 512, 513, 1024, 65_024, 65_535, 65_536, 65_537, 66_048, 100_000,
    ] {
        same(&vec![0; n]);
        same(&vec![0x41; n]);
    }
}

/// A sector whose record 0 creates a long name is listed by that record alone, with any count above 0, pending or committed.
#[test]
fn sectors_that_are_led() {
    for first in [b'R', 0xE5, 0] {
        for count in [0, 1, 2, 16, 17, 0x80, 0xFF] {
            for operation in 0..8 {
                let mut table = vec![b'x'; 3 * 512];
                table[512..523].copy_from_slice(ROUTE);
                table[512] = first;
                table[512 + 12] = count;
                table[512 + 13] = operation;
                same(&table);
                table[1024..].fill(0);
                same(&table);
            }
        }
    }
}

/// M3's log sector after its first store and after its last: the stamp is a part.
#[test]
fn the_stamp_of_m3() {
    for (limit, lines) in [
        (
            1,
            "0 0 create pending ROUTE.CUT slot 0 first 0 from 0 size 0\n\
             0 1 part pending T???????.??? slot 0 first 0 from 0 size 0\n",
        ),
        (
            3,
            "0 0 create committed ?OUTE.CUT slot 0 first 0 from 0 size 0\n\
             0 1 part committed ????????.??? slot 0 first 0 from 0 size 0\n",
        ),
    ] {
        let mut card = reference::card_k();
        reference::create(&mut card, ROUTE, AT, limit);
        let text = printed(&card[65 * 512..66 * 512]);
        let expected = format!("log 1 sectors\n{lines}");
        assert_eq!(String::from_utf8_lossy(&text), expected);
    }
}

/// Stamps after records of all operations, with and without a long-name count, pending and committed, and elsewhere.
#[test]
fn stamps() {
    for operation in 0..8 {
        for (first, stamp) in [
            (b'R', 0x54),
            (0xE5, 0xE5),
            (b'R', 0xE5),
            (0xE5, 0x54),
            (0, 0x54),
        ] {
            for count in [0, 1, 16] {
                for place in [1, 2, 15] {
                    let mut table = vec![0; 512];
                    table[..11].copy_from_slice(ROUTE);
                    table[0] = first;
                    table[12] = count;
                    table[13] = operation;
                    table[32 * place..][..32].copy_from_slice(&stamp_record(AT));
                    table[32 * place] = stamp;
                    same(&table);
                }
            }
        }
    }
}

#[test]
fn random_tables() {
    let mut random = Random::new(0x8A5C_D789_635D_2DFF);
    for round in 0..60 {
        let sectors = 1 + random.below(9);
        let mut table = vec![0u8; 512 * sectors];
        for record in table.chunks_mut(32) {
            if random.one_in(3) {
                continue;
            }
            for byte in record.iter_mut() {
                *byte = match random.below(4) {
                    0 => 0x20,
                    1 => 0,
                    _ => random.byte(),
                };
            }
            if random.one_in(2) {
                record[..11].copy_from_slice(ROUTE);
            }
            record[0] = if round % 5 == 0 { 0xE5 } else { record[0] };
            record[13] = random.below(8) as u8;
        }
        same(&table);
    }
}
