//! Read and list, with guard bytes around what they may fill.

use crate::support::{pattern, run_done};
use reference::*;
use testkit::cards::Card;
use testkit::{AT, OTHER, PANEL, ROUTE};

const GUARD: u8 = 0x5A;

/// A card with two sectors per cluster and a file on clusters 30, 12 and 40.
fn with_file(size: usize) -> (Card, Vec<u8>) {
    let mut card = Card::new(CardSpec {
        sectors_per_cluster: 2,
        total_sectors: 65 + 2 * 4_085,
        ..CardSpec::K
    });
    let data = pattern(size, 2);
    card.put_slot(0, ROUTE, 0x20, 30, size as u32);
    card.put_chain(&[30, 12, 40], 0xFFF8);
    for (cluster, piece) in [30, 12, 40].into_iter().zip(data.chunks(1_024)) {
        let at = card.cluster(cluster) * 512;
        card.bytes[at..at + 1_024].fill(0xBB);
        card.bytes[at..at + piece.len()].copy_from_slice(piece);
    }
    (card, data)
}

/// Reads into the middle of a guarded buffer; gives the bytes read.
fn read_guarded(card: &[u8], offset: u64, length: usize) -> Vec<u8> {
    let mut buffer = vec![GUARD; length + 64];
    let answer = read(card, ROUTE, offset, &mut buffer[32..32 + length]);
    let Answer::Done(count) = answer else {
        panic!("{answer:?}")
    };
    let end = 32 + count as usize;
    assert!(count as usize <= length);
    assert!(buffer[..32].iter().all(|&byte| byte == GUARD));
    assert!(buffer[end..].iter().all(|&byte| byte == GUARD));
    buffer[32..end].to_vec()
}

#[test]
fn read_every_offset_with_several_lengths() {
    let (card, data) = with_file(2_500);
    for offset in 0..=2_600 {
        for length in [0, 1, 31, 512, 1_024, 1_100, 3_000] {
            let from = offset.min(data.len());
            let to = (from + length).min(data.len());
            let read = read_guarded(&card.bytes, offset as u64, length);
            assert_eq!(read, data[from..to], "{offset} {length}");
        }
    }
}

#[test]
fn read_past_the_end() {
    let (card, _) = with_file(3_072);
    assert_eq!(read_guarded(&card.bytes, 3_071, 100).len(), 1);
    for offset in [3_072, 3_073, 1 << 31, 1 << 32, (1 << 32) + 3_071, u64::MAX] {
        assert_eq!(read_guarded(&card.bytes, offset, 100), []);
    }
}

#[test]
fn read_an_empty_file() {
    let mut card = Card::k();
    run_done(
        &mut card.bytes,
        &Operation::Create {
            name: ROUTE,
            seconds: AT,
        },
    );
    assert_eq!(read_guarded(&card.bytes, 0, 100), []);
}

#[test]
fn read_asks_the_chain_rule_of_the_whole_file() {
    let (mut card, _) = with_file(2_500);
    card.set_fats(40, 0xFFF7);
    let refused = Answer::Refused(Ground::Chain);
    for (offset, length) in [(0, 10), (0, 0), (5_000, 10)] {
        let mut buffer = vec![GUARD; length];
        assert_eq!(read(&card.bytes, ROUTE, offset, &mut buffer), refused);
        assert!(buffer.iter().all(|&byte| byte == GUARD));
    }
}

/// A root with entries in slots 1, 4, 5 and 6 between slots to be left out.
fn mixed_root() -> Card {
    let mut card = Card::k();
    card.put_slot(0, b"LABEL      ", 0x08, 0, 0);
    card.put_slot(1, ROUTE, 0x20, 20, 512);
    card.put_slot(2, b"\xE5ONE       ", 0x20, 0, 0);
    card.put_slot(3, b"Along name ", 0x0F, 0, 0);
    card.put_slot(4, b"FOLDER     ", 0x10, 30, 0);
    card.put_slot(5, PANEL, 0x01, 50, 99);
    card.put_slot(6, OTHER, 0x00, 0, 0);
    card
}

#[test]
fn list_into_every_length() {
    let card = mixed_root();
    let entries = [1, 4, 5, 6].map(|slot| card.slot(slot)).concat();
    for length in 0..=200 {
        let mut buffer = vec![GUARD; length + 64];
        let answer = list(&card.bytes, &mut buffer[32..32 + length]);
        assert_eq!(answer, Answer::Done(4), "how many there are");
        let filled = (length / 32 * 32).min(entries.len());
        assert_eq!(buffer[32..32 + filled], entries[..filled]);
        assert!(buffer[..32].iter().all(|&byte| byte == GUARD));
        assert!(buffer[32 + filled..].iter().all(|&byte| byte == GUARD));
    }
}

#[test]
fn list_a_full_root() {
    let mut card = Card::k();
    card.fill_root(0);
    let mut buffer = vec![GUARD; 512 * 32];
    assert_eq!(list(&card.bytes, &mut buffer), Answer::Done(512));
    assert_eq!(buffer, card.bytes[33 * 512..65 * 512]);
}
