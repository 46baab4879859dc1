//! Numbers past 31 and 32 bits: the largest card, and buffers and windows longer than 4 GiB. Memory is taken only for the few
//! pages that are written.

use lfat_card::calls;
use reference::{Answer, CardSpec};
use testkit::call::Call;
use testkit::{ALL, AT, PANEL, ROUTE};

const LARGEST: CardSpec = CardSpec {
    reserved: 1,
    sectors_per_cluster: 64,
    sectors_per_fat: 256,
    root_entries: 65_520,
    total_sectors: 1 + 2 * 256 + 4_095 + 64 * 65_524,
    log_first: 65_524,
    log_clusters: 2,
    use_32bit_total: true,
};

fn put16(card: &mut [u8], at: usize, value: u16) {
    card[at..at + 2].copy_from_slice(&value.to_le_bytes());
}

/// A file over all clusters, from the highest that is free down to 2, five bytes short of full.
fn full_card() -> Vec<u8> {
    let mut card = LARGEST.build();
    for fat in [1, 257] {
        for cluster in 2..65_524u16 {
            let next = if cluster == 2 { 0xFFF8 } else { cluster - 1 };
            put16(&mut card, fat * 512 + usize::from(cluster) * 2, next);
        }
    }
    let slot = 513 * 512;
    card[slot..slot + 11].copy_from_slice(ROUTE);
    put16(&mut card, slot + 26, 65_523);
    let size: u32 = 65_522 * 32_768 - 5;
    card[slot + 28..slot + 32].copy_from_slice(&size.to_le_bytes());
    card
}

/// The last cluster's bytes lie past 2^31.
#[test]
fn largest_card() {
    let (mut own, mut other) = (full_card(), full_card());
    assert!(own.len() > 1 << 31);
    let size = 65_522 * 32_768 - 5;
    let front = (1 + 512 + 4_095) * 512;
    let route = || ROUTE.to_vec();
    for (call, expected) in [
        (Call::Fits(0), Answer::Done(0)),
        (Call::Fits(1), Answer::No),
        (Call::Read(route(), 0, 40_000), Answer::Done(40_000)),
        (Call::Read(route(), size - 9, 40), Answer::Done(9)),
        (Call::Append(route(), vec![3; 5], AT), Answer::Done(4)),
        (Call::Truncate(route(), size - 70_000, AT), Answer::Done(5)),
        (
            Call::Append(route(), vec![4; 65_536], AT),
            Answer::Done(129 + 5),
        ),
        (
            Call::Truncate(route(), 32_769, AT),
            Answer::Done(2 * 256 + 3),
        ),
        (Call::Create(PANEL.to_vec(), AT), Answer::Done(3)),
        (
            Call::Append(PANEL.to_vec(), vec![5; 32_769], AT),
            Answer::Done(65 + 5),
        ),
        // From clusters 2 and 3 to 4, 5 and 6, and back.
        (
            Call::Replace(PANEL.to_vec(), vec![8; 65_537], AT),
            Answer::Done(129 + 5),
        ),
        (
            Call::Replace(PANEL.to_vec(), vec![5; 32_769], AT),
            Answer::Done(65 + 5),
        ),
        (
            Call::Append(route(), vec![6; 65_536], AT),
            Answer::Done(129 + 7),
        ),
        (Call::Read(route(), 32_760, 40), Answer::Done(40)),
        (Call::Delete(route()), Answer::Done(7)),
        (Call::List(64), Answer::Done(1)),
        // All but clusters 2 and 3 and the log's: 65,520 of 32,768 bytes, just under 2^31.
        (Call::Fits(1), Answer::Done(4)),
        (Call::Fits(2_146_959_360), Answer::Done(65_523)),
        (Call::Fits(2_146_959_361), Answer::No),
        (Call::Fits(u64::from(u32::MAX)), Answer::No),
        (Call::Fits((1 << 32) + 1), Answer::No),
        (Call::Fits((1 << 47) + 1), Answer::No),
        (Call::Fits(u64::MAX), Answer::No),
    ] {
        let mut expected_bytes = vec![0; call.room()];
        let mut bytes = vec![0; call.room()];
        let answer = call.on_reference(&mut other, ALL, &mut expected_bytes);
        assert_eq!(answer, expected, "{call:?}");
        let got = call.on_library(&mut own, ALL, &mut bytes);
        assert_eq!(got.encode(), answer.encode(), "{call:?}");
        assert!(bytes == expected_bytes, "{call:?}");
        assert!(own[..front] == other[..front], "{call:?}");
    }
    assert!(own == other);
}

#[test]
fn lengths_past_32_bits() {
    const LENGTH: usize = (1 << 32) + 600;
    let mut card = reference::card_k();
    let mut long = vec![0u8; LENGTH];
    assert_eq!(calls::create(&mut card, ROUTE, AT, ALL).encode(), 3);
    let before = card.clone();
    // Cut to 32 bits it would be 600 bytes, which fit.
    assert_eq!(
        calls::append(&mut card, ROUTE, &long, AT, ALL).encode(),
        15 << 32
    );
    assert_eq!(
        calls::replace(&mut card, ROUTE, &long, AT, ALL).encode(),
        15 << 32
    );
    assert_eq!(calls::create(&mut card, &long, AT, ALL).encode(), 8 << 32);
    // Cut to 32 bits it would be 300 characters, and with one more byte an odd number; cut to 33 it would be taken for none.
    for length in [LENGTH, LENGTH - 1, 1 << 32, (1 << 32) + 2] {
        let characters = &long[..length];
        let answer = calls::create_long(&mut card, b"PANEL   CUT", characters, AT, ALL);
        assert_eq!(answer.encode(), 17 << 32);
    }
    assert!(card == before);
    assert_eq!(
        calls::append(&mut card, ROUTE, &[9; 700], AT, ALL).encode(),
        7
    );
    // As a buffer it has room for all of the file.
    assert_eq!(calls::read(&card, ROUTE, 0, &mut long).encode(), 700);
    assert!(long[..700] == [9; 700] && long[700..9_000] == [0; 8_300]);
    assert_eq!(calls::list(&card, &mut long).encode(), 1);
    assert!(long[32..700] == [9; 668]);
    assert_eq!(calls::long_name(&card, ROUTE, &mut long).encode(), 0);
    // As a window it is longer than the card.
    long[..card.len()].copy_from_slice(&card);
    assert_eq!(calls::fits(&long, 600).encode(), 13);
    assert_eq!(calls::delete(&mut long, ROUTE, ALL).encode(), 5);
    assert_eq!(calls::delete(&mut card, ROUTE, ALL).encode(), 5);
    assert!(long[..card.len()] == card);
}
