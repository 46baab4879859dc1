//! Card K worked through: the rows M3 to M10 and the sectors that each stores, as the requirements have them.

use lfat_card::calls::{self, Answer};
use testkit::{ALL, AT, ROUTE};

const NAME: &[u8] = ROUTE;

/// The sectors that a call changes store by store, found by running it with one limit after the other.
fn stored(card: &mut Vec<u8>, call: impl Fn(&mut [u8], u32) -> Answer) -> Vec<usize> {
    let mut sectors = Vec::new();
    let mut before = card.clone();
    for limit in 1.. {
        let mut cut = card.clone();
        let answer = call(&mut cut, limit);
        let mut pairs = before.chunks(512).zip(cut.chunks(512));
        sectors.extend(pairs.position(|(old, new)| old != new));
        before = cut;
        if answer == Answer::Done(limit) {
            *card = before;
            return sectors;
        }
        assert_eq!(answer, Answer::Stopped(limit));
    }
    unreachable!("a list of stores ends")
}

fn slot(card: &[u8]) -> (u16, u32) {
    let slot = &card[33 * 512..][..32];
    let size = u32::from_le_bytes(slot[28..].try_into().expect("four bytes"));
    (u16::from_le_bytes([slot[26], slot[27]]), size)
}

fn entry(card: &[u8], cluster: usize) -> u16 {
    u16::from_le_bytes([card[512 + 2 * cluster], card[513 + 2 * cluster]])
}

fn path(length: usize) -> Vec<u8> {
    (0..length).map(|at| at as u8 | 1).collect()
}

#[test]
fn rows_of_the_worked_card() {
    let mut card = reference::card_k();
    let append = |length: usize| {
        move |card: &mut [u8], limit| calls::append(card, NAME, &path(length), AT, limit)
    };

    let m3 = stored(&mut card, |card, limit| {
        calls::create(card, NAME, AT, limit)
    });
    assert_eq!(m3, [65, 33, 65]);

    for (limit, size) in [(4, 0), (5, 1_300)] {
        let mut cut = card.clone();
        assert_eq!(append(1_300)(&mut cut, limit), Answer::Stopped(limit));
        assert!(matches!(calls::recover(&mut cut, ALL), Answer::Done(_)));
        assert_eq!(slot(&cut).1, size, "M5, M6");
    }

    let m4 = stored(&mut card, append(1_300));
    assert_eq!(m4, [73, 74, 75, 17, 66, 1, 33, 66]);
    assert_eq!(slot(&card), (10, 1_300));
    assert_eq!([10, 11, 12].map(|c| entry(&card, c)), [11, 12, 0xFFFF]);
    assert_eq!(card[76 * 512 - 236..76 * 512], [0; 236]);
    assert_ne!(card[76 * 512 - 237], 0);
    let mut buffer = vec![0xA5; 1_400];
    assert_eq!(
        calls::read(&card, NAME, 0, &mut buffer),
        Answer::Done(1_300)
    );
    assert_eq!(buffer[..1_300], path(1_300));
    assert_eq!(buffer[1_300..], [0xA5; 100]);

    assert_eq!(stored(&mut card, append(100)), [75, 67, 33, 67], "M7");
    assert_eq!(card[67 * 512 + 22..][..4], [0; 4], "DIR_Cluster");

    let m8 = stored(&mut card, |card, limit| {
        calls::truncate(card, NAME, 512, AT, limit)
    });
    assert_eq!(m8, [17, 68, 1, 33, 68]);
    assert_eq!(card[68 * 512 + 22..][..4], [11, 0, 0, 0], "DIR_Cluster");

    let m9 = stored(&mut card, |card, limit| calls::delete(card, NAME, limit));
    assert_eq!(m9, [17, 69, 1, 33, 69]);

    for group in 70..73 {
        let create = |card: &mut [u8], limit| calls::create(card, &name(group), AT, limit);
        assert_eq!(stored(&mut card, create), [group, 33, group]);
    }
    let m10 = stored(&mut card, |card, limit| {
        calls::create(card, NAME, AT, limit)
    });
    assert_eq!(m10, [72, 71, 70, 69, 68, 67, 66, 65, 65, 33, 65]);
}

/// The record in a log sector: operation, DIR_Cluster, first/last cluster and size.
fn record(card: &[u8], sector: usize) -> (u8, u32, u16, u32) {
    let record = &card[sector * 512..][..32];
    let long = |at: usize| u32::from_le_bytes(record[at..at + 4].try_into().expect("four bytes"));
    let first_or_last = u16::from_le_bytes([record[26], record[27]]);
    (record[13], long(22), first_or_last, long(28))
}

/// After M4 the file is saved over: by 600 bytes, by the same again, by none, and by none once more.
#[test]
fn replace_on_the_worked_card() {
    let mut card = reference::card_k();
    assert_eq!(calls::create(&mut card, NAME, AT, ALL), Answer::Done(3));
    let m4 = calls::append(&mut card, NAME, &path(1_300), AT, ALL);
    assert_eq!(m4, Answer::Done(8));
    let new: Vec<u8> = path(600).iter().map(|byte| byte ^ 0x80).collect();
    let replace = |card: &mut [u8], limit| calls::replace(card, NAME, &new, AT, limit);

    for (limit, slot_after) in [(3, (10, 1_300)), (4, (13, 600))] {
        let mut cut = card.clone();
        assert_eq!(replace(&mut cut, limit), Answer::Stopped(limit));
        assert!(matches!(calls::recover(&mut cut, ALL), Answer::Done(_)));
        assert_eq!(slot(&cut), slot_after, "cut after {limit} stores");
    }

    assert_eq!(stored(&mut card, replace), [76, 77, 17, 67, 1, 33, 67]);
    assert_eq!(slot(&card), (13, 600));
    assert_eq!(record(&card, 67), (6, 13, 10, 600));
    let links = [10, 11, 12, 13, 14].map(|cluster| entry(&card, cluster));
    assert_eq!(links, [0, 0, 0, 14, 0xFFFF]);
    let mut buffer = vec![0xA5; 700];
    assert_eq!(calls::read(&card, NAME, 0, &mut buffer), Answer::Done(600));
    assert_eq!(buffer[..600], new);
    assert_eq!(buffer[600..], [0xA5; 100]);

    // The clusters of M4 are free again, and the lowest.
    assert_eq!(stored(&mut card, replace), [73, 74, 17, 68, 1, 33, 68]);
    assert_eq!(record(&card, 68), (6, 10, 13, 600));

    let none = |card: &mut [u8], limit| calls::replace(card, NAME, &[], AT, limit);
    assert_eq!(stored(&mut card, none), [17, 69, 1, 33, 69]);
    assert_eq!(slot(&card), (0, 0));
    assert_eq!(record(&card, 69), (6, 0, 10, 0));
    let before = card.clone();
    assert_eq!(none(&mut card, ALL), Answer::Done(3));
    assert_eq!(record(&card, 70), (6, 0, 0, 0));
    assert!(card[..70 * 512] == before[..70 * 512] && card[71 * 512..] == before[71 * 512..]);
}

fn name(number: usize) -> Vec<u8> {
    format!("PANEL{number} CUT").into_bytes()
}
