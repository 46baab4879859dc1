//! The limit: a call makes the first stores of its list and no others.

use crate::support::{pattern, planned_sectors};
use reference::*;
use testkit::cards::Card;
use testkit::fresh::FRESH_K;
use testkit::{ALL, AT, OTHER, PANEL, ROUTE};

/// Card K with a file and a full log.
fn busy_card() -> Card {
    let mut card = Card::k();
    card.put_slot(0, ROUTE, 0x20, 20, 1_300);
    card.put_chain(&[20, 300, 22], 0xFFF8);
    for sector in 0..8 {
        card.log_sector_mut(sector)[0] = 0xE5;
    }
    card
}

/// Applies stores one by one, apart from the code under test.
fn with_stores(card: &[u8], stores: &[Store]) -> Vec<u8> {
    let mut card = card.to_vec();
    for store in stores {
        card[store.sector * 512..][..512].copy_from_slice(&store.bytes);
    }
    card
}

fn check_every_limit(card: &[u8], operation: &Operation) {
    let stores = plan(card, operation).unwrap();
    assert!(!stores.is_empty());
    let past = stores.len() as u32 + 2;
    for limit in (0..=past).chain([1 << 31, ALL]) {
        let mut cut = card.to_vec();
        let answer = run(&mut cut, operation, limit);
        let made = stores.len().min(limit as usize);
        let expected = if made == stores.len() {
            Answer::Done(made as u32)
        } else {
            Answer::Stopped(made as u32)
        };
        assert_eq!(answer, expected);
        assert!(cut == with_stores(card, &stores[..made]), "{limit}");
    }
}

#[test]
fn every_operation() {
    let card = busy_card();
    let data = pattern(2_000, 0);
    for operation in [
        Operation::Create {
            name: PANEL,
            seconds: AT,
        },
        Operation::Append {
            name: ROUTE,
            data: &data,
            seconds: AT,
        },
        Operation::Replace {
            name: ROUTE,
            data: &data,
            seconds: AT,
        },
        Operation::Truncate {
            name: ROUTE,
            size: 600,
            seconds: AT,
        },
        Operation::Delete { name: ROUTE },
        Operation::Rename {
            old: ROUTE,
            new: OTHER,
        },
        FRESH_K.operation(),
    ] {
        check_every_limit(&card.bytes, &operation);
    }
}

#[test]
fn both_recoveries() {
    // FAT2 17 and 18, eight log sectors, the group, FAT1 1 and 2, root, commit.
    let mut card = busy_card().bytes;
    assert_eq!(delete(&mut card, ROUTE, 2), Answer::Stopped(2));
    assert_eq!(planned_sectors(&card, &Operation::Recover), [17, 18]);
    check_every_limit(&card, &Operation::Recover);

    let mut card = busy_card().bytes;
    assert_eq!(delete(&mut card, ROUTE, 11), Answer::Stopped(11));
    assert_eq!(planned_sectors(&card, &Operation::Recover), [1, 2, 33, 65]);
    check_every_limit(&card, &Operation::Recover);
}

#[test]
fn the_calls_are_the_operations() {
    let card = busy_card().bytes;
    let data = pattern(700, 0);
    let mut called = card.clone();
    let mut ran = card;
    let mut same = |answer: Answer, called: &[u8], operation: &Operation, limit| {
        assert_eq!(run(&mut ran, operation, limit), answer);
        assert!(matches!(answer, Answer::Done(1..) | Answer::Stopped(1..)));
        assert!(ran == called);
    };
    let answer = create(&mut called, PANEL, AT, ALL);
    same(
        answer,
        &called,
        &Operation::Create {
            name: PANEL,
            seconds: AT,
        },
        ALL,
    );
    let answer = append(&mut called, PANEL, &data, AT, ALL);
    let operation = Operation::Append {
        name: PANEL,
        data: &data,
        seconds: AT,
    };
    same(answer, &called, &operation, ALL);
    let answer = replace(&mut called, PANEL, &data[..300], AT, ALL);
    let operation = Operation::Replace {
        name: PANEL,
        data: &data[..300],
        seconds: AT,
    };
    same(answer, &called, &operation, ALL);
    let answer = truncate(&mut called, PANEL, 9, AT, ALL);
    let operation = Operation::Truncate {
        name: PANEL,
        size: 9,
        seconds: AT,
    };
    same(answer, &called, &operation, ALL);
    let answer = rename(&mut called, PANEL, OTHER, ALL);
    let operation = Operation::Rename {
        old: PANEL,
        new: OTHER,
    };
    same(answer, &called, &operation, ALL);
    let answer = delete(&mut called, OTHER, 2);
    same(answer, &called, &Operation::Delete { name: OTHER }, 2);
    let answer = recover(&mut called, 1);
    same(answer, &called, &Operation::Recover, 1);
}
