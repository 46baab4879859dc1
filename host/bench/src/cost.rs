//! How much is stored to save a path.

use crate::cards::{Card, Layout, Shape, LAYOUTS, LOG_SECTORS, NAME, SIZES};
use lfat_card::calls::{append, create, delete, replace, truncate, Answer};
use reference::{plan, Operation};
use testkit::AT;

const LIMIT: u32 = u32::MAX;

fn stores(answer: Answer) -> usize {
    match answer {
        Answer::Done(stores) => stores as usize,
        other => panic!("{other:?}"),
    }
}

/// The stores of create, of appending the path in pieces, and of delete.
fn save(shape: Shape, layout: Layout, size: usize, piece: usize) -> [usize; 3] {
    let mut card = Card::with_room(shape, layout, size).bytes;
    let path = vec![7; size];
    stores(delete(&mut card, NAME, LIMIT));
    let created = stores(create(&mut card, NAME, AT, LIMIT));
    let pieces = path.chunks(piece);
    let appended = pieces.map(|piece| stores(append(&mut card, NAME, piece, AT, LIMIT)));
    [
        created,
        appended.sum(),
        stores(delete(&mut card, NAME, LIMIT)),
    ]
}

pub fn print() {
    println!("## Write cost\n");
    println!(
        "Stores of 512 bytes that the library answers, on a card of 65,524 clusters. *Cost* is the bytes stored by create and append\n\
         for each byte of the path.\n"
    );
    println!("| path | sectors per cluster | free clusters | create | append | cost | delete |");
    println!("|---|---|---|---|---|---|---|");
    for (size, text) in SIZES {
        for sectors_per_cluster in [1, 64] {
            for layout in LAYOUTS {
                row(text, sectors_per_cluster, layout, size, size);
            }
        }
    }
    let in_pieces = "1 MiB, 4 KiB at a time";
    for sectors_per_cluster in [1, 64] {
        let layout = (Layout::OnePiece, "one piece");
        row(in_pieces, sectors_per_cluster, layout, 1_048_576, 4_096);
    }
    print_replaced();
}

/// The stores of a replace of a path by as many bytes, by kind, and those of a truncate to nothing and an append.
fn print_replaced() {
    println!(
        "\nA path saved over by as many bytes, in one call. Its stores by kind; *cost* is the bytes stored for each byte of the path. Beside\n\
         them what the two calls truncate and append store, between which a cut leaves an empty path.\n"
    );
    println!(
        "| path | sectors per cluster | clusters | data | FAT2 | log | FAT1 | root | replace | cost | truncate, append |"
    );
    println!("|---|---|---|---|---|---|---|---|---|---|---|");
    for (size, text) in SIZES {
        for sectors_per_cluster in [1, 64] {
            for (layout, place) in LAYOUTS {
                let shape = Shape::new(65_524, sectors_per_cluster);
                let (kinds, all, two_calls) = save_over(shape, layout, size);
                let cost = 512.0 * all as f64 / size as f64;
                let kinds = kinds.map(|count| count.to_string()).join(" | ");
                println!(
                    "| {text} | {sectors_per_cluster} | {place} | {kinds} | {all} | {cost:.3} | {two_calls} |"
                );
            }
        }
    }
}

/// The stores of a replace: of data, FAT2, log, FAT1 and root directory, and in all; then those of a truncate and an append.
fn save_over(shape: Shape, layout: Layout, size: usize) -> ([usize; 5], usize, usize) {
    let card = Card::with_file_and_room(shape, layout, size).bytes;
    let path = &vec![7; size];
    let operation = Operation::Replace {
        name: NAME,
        data: path,
        seconds: AT,
    };
    let (fat2, root, log) = (1 + shape.fat_sectors(), shape.root(), shape.data());
    let mut kinds = [0; 5];
    for store in plan(&card, &operation).expect("accepted") {
        kinds[match store.sector {
            sector if sector < fat2 => 3,
            sector if sector < root => 1,
            sector if sector < log => 4,
            sector if sector < log + LOG_SECTORS => 2,
            _ => 0,
        }] += 1;
    }
    let mut other = card.clone();
    let two_calls = stores(truncate(&mut other, NAME, 0, AT, LIMIT))
        + stores(append(&mut other, NAME, path, AT, LIMIT));
    let mut card = card;
    let all = stores(replace(&mut card, NAME, path, AT, LIMIT));
    assert_eq!(kinds.iter().sum::<usize>(), all);
    (kinds, all, two_calls)
}

fn row(text: &str, sectors_per_cluster: u8, layout: (Layout, &str), size: usize, piece: usize) {
    let shape = Shape::new(65_524, sectors_per_cluster);
    let [created, appended, deleted] = save(shape, layout.0, size, piece);
    let cost = 512.0 * (created + appended) as f64 / size as f64;
    println!(
        "| {text} | {sectors_per_cluster} | {} | {created} | {appended} | {cost:.3} | {deleted} |",
        layout.1
    );
}
