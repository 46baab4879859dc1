//! Calls against the least that the machine could do: comparing the FATs once, copying the bytes once. And fits against the clean
//! check.

use crate::call::Call;
use crate::cards::{Card, Layout, Shape, NAME, SHAPES};
use crate::timing::{compare_copy, compare_loop, compare_runs, copy_between_buffers};
use std::hint::black_box;
use testkit::AT;

const BYTES: usize = 1 << 20;

pub fn print() {
    clean_check();
    fits();
    copies();
}

fn clean_check() {
    println!("## The clean check\n");
    println!(
        "List on an empty root directory asks every ground of the card; its time is set against one memcmp of the two FATs, the least\n\
         that any check could do, by turns. In microseconds. To be at most 5 on the largest card.\n"
    );
    println!("| clusters | bytes of a FAT | library / memcmp = ratio |");
    println!("|---|---|---|");
    for clusters in [4_085, 16_384, 65_524] {
        let shape = Shape::new(clusters, 1);
        let card = Card::empty(shape);
        let list = || {
            black_box(lfat_card::calls::list(black_box(&card.bytes), &mut []));
        };
        let memcmp = || {
            let (fat1, fat2) = black_box(card.fats());
            black_box(fat1 == fat2);
        };
        let times = compare_runs(list, memcmp);
        println!("| {clusters} | {} | {times} |", 512 * shape.fat_sectors());
    }
    println!();
}

fn fits() {
    println!("## Will it fit\n");
    println!(
        "Fits asks every ground of the card, as list does, and then looks into FAT1 up to the cluster that decides. Its time against that of\n\
         list on the same card with an empty root directory, the clean check, by turns; 65,524 × 64, in microseconds.\n"
    );
    println!("| question | library / clean check = ratio |");
    println!("|---|---|");
    let shape = Shape::new(65_524, 64);
    let room = Card::largest_file(shape) as u64;
    let (empty, last) = (Card::empty(shape), Card::with_last_cluster(shape));
    for (question, card, bytes) in [
        ("no bytes", &empty, 0),
        ("yes at the first cluster", &empty, 1),
        ("yes at the last cluster", &empty, room),
        ("yes at the last cluster, one free", &last, 1),
        ("no, a byte too much", &empty, room + 1),
        ("no, one cluster free", &last, room),
    ] {
        let fits = || {
            black_box(lfat_card::calls::fits(black_box(&card.bytes), bytes));
        };
        let list = || {
            black_box(lfat_card::calls::list(black_box(&card.bytes), &mut []));
        };
        println!("| {question} | {} |", compare_runs(fits, list));
    }
    println!();
}

fn copies() {
    println!("## Bytes moved\n");
    println!(
        "Append and read of 1 MiB in one piece, against one memcpy of the same bytes to or from the same place of the card, by turns. In\n\
         microseconds: library / memcpy = ratio. The aim is at most 2 for append, 1.4 for read. In brackets the ratio to a memcpy of as many\n\
         bytes between two buffers that stay in the cache: what the card's size costs is in it (D87). The last line is a loop in Rust over the\n\
         same bytes, one by one, between places that might overlap: what the compiler makes of it is what it makes of the library's own\n\
         loop. Below that ratio no read can come here.\n"
    );
    println!("| call | 4,085 × 1 | 4,085 × 64 | 65,524 × 1 | 65,524 × 64 |");
    println!("|---|---|---|---|---|");
    print!("| append 1 MiB |");
    for shape in SHAPES {
        let call = Call::Append(NAME.to_vec(), vec![7; BYTES], AT);
        print_copy(Card::with_room(shape, Layout::OnePiece, BYTES), &call);
    }
    print!("\n| read 1 MiB |");
    for shape in SHAPES {
        let call = Call::Read(NAME.to_vec(), 0, BYTES);
        print_copy(Card::with_file(shape, Layout::OnePiece, BYTES), &call);
    }
    print!("\n| loop, 1 MiB |");
    for shape in SHAPES {
        let mut card = Card::with_file(shape, Layout::OnePiece, BYTES);
        let place = card.first_data()..card.first_data() + BYTES;
        print!(" {} |", compare_loop(&mut card.bytes[place]));
    }
    println!("\n");
}

fn print_copy(mut card: Card, call: &Call) {
    let place = card.first_data()..card.first_data() + BYTES;
    let warm = copy_between_buffers(BYTES);
    let times = compare_copy(&mut card.bytes, call, place);
    print!(" {times} ({:.2}) |", times.against(warm));
}
