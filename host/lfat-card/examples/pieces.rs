//! What reading a file in pieces costs: prints the section 'Reading in pieces' of docs/BENCH.md.
//!
//! `cargo run --release --offline -p lfat-card --example pieces` in `host`, after `.ci/build`.

use lfat_card::{CardView, Name, Refusal};
use reference::CardSpec;
use std::hint::black_box;
use std::time::{Duration, Instant};
use testkit::cards::Card;
use testkit::ROUTE;

const SIZE: usize = 1 << 20;
const PIECES: [(usize, &str); 4] = [
    (512, "512 bytes"),
    (4_096, "4 KiB"),
    (65_536, "64 KiB"),
    (SIZE, "whole"),
];
/// Clusters and sectors per cluster.
const SHAPES: [(u32, u8); 3] = [(4_085, 1), (65_524, 1), (65_524, 64)];
/// Runs are made for this time.
const LONG_ENOUGH: Duration = Duration::from_millis(500);

/// A card with ROUTE.CUT of 1 MiB in consecutive clusters.
fn card(clusters: u32, sectors_per_cluster: u8) -> Card {
    let sectors_per_fat = (clusters + 2).div_ceil(256) as u16;
    let data = 33 + 2 * u32::from(sectors_per_fat);
    let mut card = Card::new(CardSpec {
        sectors_per_cluster,
        sectors_per_fat,
        total_sectors: data + clusters * u32::from(sectors_per_cluster),
        use_32bit_total: true,
        log_clusters: 2,
        ..CardSpec::K
    });
    let first = card.spec.log_first + card.spec.log_clusters;
    let count = (SIZE / 512).div_ceil(usize::from(sectors_per_cluster)) as u16;
    let chain: Vec<u16> = (first..first + count).collect();
    card.put_chain(&chain, 0xFFFF);
    card.put_slot(0, ROUTE, 0x20, first, SIZE as u32);
    card
}

/// The time of reading the file in pieces, in microseconds: the sum of each piece's shortest time.
fn time(card: CardView, name: Name, piece: usize) -> Result<f64, Refusal> {
    let mut buffer = vec![1; piece];
    let mut shortest = vec![Duration::MAX; SIZE / piece];
    let first = Instant::now();
    while first.elapsed() < LONG_ENOUGH {
        for (index, shortest) in shortest.iter_mut().enumerate() {
            let begun = Instant::now();
            card.read(name, (index * piece) as u64, black_box(&mut buffer))?;
            *shortest = begun.elapsed().min(*shortest);
        }
    }
    Ok(shortest.iter().sum::<Duration>().as_secs_f64() * 1e6)
}

fn main() -> Result<(), Refusal> {
    let name = Name::from_bytes(ROUTE)?;
    println!("## Reading in pieces\n");
    println!(
        "Printed by `cargo run --release --offline -p lfat-card --example pieces` in `host`. A file of 1 MiB in consecutive clusters is read\n\
         from its start to its end; its time is the sum of each piece's shortest in many runs. A cell is microseconds = times as long as\n\
         whole; columns are clusters × sectors per cluster. Every call asks all grounds of the card anew, and follows the file's clusters\n\
         from the first.\n"
    );
    println!("| pieces | calls | 4,085 × 1 | 65,524 × 1 | 65,524 × 64 |\n|---|---|---|---|---|");
    let cards: Vec<Card> = SHAPES
        .iter()
        .map(|&(clusters, sectors)| card(clusters, sectors))
        .collect();
    let times = PIECES
        .iter()
        .map(|&(piece, _)| {
            let views = cards.iter().map(|card| CardView::new(&card.bytes));
            views.map(|view| time(view, name, piece)).collect()
        })
        .collect::<Result<Vec<Vec<f64>>, Refusal>>()?;
    for ((piece, text), times_here) in PIECES.iter().zip(&times) {
        print!("| {text} | {} |", SIZE / piece);
        for (own, whole) in times_here.iter().zip(&times[PIECES.len() - 1]) {
            print!(" {own:.0} = {:.1} × |", own / whole);
        }
        println!();
    }
    Ok(())
}
