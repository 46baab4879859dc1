//! The tables of times.

use crate::call::Call;
use crate::cards::{Card, Layout, Shape, LAYOUTS, LOG_SECTORS, NAME, SHAPES, SIZES};
use crate::timing::compare;
use reference::{plan, run, Operation};
use testkit::characters::{bytes_of, letters};
use testkit::AT;

/// Makes the card for a call, and the call.
type Setup = Box<dyn Fn(Shape) -> (Card, Call)>;

pub fn print() {
    println!("## Each call\n");
    println!(
        "A cell is library / plain = ratio of medians, in microseconds. Columns are clusters × sectors per cluster. *One piece*: the\n\
         file, or the room for it, lies in consecutive clusters; *scattered*: spread over the whole card, files in mixed order. A replace is\n\
         of a file of as many bytes, and room for both is there; for 1 MiB on 4,085 × 1 the old file has 1,973 sectors. The aim for it is at\n\
         most 1.25. *Fits* is asked for one byte and for all that an empty card has room for; then on a card with one free cluster, its\n\
         last; then for a byte too much.\n"
    );
    print_only("");
}

/// The rows whose text has this in it.
pub fn print_only(text: &str) {
    println!("| call | 4,085 × 1 | 4,085 × 64 | 65,524 × 1 | 65,524 × 64 |");
    println!("|---|---|---|---|---|");
    let mut ratios = Vec::new();
    for (what, setup) in rows() {
        if !what.contains(text) {
            continue;
        }
        print!("| {what} |");
        for shape in SHAPES {
            let (mut card, call) = setup(shape);
            let times = compare(&mut card.bytes, &call);
            print!(" {times} |");
            ratios.push(times.ratio());
        }
        println!();
    }
    ratios.sort_by(f64::total_cmp);
    println!(
        "\nRatios: median {:.2}, lowest {:.2}, highest {:.2}.\n",
        ratios[ratios.len() / 2],
        ratios[0],
        ratios[ratios.len() - 1]
    );
}

fn rows() -> Vec<(String, Setup)> {
    let mut rows: Vec<(String, Setup)> = Vec::new();
    let mut row = |what: String, setup: Setup| rows.push((what, setup));
    let name = || NAME.to_vec();
    row(
        "list, empty root".into(),
        Box::new(|shape| (Card::empty(shape), Call::List(0))),
    );
    row(
        "fits, yes at the first cluster".into(),
        Box::new(|shape| (Card::empty(shape), Call::Fits(1))),
    );
    row(
        "fits, yes at the last cluster".into(),
        Box::new(|shape| (Card::empty(shape), Call::Fits(room(shape)))),
    );
    row(
        "fits, yes at the last cluster, one free".into(),
        Box::new(|shape| (Card::with_last_cluster(shape), Call::Fits(1))),
    );
    row(
        "fits, no".into(),
        Box::new(|shape| (Card::empty(shape), Call::Fits(room(shape) + 1))),
    );
    row(
        "list, 512 entries".into(),
        Box::new(|shape| (Card::with_full_root(shape), Call::List(512 * 32))),
    );
    row(
        "create".into(),
        Box::new(move |shape| (Card::empty(shape), Call::Create(name(), AT))),
    );
    row(
        "rename".into(),
        Box::new(move |shape| {
            let card = Card::with_file(shape, Layout::OnePiece, 4_096);
            (card, Call::Rename(name(), b"PANEL   CUT".to_vec()))
        }),
    );
    for (count, text) in [
        (22, "create, 22 characters"),
        (208, "create, 208 characters"),
    ] {
        row(
            text.into(),
            Box::new(move |shape| {
                let characters = bytes_of(&letters(count));
                (Card::empty(shape), Call::CreateLong(name(), characters, AT))
            }),
        );
    }
    row(
        "create, 208 characters, 512 slots with long names".into(),
        Box::new(move |shape| {
            let characters = bytes_of(&letters(208));
            (
                Card::with_long_names(shape),
                Call::CreateLong(name(), characters, AT),
            )
        }),
    );
    row(
        "long name of 260 characters".into(),
        Box::new(move |shape| (Card::with_long_name(shape), Call::LongName(name(), 520))),
    );
    row(
        "rename, 20 long entries".into(),
        Box::new(move |shape| {
            let card = Card::with_long_name(shape);
            (card, Call::Rename(name(), b"PANEL   CUT".to_vec()))
        }),
    );
    row(
        "delete 4 KiB, 20 long entries".into(),
        Box::new(move |shape| (Card::with_long_name(shape), Call::Delete(name()))),
    );
    row(
        "recover, nothing to do".into(),
        Box::new(|shape| (Card::empty(shape), Call::Recover)),
    );
    for (size, size_text) in SIZES {
        for (layout, layout_text) in LAYOUTS {
            let text = |call: &str| format!("{call} {size_text}, {layout_text}");
            let data = vec![7; size];
            row(
                text("append"),
                Box::new(move |shape| {
                    let card = Card::with_room(shape, layout, size);
                    (card, Call::Append(name(), data.clone(), AT))
                }),
            );
            let data = vec![7; size];
            row(
                text("replace"),
                Box::new(move |shape| {
                    let card = Card::with_file_and_room(shape, layout, size);
                    (card, Call::Replace(name(), data.clone(), AT))
                }),
            );
            row(
                text("read"),
                Box::new(move |shape| {
                    let card = Card::with_file(shape, layout, size);
                    (card, Call::Read(name(), 0, size))
                }),
            );
            row(
                text("truncate to 1 byte,"),
                Box::new(move |shape| {
                    let card = Card::with_file(shape, layout, size);
                    (card, Call::Truncate(name(), 1, AT))
                }),
            );
            row(
                text("delete"),
                Box::new(move |shape| {
                    let card = Card::with_file(shape, layout, size);
                    (card, Call::Delete(name()))
                }),
            );
            row(
                text("recover an append of"),
                Box::new(move |shape| (cut_append(shape, layout, size), Call::Recover)),
            );
        }
    }
    for (layout, layout_text) in LAYOUTS {
        row(
            format!("delete a file in all clusters, {layout_text}"),
            Box::new(move |shape| {
                let card = Card::with_file(shape, layout, Card::largest_file(shape));
                (card, Call::Delete(name()))
            }),
        );
    }
    rows
}

/// The bytes that an empty card has room for.
fn room(shape: Shape) -> u64 {
    Card::largest_file(shape) as u64
}

/// A card on which an append was cut after the store of its group.
fn cut_append(shape: Shape, layout: Layout, size: usize) -> Card {
    let mut card = Card::with_room(shape, layout, size);
    let data = vec![7; size];
    let append = Operation::Append {
        name: NAME,
        data: &data,
        seconds: AT,
    };
    let log = shape.data()..shape.data() + LOG_SECTORS;
    let stores = plan(&card.bytes, &append).expect("accepted");
    let group = stores.iter().position(|store| log.contains(&store.sector));
    run(&mut card.bytes, &append, group.expect("a group") as u32 + 1);
    card
}
