//! Prints docs/BENCH.md: each call of the library against the independent Rust implementation, on the same input.
//!
//! `cargo run --release --offline -p bench > ../docs/BENCH.md` in `host`, after `.ci/build`. With `-- --floor` only what is
//! set against memcmp and memcpy, with `-- --clock` only the clock, with `-- --only TEXT` only the calls whose row has the text.

mod cards;
mod clock;
mod cost;
mod floor;
mod machine;
mod speed;
mod timing;

// A call on either implementation, as the tests have it.
use testkit::call;

fn main() {
    let words: Vec<String> = std::env::args().skip(1).collect();
    let words: Vec<&str> = words.iter().map(String::as_str).collect();
    match words[..] {
        [] => print(),
        ["--floor"] => floor::print(),
        ["--clock"] => clock::print(),
        ["--only", text] => speed::print_only(text),
        _ => {
            eprintln!("bench: --floor, --clock, --only TEXT, or nothing");
            std::process::exit(2);
        }
    }
}

fn print() {
    println!("# Speed and write cost\n");
    println!(
        "Printed by `cargo run --release --offline -p bench` in `host`, after `.ci/build`. The library is compared with the\n\
         plain Rust implementation `host/reference`: same machine, same card, both built for release, runs by turns. Before each run\n\
         of a writing call the card is put back; that is not timed.\n"
    );
    println!("{}\n", machine::description());
    floor::print();
    clock::print();
    speed::print();
    cost::print();
}
