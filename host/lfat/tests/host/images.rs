//! Images on disk: what a command reads and writes is what the library does on the whole card in memory.

use crate::support::cli::Folder;
use crate::support::random::Random;
use crate::support::{points, spec};
use lfat_card::{Card, DateTime, Name, Refusal};
use std::fs::{self, OpenOptions};
use testkit::dates::{random_seconds, LAST_SECOND};

/// A history through the command line and through the wrapper on a copy in memory: the same answers and bytes, dates included.
#[test]
fn same_as_in_memory() {
    let folder = Folder::new("images");
    let mut random = Random::new(0x510E_527F_ADE6_82D1);
    for sectors_per_cluster in [1, 8] {
        let mut window = spec(sectors_per_cluster).build();
        // Bytes after the card's last sector are kept.
        let past = random.bytes(700);
        folder.write("card", &[&window[..], &past].concat());
        let data = points(9_000);
        let mut locked = 0;
        for step in 0..40 {
            // Another machine marks one of the first files read-only, or takes the mark away.
            if random.one_in(4) {
                let at = 33 * 512 + random.below(3) * 32 + 11;
                window[at] = window[at] & !0x01 | u8::from(random.one_in(2));
                folder.write("card", &[&window[..], &past].concat());
            }
            let name = ["A.CUT", "B.CUT", "C"][random.below(3)];
            let parsed = Name::parse(name).expect("a name");
            let length = random.below(data.len());
            folder.write("data", &data[..length]);
            let seconds = random_seconds(&mut random).min(LAST_SECOND);
            let time = DateTime::from_seconds(seconds).expect("within 2107");
            let mut card = Card::new(&mut window);
            let (line, answer) = match random.below(10) {
                0 | 1 => {
                    let created = card.create(parsed, time).map(drop);
                    let both = created.and_then(|()| card.append(parsed, &data[..length], time));
                    (format!("put card {name} data --at {time}"), both)
                }
                2 | 3 => (
                    format!("append card {name} data --at {time}"),
                    card.append(parsed, &data[..length], time),
                ),
                4 => {
                    let size = length as u64 / 2;
                    (
                        format!("truncate --at={time} card {name} {size}"),
                        card.truncate(parsed, size, time),
                    )
                }
                5 => (format!("rm card {name}"), card.delete(parsed)),
                6..=8 => {
                    // Where there is no such file, it is made.
                    let saved = match card.replace(parsed, &data[..length], time) {
                        Err(Refusal::Absent) => {
                            let created = card.create(parsed, time).map(drop);
                            created.and_then(|()| card.append(parsed, &data[..length], time))
                        }
                        other => other,
                    };
                    (format!("put --replace card {name} data --at {time}"), saved)
                }
                _ => {
                    let new = Name::parse("D.NEW").expect("a name");
                    (format!("mv card {name} D.NEW"), card.rename(parsed, new))
                }
            };
            let run = folder.lfat(&line);
            match answer {
                Ok(_) => drop(run.done()),
                Err(refusal) => drop(run.failed(1, refusal.name())),
            }
            locked += usize::from(answer == Err(Refusal::Locked));
            assert!(
                folder.read("card") == [&window[..], &past].concat(),
                "{step}: {line}"
            );
            let bytes = step * 60_000 * u64::from(sectors_per_cluster);
            let run = folder.lfat(&format!("fits card {bytes}"));
            match Card::new(&mut window).fits(bytes).expect("clean") {
                Some(0) => drop(run.done()),
                Some(highest) => {
                    let words = format!(", up to cluster {highest}\n");
                    assert!(run.done().text().ends_with(&words), "{step}: {bytes}");
                }
                None => assert_eq!((run.status(), run.errors().as_str()), (1, "")),
            }
        }
        assert!(locked > 2, "{locked}");
    }
}

/// A card of 2 GB: only what is needed is read and written.
#[test]
fn largest_card() {
    let folder = Folder::new("largest");
    folder.lfat("format card --size 2G").done();
    let path = folder.path().join("card");
    assert_eq!(
        fs::metadata(&path).expect("the card").len(),
        4_194_144 * 512
    );
    let data = points(100_000);
    folder.write("data", &data);
    folder.lfat("put card ROUTE.CUT data").done();
    folder.lfat("append card ROUTE.CUT data").done();
    let both = [&data[..], &data].concat();
    assert_eq!(folder.lfat("get card ROUTE.CUT").done().bytes(), both);
    folder.lfat("put -f card ROUTE.CUT data").done();
    assert_eq!(folder.lfat("get card ROUTE.CUT").done().bytes(), data);
    folder.lfat("info card").done();
}

/// Two programs do not write to one image at the same time.
#[test]
fn image_in_use() {
    let folder = Folder::new("in-use");
    folder.lfat("format card").done();
    let before = folder.read("card");
    let path = folder.path().join("card");
    let file = OpenOptions::new().write(true).open(path).expect("the card");
    file.lock().expect("a lock");
    folder.lfat("recover card").failed(3, "in use");
    folder.lfat("ls card").failed(3, "in use");
    drop(file);
    folder.lfat("ls card").done();
    assert!(folder.read("card") == before);
}
