//! Random histories next to a model that knows only names, bytes and dates.

use crate::support::history::random_step;
use crate::support::operation;
use reference::*;
use std::collections::{BTreeMap, BTreeSet};
use testkit::call::Call;
use testkit::cards::{random_card, Card};
use testkit::dates::{stamp_created, stamp_written, LAST_SECOND};
use testkit::random::Random;
use testkit::{ALL, AT};

/// The files by name, their dates as slots have them, those marked read-only, and how much room there is.
struct Model {
    files: BTreeMap<Vec<u8>, Vec<u8>>,
    dates: BTreeMap<Vec<u8>, [u8; 32]>,
    locked: BTreeSet<Vec<u8>>,
    root_entries: usize,
    cluster_bytes: usize,
    room: usize,
}

impl Model {
    fn new(card: &Card) -> Self {
        Model {
            files: BTreeMap::new(),
            dates: BTreeMap::new(),
            locked: BTreeSet::new(),
            root_entries: usize::from(card.spec.root_entries),
            cluster_bytes: usize::from(card.spec.sectors_per_cluster) * 512,
            room: free_clusters(&card.bytes).len(),
        }
    }

    fn clusters(&self, bytes: usize) -> usize {
        bytes.div_ceil(self.cluster_bytes)
    }

    fn free(&self) -> usize {
        let taken: usize = self.files.values().map(|f| self.clusters(f.len())).sum();
        self.room - taken
    }

    fn find(&mut self, name: &[u8]) -> Result<&mut Vec<u8>, Ground> {
        if name.len() != 11 {
            return Err(Ground::Name);
        }
        let file = self.files.get_mut(name).ok_or(Ground::Absent)?;
        match self.locked.contains(name) {
            true => Err(Ground::Locked),
            false => Ok(file),
        }
    }

    /// Another machine marks a file read-only, or takes the mark away, which it does twice as often.
    fn mark(&mut self, card: &mut Card, random: &mut Random) {
        let names: Vec<&Vec<u8>> = self.files.keys().collect();
        if names.is_empty() {
            return;
        }
        let name = random.pick(&names).clone();
        let is_marked = random.one_in(3);
        let slot = (0..self.root_entries).find(|&slot| card.slot(slot).starts_with(&name));
        card.mark_read_only(slot.expect("the file's slot"), is_marked);
        match is_marked {
            true => self.locked.insert(name),
            false => self.locked.remove(&name),
        };
    }

    fn check_new(&self, name: &[u8]) -> Result<(), Ground> {
        if name.len() != 11 {
            Err(Ground::Name)
        } else if self.files.contains_key(name) {
            Err(Ground::Exists)
        } else if self.files.len() == self.root_entries {
            Err(Ground::Rootfull)
        } else {
            Ok(())
        }
    }

    fn step(&mut self, step: &Call) -> Result<(), Ground> {
        if step.seconds() > Some(LAST_SECOND) {
            return Err(Ground::Clock);
        }
        match step {
            Call::Create(name, seconds) => {
                self.check_new(name)?;
                self.files.insert(name.clone(), Vec::new());
                let mut slot = [0; 32];
                stamp_created(&mut slot, *seconds);
                self.dates.insert(name.clone(), slot);
            }
            Call::Append(name, data, seconds) => {
                let size = self.find(name)?.len();
                let more = self.clusters(size + data.len()) - self.clusters(size);
                if more > self.free() {
                    return Err(Ground::Nospace);
                }
                self.find(name)?.extend(data);
                if !data.is_empty() {
                    self.write(name, *seconds);
                }
            }
            Call::Replace(name, data, seconds) => {
                self.find(name)?;
                // The old bytes have their room until the new ones are saved.
                if self.clusters(data.len()) > self.free() {
                    return Err(Ground::Nospace);
                }
                *self.find(name)? = data.clone();
                self.write(name, *seconds);
            }
            Call::Truncate(name, size, seconds) => {
                let file = self.find(name)?;
                let length = file.len();
                if *size as usize > length {
                    return Err(Ground::Length);
                }
                file.truncate(*size as usize);
                if (*size as usize) < length {
                    self.write(name, *seconds);
                }
            }
            Call::Delete(name) => {
                self.find(name)?;
                self.files.remove(name);
                self.dates.remove(name);
            }
            Call::Rename(old, new) => {
                if new.len() != 11 {
                    return Err(Ground::Name);
                }
                self.find(old)?;
                self.check_new(new)?;
                let file = self.files.remove(old).unwrap();
                self.files.insert(new.clone(), file);
                let dates = self.dates.remove(old).unwrap();
                self.dates.insert(new.clone(), dates);
            }
            other => panic!("{other:?} changes no file"),
        }
        Ok(())
    }

    fn write(&mut self, name: &[u8], seconds: u32) {
        let slot = self.dates.get_mut(name).expect("the file's dates");
        stamp_written(slot, seconds);
    }

    /// Every file has its dates, from the tenths of its creation to its write date; the high word is 0.
    fn assert_dates(&self, card: &Card) {
        let live = |slot: &usize| ![0, 0xE5].contains(&card.slot(*slot)[0]);
        for slot in (0..self.root_entries)
            .filter(live)
            .map(|slot| card.slot(slot))
        {
            assert_eq!(slot[13..26], self.dates[&slot[..11]][13..26]);
        }
    }

    /// The card holds exactly the model's files.
    fn assert_on(&self, card: &[u8]) {
        assert!(is_sound(card));
        assert_eq!(free_clusters(card).len(), self.free());
        let room = (self.free() * self.cluster_bytes) as u64;
        assert!(matches!(fits(card, room), Answer::Done(_)));
        assert_eq!(fits(card, room + 1), Answer::No);
        assert_eq!(list(card, &mut []), Answer::Done(self.files.len() as u32));
        for (name, bytes) in &self.files {
            let mut buffer = vec![0x5A; bytes.len() + 40];
            let answer = read(card, name, 0, &mut buffer);
            assert_eq!(answer, Answer::Done(bytes.len() as u32));
            assert_eq!(buffer[..bytes.len()], bytes[..]);
            assert_eq!(buffer[bytes.len()..], [0x5A; 40]);
        }
    }
}

#[test]
fn histories_agree_with_a_model() {
    let mut refusals = BTreeMap::new();
    for seed in 0..40 {
        let mut random = Random::new(seed);
        let mut card = random_card(&mut random);
        let mut model = Model::new(&card);
        for _ in 0..120 {
            if random.one_in(4) {
                model.mark(&mut card, &mut random);
            }
            let step = random_step(&mut random, model.cluster_bytes);
            let answer = run(&mut card.bytes, &operation(&step), ALL);
            match model.step(&step) {
                Ok(()) => assert!(matches!(answer, Answer::Done(_)), "{seed} {step:?}"),
                Err(ground) => {
                    assert_eq!(answer, Answer::Refused(ground), "{seed} {step:?}");
                    *refusals.entry(ground).or_insert(0) += 1;
                }
            }
            model.assert_on(&card.bytes);
            model.assert_dates(&card);
        }
    }
    // The histories are worth something: all these refusals came up.
    for ground in [
        Ground::Name,
        Ground::Absent,
        Ground::Exists,
        Ground::Length,
        Ground::Nospace,
        Ground::Locked,
        Ground::Clock,
    ] {
        assert!(refusals.get(&ground) > Some(&10), "{ground}");
    }
}

#[test]
fn filling_and_emptying_the_root() {
    let mut card = Card::new(CardSpec {
        root_entries: 32,
        total_sectors: 4_120,
        ..CardSpec::K
    });
    for round in 0..3 {
        for file in 0..32 {
            let name = format!("R{round}F{file:02}   CUT");
            let answer = create(&mut card.bytes, name.as_bytes(), AT, ALL);
            assert!(matches!(answer, Answer::Done(_)), "{name} {answer:?}");
        }
        let refused = create(&mut card.bytes, b"ONEMORE    ", AT, ALL);
        assert_eq!(refused, Answer::Refused(Ground::Rootfull));
        assert_eq!(list(&card.bytes, &mut []), Answer::Done(32));
        for file in (0..32).rev() {
            let name = format!("R{round}F{file:02}   CUT");
            let answer = delete(&mut card.bytes, name.as_bytes(), ALL);
            assert!(matches!(answer, Answer::Done(_)), "{name} {answer:?}");
        }
    }
}

#[test]
fn taken_and_released_clusters() {
    for seed in 100..120 {
        let mut random = Random::new(seed);
        let mut card = random_card(&mut random);
        let cluster_bytes = usize::from(card.spec.sectors_per_cluster) * 512;
        let mut used = Vec::new();
        for _ in 0..100 {
            let before = free_clusters(&card.bytes);
            let step = random_step(&mut random, cluster_bytes);
            run(&mut card.bytes, &operation(&step), ALL);
            let now = chains(&card);
            let released = used.iter().filter(|c| !now.contains(c));
            let mut expected: Vec<u16> = before.iter().chain(released).copied().collect();
            expected.retain(|cluster| !now.contains(cluster));
            expected.sort_unstable();
            assert_eq!(free_clusters(&card.bytes), expected);
            used = now;
        }
    }
}

/// All clusters of all files.
fn chains(card: &Card) -> Vec<u16> {
    let slots = 0..usize::from(card.spec.root_entries);
    slots
        .filter(|&slot| ![0, 0xE5].contains(&card.slot(slot)[0]))
        .flat_map(|slot| file_chain(&card.bytes, slot).unwrap())
        .collect()
}
