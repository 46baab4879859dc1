//! The bytes of a card that is copied often: those at the start, shared, and the sectors that have changed since.

use std::cell::RefCell;
use std::collections::BTreeMap;
use std::rc::Rc;

const SECTOR: usize = 512;

#[derive(Clone, Default)]
pub struct Kept {
    start: Rc<Vec<u8>>,
    changed: BTreeMap<usize, Vec<u8>>,
}

impl Kept {
    pub fn new(card: &[u8]) -> Kept {
        Kept {
            start: Rc::new(card.to_vec()),
            changed: BTreeMap::new(),
        }
    }

    pub fn len(&self) -> usize {
        self.start.len()
    }

    pub fn store(&mut self, sector: usize, bytes: Vec<u8>) {
        self.changed.insert(sector, bytes);
    }

    /// Fills the buffer from a byte on.
    pub fn read(&self, start: usize, buffer: &mut [u8]) {
        buffer.copy_from_slice(&self.start[start..start + buffer.len()]);
        let sectors = start / SECTOR..(start + buffer.len()) / SECTOR;
        for (sector, bytes) in self.changed.range(sectors) {
            buffer[sector * SECTOR - start..][..SECTOR].copy_from_slice(bytes);
        }
    }

    pub fn to_vec(&self) -> Vec<u8> {
        self.with(<[u8]>::to_vec)
    }

    /// Looks at all bytes. The start is copied only where the last card looked at had another.
    pub fn with<T>(&self, look: impl FnOnce(&[u8]) -> T) -> T {
        thread_local! {
            static LAST: RefCell<(Rc<Vec<u8>>, Vec<u8>)> = RefCell::default();
        }
        LAST.with_borrow_mut(|(start, card)| {
            if !Rc::ptr_eq(start, &self.start) {
                *start = self.start.clone();
                card.clear();
                card.extend_from_slice(start);
            }
            let place = |sector: &usize| sector * SECTOR..(sector + 1) * SECTOR;
            for (sector, bytes) in &self.changed {
                card[place(sector)].copy_from_slice(bytes);
            }
            let seen = look(card);
            for sector in self.changed.keys() {
                card[place(sector)].copy_from_slice(&start[place(sector)]);
            }
            seen
        })
    }
}

impl PartialEq<[u8]> for Kept {
    fn eq(&self, other: &[u8]) -> bool {
        self.with(|card| card == other)
    }
}
