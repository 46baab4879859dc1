//! The order of stores that every writing operation keeps.

use crate::check::Mounted;
use crate::fat_draft::FatDraft;
use crate::journal::record::{commit, Group};
use crate::program::{finish, Extent, Program, Segment};
use crate::root_change::RootChange;
use crate::store::Store;

/// What one operation changes.
pub struct Transaction<'a, 'd> {
    /// Data sectors, for append and replace only.
    pub data: Vec<Extent<'d>>,
    pub fat: FatDraft<'a>,
    pub group: Group,
    pub root: RootChange,
}

/// An operation that is granted: the card, and what it changes there, if anything.
pub struct Planned<'a, 'd> {
    pub card: Mounted<'a>,
    pub change: Option<Transaction<'a, 'd>>,
}

impl<'d> Planned<'_, 'd> {
    /// The list of stores.
    pub fn stores(self) -> Vec<Store> {
        let card = self.card;
        let change = self.change;
        change.map_or_else(Vec::new, |change| change.stores(&card))
    }

    /// The list of stores in segments.
    pub fn program(self) -> Program<'d> {
        let card = self.card;
        let change = self.change;
        change.map_or_else(Program::default, |change| change.program(&card))
    }
}

impl<'a, 'd> Transaction<'a, 'd> {
    /// The operation that makes this change of the card.
    pub fn on(self, card: Mounted<'a>) -> Planned<'a, 'd> {
        Planned {
            card,
            change: Some(self),
        }
    }

    /// The log sector that serves, with the group pending and committed, and the stores that make room for it.
    fn group(&self, card: &Mounted) -> (Vec<Store>, Store, Store) {
        let pending = self.group.sector();
        let committed = commit(pending, self.group.count());
        let (clearing, sector) = card.journal.make_room();
        let store = |bytes| Store { sector, bytes };
        (clearing, store(pending), store(committed))
    }

    /// Data, FAT2, group, FAT1, root, commit.
    fn stores(self, card: &Mounted) -> Vec<Store> {
        let geometry = &card.volume.geometry;
        let (clearing, pending, committed) = self.group(card);
        let data = self.data.iter().map(Extent::count).sum();
        let mut stores = Vec::with_capacity(data);
        for (sector, bytes) in self.data.iter().flat_map(Extent::sectors) {
            stores.push(Store::copy(sector, bytes));
        }
        stores.extend(self.fat.stores(geometry.fat2_start()));
        stores.extend(clearing);
        stores.push(pending);
        stores.extend(self.fat.stores(geometry.fat1_start()));
        stores.extend(self.root.stores(&card.volume).stores);
        stores.push(committed);
        stores
    }

    /// The same list, in segments: the group's store and the commit mark are barriers.
    fn program(self, card: &Mounted) -> Program<'d> {
        let geometry = &card.volume.geometry;
        let (clearing, pending, committed) = self.group(card);
        let mut prepare = Segment {
            stores: self.data,
            barrier: Some(pending),
        };
        let fat2 = self.fat.stores(geometry.fat2_start());
        fat2.chain(clearing).for_each(|store| prepare.push(store));
        let fat1 = self.fat.stores(geometry.fat1_start());
        let mut segments = vec![prepare];
        segments.extend(finish(fat1, self.root.stores(&card.volume), committed));
        Program { segments }
    }
}
