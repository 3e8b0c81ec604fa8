//! Tables whose content was altered in one respect, in the terms of document 01: some sound, though no call makes them, most not.

use crate::history::Poke;
use crate::random::Random;
use crate::sides::*;
use model::few::Few;
use model::path;
use model::size::*;
use model::store::{Entry, Store};
use model::world::{Change, Transaction, World};

const PATHS: [&str; 16] = [
    "/",
    "/a",
    "/a/b",
    "/1/2/3/4/5/6/7/8",
    "/1/2/3/4/5/6/7/8/9",
    "/abcdefghijklmnopqrstuvwxyz012345",
    "/abcdefghijklmnopqrstuvwxyz0123456",
    "/local/domain/0",
    "/local/domain/0/a",
    "/local/domain/3/a",
    "/local/domain/3",
    "@introduceDomain",
    "@releaseDomain",
    "@other",
    "a/b",
    "/a/",
];
const IDS: [u16; 8] = [0, 3, 5, 7, 9, 32_751, 32_752, 65_535];
const ENTRY_SIZES: [usize; TABLES] = [SLOT, SLOT, WATCH, TRANSACTION, DOMAIN];

pub struct Craft(Random);

impl Craft {
    pub fn new(seed: u64) -> Craft {
        Craft(Random::new(seed))
    }

    /// The entries that an alteration of the tables' content alters.
    pub fn pokes(&mut self, memory: &Memory) -> Vec<Poke> {
        let mut altered = memory.clone();
        let mut world = altered.decoded().expect("tables that are sound");
        match self.0.weighted(&[40, 30, 25, 15]) {
            0 => self.alter_store(&mut world),
            1 => self.alter_watches(&mut world),
            2 => self.alter_transactions(&mut world),
            _ => {
                let place = self.0.below(DOMAIN_PLACES);
                world.domains[place] = Some(*self.0.pick(&IDS));
            }
        }
        altered.encode(&world);
        differences(memory, &altered)
    }

    /// An open transaction with new parents that no call counted, sound or with one change that is not: its place, and the entries altered.
    pub fn new_parents(&mut self, memory: &Memory) -> (usize, Vec<Poke>) {
        let mut altered = memory.clone();
        let mut world = altered.decoded().expect("tables that are sound");
        let place = self.0.below(TRANSACTION_PLACES);
        let new = Transaction { stale: false, holder: 0, changes: vec![], store: world.store.clone() };
        let mut open = world.transactions[place].take().unwrap_or(new);
        open.stale = self.0.percent(10);
        open.changes = (0..1 + self.0.below(CHANGES)).map(|_| self.sound_change()).collect();
        for change in open.changes.iter().filter(|_| self.0.percent(60)) {
            if open.store.reach(&change.path).missing <= open.store.free_slots() {
                open.store.make(&change.path, 0);
            }
        }
        let one = self.0.below(open.changes.len());
        let flaw = self.0.weighted(&[40, 20, 20, 20, 20]);
        self.spoil_parents(&mut open.changes[one], flaw);
        world.transactions[place] = Some(open);
        altered.encode(&world);
        if flaw == 4 {
            let head = place * TRANSACTION + 3 + one * CHANGE;
            let zeros = 0x10 << self.0.below(3);
            altered.poke(TRANSACTION_TABLE, head, &[altered.buffer(TRANSACTION_TABLE)[head] | zeros]);
        }
        (place, differences(memory, &altered))
    }

    /// A change that is sound, with any count of new parents that can be.
    fn sound_change(&mut self) -> Change {
        let sound: Vec<&str> = PATHS.into_iter().filter(|path| path::is_stored(path.as_bytes())).collect();
        let path = self.0.pick(&sound).as_bytes().to_vec();
        let names = path::depth(&path);
        let parents = self.0.below(names.max(1));
        Change { path, removed: names > 0 && parents == 0 && self.0.percent(30), parents }
    }

    /// Makes a change unsound: a removal with new parents, as many as its path has names, or more.
    fn spoil_parents(&mut self, change: &mut Change, flaw: usize) {
        let short = ["/", "/a", "/a/b", "/local/domain/0/a"];
        let named = ["/a", "/a/b", "/local/domain/0/a", "/1/2/3/4/5/6/7"];
        let path = *self.0.pick(if flaw == 3 { &short } else { &named });
        let names = path::depth(path.as_bytes());
        let parents = match flaw {
            1 => 1 + self.0.below(7),
            2 => names,
            3 => names + 1 + self.0.below(7 - names),
            _ => return,
        };
        *change = Change { path: path.into(), removed: flaw == 1, parents };
    }

    fn path(&mut self) -> Vec<u8> {
        self.0.pick(&PATHS).as_bytes().to_vec()
    }

    fn alter_store(&mut self, world: &mut World) {
        let open = world.transactions.iter_mut().flatten().next();
        let store = match open {
            Some(open) if self.0.percent(40) => &mut open.store,
            _ => &mut world.store,
        };
        let used: Vec<usize> = (0..SLOTS).filter(|&slot| store.slots[slot].is_some()).collect();
        let (one, other) = (*self.0.pick(&used), *self.0.pick(&used));
        let mut node = *store.node(one);
        match self.0.below(5) {
            0 => return self.add_chain(store, one),
            1 => node.parent = other,
            2 => node.name = store.node(other).name,
            3 => {
                let count = self.0.below(5);
                let entries: Vec<Entry> = (0..count).map(|_| Entry { access: self.0.below(4) as u8, domain: *self.0.pick(&IDS) }).collect();
                node.entries = Few::new(&entries).expect("at most four");
            }
            _ => node.name = Few::new(self.0.pick(&["", "a", "@", "a.b", "a/b", "~"]).as_bytes()).expect("short"),
        }
        store.slots[one] = Some(node);
    }

    /// Up to nine new nodes, each below the one before, in any order of slots.
    fn add_chain(&mut self, store: &mut Store, from: usize) {
        let mut parent = from;
        for _ in 0..1 + self.0.below(9) {
            let free: Vec<usize> = (0..SLOTS).filter(|&slot| store.slots[slot].is_none()).collect();
            if free.is_empty() {
                return;
            }
            let slot = *self.0.pick(&free);
            let mut node = *store.node(from);
            node.name = Few::new(self.0.pick(&["a", "z", "9"]).as_bytes()).expect("short");
            node.parent = parent;
            store.slots[slot] = Some(node);
            parent = slot;
        }
    }

    fn alter_watches(&mut self, world: &mut World) {
        let used: Vec<usize> = (0..WATCH_PLACES).filter(|&i| world.watches[i].is_some()).collect();
        if used.is_empty() {
            return;
        }
        let from = *self.0.pick(&used);
        let to = if self.0.percent(50) { self.0.below(WATCH_PLACES) } else { from };
        let mut watch = world.watches[from].clone().expect("in use");
        for _ in 0..self.0.below(3) {
            match self.0.below(6) {
                0 => watch.relative ^= true,
                1 => watch.depth = *self.0.pick(&[None, Some(0), Some(1), Some(2), Some(255)]),
                2 => watch.owner = *self.0.pick(&IDS),
                3 | 4 => watch.path = self.path(),
                _ => watch.token = self.0.pick(&["", "t", "a\0b", "\0"]).as_bytes().to_vec(),
            }
        }
        world.watches[to] = Some(watch);
    }

    fn alter_transactions(&mut self, world: &mut World) {
        let place = self.0.below(TRANSACTION_PLACES);
        let holder = *self.0.pick(&IDS[..4]);
        let changes = (0..self.0.below(9)).map(|_| Change { path: PATHS[self.0.below(9)].as_bytes().to_vec(), removed: false, parents: 0 }).collect();
        let store = world.store.clone();
        let mut open = world.transactions[place].clone().unwrap_or(Transaction { stale: false, holder, changes, store });
        match self.0.below(6) {
            0 => open.stale ^= true,
            1 => open.holder = *self.0.pick(&IDS),
            2 => open.changes.push(Change { path: self.path(), removed: self.0.percent(50), parents: 0 }),
            3 => open.changes.iter_mut().for_each(|change| change.removed = self.0.percent(50)),
            4 => open.changes.iter_mut().for_each(|change| change.parents = self.0.below(8)),
            _ => open.changes.reverse(),
        }
        world.transactions[place] = Some(open);
    }
}

/// The entries in which tables differ, as they are in the second.
fn differences(old: &Memory, new: &Memory) -> Vec<Poke> {
    let mut pokes = Vec::new();
    for (buffer, size) in ENTRY_SIZES.into_iter().enumerate() {
        let entries = new.buffer(buffer).chunks(size).zip(old.buffer(buffer).chunks(size)).enumerate();
        pokes.extend(entries.filter(|(_, (new, old))| new != old).map(|(i, (new, _))| Poke { buffer, at: i * size, bytes: new.to_vec() }));
    }
    pokes
}
