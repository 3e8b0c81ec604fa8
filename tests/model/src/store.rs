//! A node table decoded: slots, rights, making and removing.

use crate::few::Few;
use crate::path;
use crate::size::*;

#[derive(Clone, Copy, Default, PartialEq, Eq)]
pub struct Entry {
    /// n 0, r 1, w 2, b 3.
    pub access: u8,
    pub domain: u16,
}

#[derive(Clone, Copy)]
pub struct Node {
    pub parent: usize,
    pub name: Few<u8, NAME>,
    pub value: Few<u8, VALUE>,
    pub entries: Few<Entry, ENTRIES>,
}

#[derive(Clone, Copy, PartialEq, Eq)]
pub enum Right {
    Read = 1,
    Write = 2,
}

impl Node {
    pub fn owner(&self) -> u16 {
        self.entries[0].domain
    }

    pub fn allows(&self, domain: u16, right: Right) -> bool {
        let granted = self.entries[1..].iter().find(|entry| entry.domain == domain).unwrap_or(&self.entries[0]);
        domain == 0 || domain == self.owner() || granted.access & right as u8 != 0
    }
}

#[derive(Clone)]
pub struct Store {
    pub slots: Vec<Option<Node>>,
}

/// Where a path leads: its node, or its nearest present ancestor and how many names are missing.
pub struct Reach {
    pub slot: usize,
    pub missing: usize,
}

impl Store {
    pub fn fresh() -> Store {
        let root = Node { parent: 0, name: Few::new(b"").unwrap(), value: Few::new(b"").unwrap(), entries: Few::new(&[Entry::default()]).unwrap() };
        let mut slots = vec![None; SLOTS];
        slots[0] = Some(root);
        Store { slots }
    }

    pub fn node(&self, slot: usize) -> &Node {
        self.slots[slot].as_ref().expect("a used slot")
    }

    fn used(&self) -> impl Iterator<Item = (usize, &Node)> {
        self.slots.iter().enumerate().filter_map(|(slot, node)| Some((slot, node.as_ref()?)))
    }

    fn child(&self, parent: usize, name: &[u8]) -> Option<usize> {
        self.used().find(|(_, node)| node.parent == parent && *node.name == *name).map(|(slot, _)| slot)
    }

    /// The slots of a node's children, in byte order of their names.
    pub fn children(&self, parent: usize) -> Vec<usize> {
        let mut found: Vec<usize> = self.used().filter(|(slot, node)| *slot != 0 && node.parent == parent).map(|(slot, _)| slot).collect();
        found.sort_by(|a, b| self.node(*a).name.cmp(&*self.node(*b).name));
        found
    }

    pub fn reach(&self, path: &[u8]) -> Reach {
        let mut reach = Reach { slot: 0, missing: path::depth(path) };
        for name in path::names(path) {
            let Some(slot) = self.child(reach.slot, name) else { break };
            reach = Reach { slot, missing: reach.missing - 1 };
        }
        reach
    }

    pub fn may_read(&self, path: &[u8], domain: u16) -> bool {
        let reach = self.reach(path);
        reach.missing == 0 && self.node(reach.slot).allows(domain, Right::Read)
    }

    pub fn free_slots(&self) -> usize {
        self.slots.iter().filter(|slot| slot.is_none()).count()
    }

    /// Makes the missing nodes of a path that fits, parents first, each in the lowest free slot; answers the last one's slot.
    pub fn make(&mut self, path: &[u8], sender: u16) -> usize {
        let Reach { mut slot, missing } = self.reach(path);
        for name in path::names(path).skip(path::depth(path) - missing) {
            let mut entries = self.node(slot).entries;
            if sender != 0 {
                entries[0].domain = sender;
            }
            let free = self.slots.iter().position(Option::is_none).expect("a free slot");
            self.slots[free] = Some(Node { parent: slot, name: Few::new(name).expect("a name that fits"), value: Few::new(b"").unwrap(), entries });
            slot = free;
        }
        slot
    }

    /// Removes a node and all below it.
    pub fn remove(&mut self, slot: usize) {
        for child in self.children(slot) {
            self.remove(child);
        }
        self.slots[slot] = None;
    }

    /// The topmost nodes that a domain owns with their paths: a node, then its children in name order.
    pub fn owned_by(&self, domain: u16) -> Vec<(usize, Vec<u8>)> {
        let mut found = Vec::new();
        self.walk(0, b"", domain, &mut found);
        found
    }

    fn walk(&self, slot: usize, path: &[u8], domain: u16, found: &mut Vec<(usize, Vec<u8>)>) {
        if self.node(slot).owner() == domain {
            found.push((slot, path.to_vec()));
            return;
        }
        for child in self.children(slot) {
            self.walk(child, &[path, b"/", &self.node(child).name].concat(), domain, found);
        }
    }
}
