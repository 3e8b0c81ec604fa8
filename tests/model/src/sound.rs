//! What makes decoded tables sound; lengths and padding are settled by decoding.

use crate::path;
use crate::size::*;
use crate::store::{Node, Store};
use crate::world::{Change, Transaction, Watch, World};

pub fn world(world: &World) -> bool {
    store(&world.store)
        && domains(&world.domains)
        && watches(&world.watches, &world.domains)
        && world.transactions.iter().flatten().all(|open| transaction(open, &world.domains))
}

fn node(node: &Node) -> bool {
    !node.entries.is_empty() && node.entries.iter().all(|entry| u64::from(entry.domain) <= TOP_DOMAIN)
}

pub fn store(store: &Store) -> bool {
    let Some(root) = &store.slots[0] else { return false };
    let root_is_right = node(root) && root.parent == 0 && root.name.is_empty() && root.owner() == 0;
    let below: Vec<&Node> = store.slots[1..].iter().flatten().collect();
    root_is_right
        && below.iter().all(|n| node(n) && path::is_name(&n.name) && reaches_root(store, n))
        && below.iter().enumerate().all(|(i, a)| !below[..i].iter().any(|b| a.parent == b.parent && *a.name == *b.name))
}

/// Whether at most 8 steps by used slots lead from a node below the root to slot 0.
fn reaches_root(store: &Store, node: &Node) -> bool {
    let mut at = node.parent;
    for _ in 1..DEPTH {
        match &store.slots[at] {
            Some(parent) if at != 0 => at = parent.parent,
            _ => break,
        }
    }
    at == 0
}

fn differ<T>(entries: &[Option<T>], same: impl Fn(&T, &T) -> bool) -> bool {
    let used: Vec<&T> = entries.iter().flatten().collect();
    used.iter().enumerate().all(|(i, a)| !used[..i].iter().any(|b| same(a, b)))
}

pub fn domains(domains: &[Option<u16>]) -> bool {
    domains.iter().flatten().all(|&id| id != 0 && u64::from(id) <= TOP_DOMAIN) && differ(domains, |a, b| a == b)
}

fn is_known(domain: u16, domains: &[Option<u16>]) -> bool {
    domain == 0 || domains.contains(&Some(domain))
}

pub fn watches(watches: &[Option<Watch>], domains: &[Option<u16>]) -> bool {
    watches.iter().flatten().all(|w| is_known(w.owner, domains) && watch(w))
        && differ(watches, |a, b| a.owner == b.owner && a.path == b.path && a.token == b.token)
}

fn watch(watch: &Watch) -> bool {
    let path_is_right = if path::is_special(&watch.path) {
        watch.owner == 0 && !watch.relative && matches!(watch.depth, None | Some(1))
    } else {
        path::is_stored(&watch.path) && (!watch.relative || watch.path.starts_with(&path::base(watch.owner)))
    };
    path_is_right && !watch.token.contains(&0)
}

fn transaction(open: &Transaction, domains: &[Option<u16>]) -> bool {
    is_known(open.holder, domains) && open.changes.iter().all(change) && store(&open.store)
}

/// A removal is not of `/` and has no new parents; another change has none, or fewer than its path has names.
fn change(change: &Change) -> bool {
    if !path::is_stored(&change.path) {
        return false;
    }
    let names = path::depth(&change.path);
    if change.removed {
        names > 0 && change.parents == 0
    } else {
        change.parents == 0 || change.parents < names
    }
}
