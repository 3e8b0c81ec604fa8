//! The tables as a call found them, as far as they tell what the call reached.

use crate::history::{Call, Step};
use crate::sides::*;
use model::layout::words;
use model::path;
use model::size::*;
use model::store::Store;
use model::world::{Change, Transaction};
use std::cmp::Ordering;

pub struct Before {
    /// Slots in use.
    pub used: usize,
    /// Whether bytes of the transactions were altered.
    pub altered: bool,
    /// All of it, where bytes were altered or a transaction may end.
    memory: Option<Memory>,
}

pub fn used_slots(memory: &Memory) -> usize {
    memory.buffer(0).chunks(SLOT).filter(|slot| slot[0] & 0x80 != 0).count()
}

impl Before {
    pub fn of(step: &Step, memory: &Memory) -> Before {
        let ends = matches!(&step.call, Call::Request { message, .. } if message.first() == Some(&7));
        Before {
            used: used_slots(memory),
            altered: step.pokes.iter().any(|poke| poke.buffer == TRANSACTION_TABLE),
            memory: (ends || !step.pokes.is_empty()).then(|| memory.clone()),
        }
    }

    /// The mark of tables that are unsound by one change's new parents or zero bits alone.
    pub fn flaw(&self) -> Option<&'static str> {
        let memory = self.memory.as_ref()?;
        let table = memory.buffer(TRANSACTION_TABLE);
        let (at, flaw) = heads(table).into_iter().find_map(|at| Some((at, flaw(&table[at..][..CHANGE])?)))?;
        let mut mended = memory.clone();
        mended.poke(TRANSACTION_TABLE, at, &[table[at] & 0x81]);
        mended.decoded().filter(model::sound::world).map(|_| flaw)
    }

    /// The marks of a commit.
    pub fn commit(&self, message: &[u8], records: u32) -> Vec<&'static str> {
        let mut memory = self.memory.clone().expect("kept where a transaction may end");
        let world = memory.decoded().expect("tables that are sound");
        let place = words(&message[..16])[2] as usize - 1;
        let ended = world.transactions[place].as_ref().expect("an open transaction");
        let parents = ended.changes.iter().any(|change| change.parents > 0);
        let size = match records {
            0 => "commit without",
            1..=8 => "commit, 1 to 8 records",
            9..=63 => "commit, 9 to 63 records",
            _ => "commit, 64 records",
        };
        let marks = [
            (true, size),
            (made_and_removed(&world.store, ended), "commit: made and removed"),
            (removed_and_made(&world.store, ended), "commit: removed and made"),
            (self.altered && parents && records > 0, "commit: parents altered"),
        ];
        marks.into_iter().filter(|(met, _)| *met).map(|(_, mark)| mark).collect()
    }
}

fn present(store: &Store, path: &[u8]) -> bool {
    store.reach(path).missing == 0
}

/// Whether a created parent is there neither before the commit nor after it.
fn made_and_removed(before: &Store, ended: &Transaction) -> bool {
    let mut parents = ended.changes.iter().flat_map(Change::created_parents);
    parents.any(|path| !present(before, &path) && !present(&ended.store, &path))
}

/// Whether a parent that is there before the commit was removed in the transaction and then created.
fn removed_and_made(before: &Store, ended: &Transaction) -> bool {
    ended.changes.iter().enumerate().any(|(i, change)| {
        let takes = |earlier: &Change, path: &[u8]| earlier.removed && (earlier.path == path || path::is_below(path, &earlier.path));
        let removed = |path: &[u8]| ended.changes[..i].iter().any(|earlier| takes(earlier, path));
        change.created_parents().any(|path| present(before, &path) && removed(&path))
    })
}

/// Where the changes of open transactions begin in their table.
fn heads(table: &[u8]) -> Vec<usize> {
    let open = (0..TRANSACTION_PLACES).map(|place| place * TRANSACTION).filter(|&at| table[at] & 0x80 != 0);
    open.flat_map(|at| (0..CHANGES.min((table[at] & 15).into())).map(move |i| at + 3 + i * CHANGE)).collect()
}

/// What is wrong with the new parents or the zero bits of a change.
fn flaw(change: &[u8]) -> Option<&'static str> {
    let parents = usize::from(change[0] >> 1 & 7);
    let length = usize::from(change[0] & 1) << 8 | usize::from(change[1]);
    let names = change[2..].get(..length)?.split(|&b| b == b'/').filter(|name| !name.is_empty()).count();
    if change[0] & 0x70 != 0 {
        return Some("unsound: zero bits");
    }
    if change[0] & 0x80 != 0 {
        return (parents > 0).then_some("unsound: removal, parents");
    }
    match parents.cmp(&names) {
        Ordering::Less => None,
        Ordering::Equal => (parents > 0).then_some("unsound: parents as names"),
        Ordering::Greater => Some("unsound: parents above"),
    }
}
