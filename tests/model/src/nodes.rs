//! The seven node requests on one store.

use crate::few::Few;
use crate::path;
use crate::payload::Node as Asked;
use crate::size::*;
use crate::store::{Entry, Reach, Right, Store};
use crate::world::Change;
use crate::world::Errno::{self, *};

/// A payload, and what changed if anything did.
type Outcome = Result<(Vec<u8>, Option<Change>), Errno>;

fn check(holds: bool, errno: Errno) -> Result<(), Errno> {
    if holds {
        Ok(())
    } else {
        Err(errno)
    }
}

/// A node request on one store. `room`: whether one more change may be recorded.
pub fn on_node(store: &mut Store, sender: u16, path: Vec<u8>, asked: Asked, room: bool) -> Outcome {
    let at = store.reach(&path);
    let node = store.node(at.slot);
    let may_read = check(node.allows(sender, Right::Read), Eacces);
    let may_write = check(node.allows(sender, Right::Write), Eacces);
    let present = check(at.missing == 0, if may_read.is_ok() { Enoent } else { Eacces });
    match asked {
        Asked::Directory | Asked::Read | Asked::GetPerms => {
            present.and(may_read)?;
            Ok((shown(store, at.slot, &asked)?, None))
        }
        Asked::Write(value) => {
            may_write?;
            let value = Few::new(&value).ok_or(Enospc)?;
            check(room && can_make(store, &path, &at), Enospc)?;
            let slot = store.make(&path, sender);
            store.slots[slot].as_mut().expect("just made").value = value;
            done(Some(Change { path, removed: false, parents: at.missing.saturating_sub(1) }))
        }
        Asked::Mkdir if at.missing == 0 => may_write.and(done(None)),
        Asked::Mkdir => {
            may_write?;
            check(room && can_make(store, &path, &at), Enospc)?;
            store.make(&path, sender);
            done(Some(Change { path, removed: false, parents: at.missing - 1 }))
        }
        Asked::Rm if at.missing == 1 => may_read.and(done(None)),
        Asked::Rm => {
            present.and(may_write)?;
            check(room, Enospc)?;
            store.remove(at.slot);
            done(Some(Change { path, removed: true, parents: 0 }))
        }
        Asked::SetPerms(entries) => {
            present?;
            check(sender == 0 || sender == node.owner() && sender == entries[0].domain, Eacces)?;
            let entries = Few::new(&entries).ok_or(Enospc)?;
            check(room, Enospc)?;
            store.slots[at.slot].as_mut().expect("present").entries = entries;
            done(Some(Change { path, removed: false, parents: 0 }))
        }
    }
}

/// What a request that only reads answers.
fn shown(store: &Store, slot: usize, asked: &Asked) -> Result<Vec<u8>, Errno> {
    let node = store.node(slot);
    let entry = |e: &Entry| format!("{}{}\0", ["n", "r", "w", "b"][usize::from(e.access)], e.domain);
    let answer = match asked {
        Asked::Directory => store.children(slot).iter().flat_map(|child| [&store.node(*child).name, &b"\0"[..]].concat()).collect(),
        Asked::GetPerms => node.entries.iter().map(entry).collect::<String>().into_bytes(),
        _ => node.value.to_vec(),
    };
    check(answer.len() <= PAYLOAD, E2big)?;
    Ok(answer)
}

/// Whether the sizes and free slots let the missing nodes of a path be made.
fn can_make(store: &Store, path: &[u8], at: &Reach) -> bool {
    path::fits(path) && at.missing <= store.free_slots()
}

fn done(change: Option<Change>) -> Outcome {
    Ok((b"OK\0".to_vec(), change))
}
