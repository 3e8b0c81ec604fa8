//! Who hears an event, the records, and the event message.

use crate::layout;
use crate::path;
use crate::payload::decimal;
use crate::size::*;
use crate::store::Store;
use crate::world::{Event, Watch, World};
use crate::Asked;

pub struct Record {
    pub mask: u16,
    pub path: Vec<u8>,
}

/// The records of a call's events, those that nobody hears left out.
pub fn records(before: &Store, after: &World, events: &[Event]) -> Vec<Record> {
    let record = |event: &Event| {
        let mask = after.watches.iter().enumerate().filter(|(i, watch)| watch.as_ref().is_some_and(|w| hears(before, after, *i, w, event)));
        let mask = mask.fold(0, |mask, (i, _)| mask | 0x8000 >> i);
        let path = match event {
            Event::Node { path, .. } => path.clone(),
            Event::Domain { id, .. } => format!("/{id}").into_bytes(),
            Event::Watched { place, .. } => place.clone(),
        };
        Record { mask, path }
    };
    events.iter().map(record).filter(|record| record.mask != 0).collect()
}

fn hears(before: &Store, after: &World, index: usize, watch: &Watch, event: &Event) -> bool {
    let may_read = |path: &[u8]| before.may_read(path, watch.owner) || after.store.may_read(path, watch.owner);
    match event {
        Event::Watched { watch, .. } => *watch == index,
        Event::Domain { name, .. } => watch.path == *name,
        Event::Node { .. } if path::is_special(&watch.path) => false,
        Event::Node { path: p, removed } => {
            let within = *p == watch.path || path::is_below(p, &watch.path);
            let levels = || path::depth(p) - path::depth(&watch.path);
            within && watch.depth.is_none_or(|most| levels() <= most.into()) && may_read(p)
                || *removed && path::is_below(&watch.path, p) && may_read(&watch.path)
        }
    }
}

pub fn write_records(records: &[Record], events: &mut [u8]) {
    for (record, bytes) in records.iter().zip(events.chunks_mut(RECORD)) {
        layout::write_record(record.mask, &record.path, bytes);
    }
}

/// The payload of an event message; None is number 6.
pub fn message(watches: &[Option<Watch>], asked: &Asked) -> Option<Vec<u8>> {
    if asked.record >= asked.event_count {
        return None;
    }
    let record = asked.events.chunks(RECORD).nth(asked.record as usize)?;
    let watch = watches.get(asked.watch as usize)?.as_ref()?;
    let (mask, path) = layout::record(record)?;
    if mask & 0x8000 >> asked.watch == 0 {
        return None;
    }
    let told = reported(watch, path)?;
    let cut = if watch.relative { path::base(watch.owner).len() } else { 0 };
    Some([&told[cut..], b"\0", &watch.token, b"\0"].concat())
}

/// The path that a watch reports for a record's path, before the base is cut.
fn reported<'a>(watch: &'a Watch, path: &'a [u8]) -> Option<&'a [u8]> {
    let own: &[u8] = &watch.path;
    if path == own {
        return Some(own);
    }
    if path::is_special(own) {
        return is_domain(path).then_some(if watch.depth.is_some() { path } else { own });
    }
    if path::is_below(path, own) {
        return Some(path);
    }
    path::is_below(own, path).then_some(own)
}

/// Whether a record's path is `/` and a domain id.
fn is_domain(path: &[u8]) -> bool {
    path.strip_prefix(b"/").and_then(decimal).is_some_and(|id| id <= TOP_DOMAIN)
}
