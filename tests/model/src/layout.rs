//! The bytes of tables and messages. Decoding answers None where a length or count is past its bound, or where the bytes are not those that the
//! content encodes to.

use crate::few::Few;
use crate::size::*;
use crate::store::{Entry, Node, Store};
use crate::world::{Change, Transaction, Watch, World};
use crate::Tables;

/// Numbers of these widths, packed most significant first.
fn unpack<const N: usize>(bytes: &[u8], widths: [u32; N]) -> [usize; N] {
    let whole = bytes.iter().fold(0u128, |whole, &b| whole << 8 | u128::from(b));
    let mut left = 8 * bytes.len() as u32;
    widths.map(|width| {
        left -= width;
        (whole >> left) as usize & ((1 << width) - 1)
    })
}

fn pack<const N: usize>(bytes: &mut [u8], widths: [u32; N], numbers: [usize; N]) {
    let whole = widths.iter().zip(numbers).fold(0u128, |whole, (width, number)| whole << width | number as u128);
    let count = bytes.len();
    bytes.copy_from_slice(&whole.to_be_bytes()[16 - count..]);
}

const SLOT_HEAD: [u32; 13] = [1, 7, 6, 7, 3, 2, 16, 2, 16, 2, 16, 2, 16];
const WATCH_HEAD: [u32; 9] = [1, 1, 1, 5, 8, 16, 9, 1, 6];
const TRANSACTION_HEAD: [u32; 5] = [1, 1, 2, 4, 16];
const CHANGE_HEAD: [u32; 4] = [1, 3, 3, 9];
const DOMAIN_HEAD: [u32; 3] = [1, 7, 16];
const RECORD_HEAD: [u32; 3] = [16, 9, 7];

fn decode_node(bytes: &[u8]) -> Option<Option<Node>> {
    let [used, parent, name, value, count, entries @ ..] = unpack(&bytes[..12], SLOT_HEAD);
    if used == 0 {
        return Some(None);
    }
    let entries: [usize; 8] = entries;
    let entry = |i: usize| Entry { access: entries[2 * i] as u8, domain: entries[2 * i + 1] as u16 };
    let all = [entry(0), entry(1), entry(2), entry(3)];
    Some(Some(Node {
        parent,
        name: Few::new(bytes[12..44].get(..name)?)?,
        value: Few::new(bytes[44..108].get(..value)?)?,
        entries: Few::new(all.get(..count)?)?,
    }))
}

fn encode_node(node: &Option<Node>, bytes: &mut [u8]) {
    bytes.fill(0);
    if let Some(node) = node {
        let entry = |i: usize| node.entries.get(i).map_or((0, 0), |e| (usize::from(e.access), usize::from(e.domain)));
        let ((a, i), (b, j), (c, k), (d, l)) = (entry(0), entry(1), entry(2), entry(3));
        let head = [1, node.parent, node.name.len(), node.value.len(), node.entries.len(), a, i, b, j, c, k, d, l];
        pack(&mut bytes[..12], SLOT_HEAD, head);
        bytes[12..][..node.name.len()].copy_from_slice(&node.name);
        bytes[44..][..node.value.len()].copy_from_slice(&node.value);
    }
}

fn decode_watch(bytes: &[u8]) -> Option<Option<Watch>> {
    let [used, relative, given, _, depth, owner, path, _, token] = unpack(&bytes[..6], WATCH_HEAD);
    if used == 0 {
        return Some(None);
    }
    Some(Some(Watch {
        relative: relative == 1,
        depth: (given == 1).then_some(depth as u8),
        owner: owner as u16,
        path: bytes[6..270].get(..path)?.to_vec(),
        token: bytes[270..302].get(..token)?.to_vec(),
    }))
}

fn encode_watch(watch: &Option<Watch>, bytes: &mut [u8]) {
    bytes.fill(0);
    if let Some(watch) = watch {
        let depth = usize::from(watch.depth.unwrap_or(0));
        let head = [1, watch.relative.into(), watch.depth.is_some().into(), 0, depth, watch.owner.into(), watch.path.len(), 0, watch.token.len()];
        pack(&mut bytes[..6], WATCH_HEAD, head);
        bytes[6..][..watch.path.len()].copy_from_slice(&watch.path);
        bytes[270..][..watch.token.len()].copy_from_slice(&watch.token);
    }
}

fn decode_change(bytes: &[u8]) -> Option<Change> {
    let [removed, _, parents, length] = unpack(&bytes[..2], CHANGE_HEAD);
    Some(Change { path: bytes[2..].get(..length)?.to_vec(), removed: removed == 1, parents })
}

fn encode_change(change: &Change, bytes: &mut [u8]) {
    pack(&mut bytes[..2], CHANGE_HEAD, [change.removed.into(), 0, change.parents, change.path.len()]);
    bytes[2..][..change.path.len()].copy_from_slice(&change.path);
}

/// A transaction without its copy.
fn decode_transaction(bytes: &[u8]) -> Option<Option<Transaction>> {
    let [open, stale, _, count, holder] = unpack(&bytes[..3], TRANSACTION_HEAD);
    if open == 0 {
        return Some(None);
    }
    if count > CHANGES {
        return None;
    }
    let changes = bytes[3..].chunks(CHANGE).take(count).map(decode_change).collect::<Option<_>>()?;
    Some(Some(Transaction { stale: stale == 1, holder: holder as u16, changes, store: Store { slots: Vec::new() } }))
}

fn encode_transaction(transaction: &Option<Transaction>, bytes: &mut [u8]) {
    bytes.fill(0);
    if let Some(t) = transaction {
        pack(&mut bytes[..3], TRANSACTION_HEAD, [1, t.stale.into(), 0, t.changes.len(), t.holder.into()]);
        for (change, bytes) in t.changes.iter().zip(bytes[3..].chunks_mut(CHANGE)) {
            encode_change(change, bytes);
        }
    }
}

fn decode_domain(bytes: &[u8]) -> Option<Option<u16>> {
    let [used, _, id] = unpack(bytes, DOMAIN_HEAD);
    Some((used == 1).then_some(id as u16))
}

fn encode_domain(domain: &Option<u16>, bytes: &mut [u8]) {
    let id = usize::from(domain.unwrap_or(0));
    pack(bytes, DOMAIN_HEAD, [domain.is_some().into(), 0, id]);
}

/// A whole table of entries; None if an entry is malformed or encodes to other bytes.
fn table<T>(bytes: &[u8], size: usize, decode: fn(&[u8]) -> Option<T>, encode: fn(&T, &mut [u8])) -> Option<Vec<T>> {
    let mut again = [0; TRANSACTION];
    let entry = |bytes: &[u8]| {
        let entry = decode(bytes)?;
        encode(&entry, &mut again[..size]);
        (again[..size] == *bytes).then_some(entry)
    };
    bytes.chunks(size).map(entry).collect()
}

fn encode_table<T>(entries: &[T], bytes: &mut [u8], size: usize, encode: fn(&T, &mut [u8])) {
    for (entry, bytes) in entries.iter().zip(bytes.chunks_mut(size)) {
        encode(entry, bytes);
    }
}

pub fn store(bytes: &[u8]) -> Option<Store> {
    Some(Store { slots: table(bytes, SLOT, decode_node, encode_node)? })
}

pub fn watches(bytes: &[u8]) -> Option<Vec<Option<Watch>>> {
    table(bytes, WATCH, decode_watch, encode_watch)
}

pub fn domains(bytes: &[u8]) -> Option<Vec<Option<u16>>> {
    table(bytes, DOMAIN, decode_domain, encode_domain)
}

pub fn decode(tables: &Tables) -> Option<World> {
    let mut transactions = table(tables.transactions, TRANSACTION, decode_transaction, encode_transaction)?;
    for (transaction, copy) in transactions.iter_mut().zip(tables.copies.chunks(NODES)) {
        if let Some(open) = transaction {
            open.store = store(copy)?;
        }
    }
    Some(World { store: store(tables.nodes)?, watches: watches(tables.watches)?, transactions, domains: domains(tables.domains)? })
}

/// Writes every table; the copy of a closed transaction is left as it is.
pub fn encode(world: &World, tables: &mut Tables) {
    encode_table(&world.store.slots, tables.nodes, SLOT, encode_node);
    encode_table(&world.watches, tables.watches, WATCH, encode_watch);
    encode_table(&world.transactions, tables.transactions, TRANSACTION, encode_transaction);
    encode_table(&world.domains, tables.domains, DOMAIN, encode_domain);
    for (transaction, copy) in world.transactions.iter().zip(tables.copies.chunks_mut(NODES)) {
        if let Some(open) = transaction {
            encode_table(&open.store.slots, copy, SLOT, encode_node);
        }
    }
}

/// An event record's mask and path, if its length is 1 to 264.
pub fn record(bytes: &[u8]) -> Option<(u16, &[u8])> {
    let [mask, length, _] = unpack(&bytes[..4], RECORD_HEAD);
    let path = bytes[4..].get(..length).filter(|path| !path.is_empty())?;
    Some((mask as u16, path))
}

pub fn write_record(mask: u16, path: &[u8], bytes: &mut [u8]) {
    bytes.fill(0);
    pack(&mut bytes[..4], RECORD_HEAD, [mask.into(), path.len(), 0]);
    bytes[4..][..path.len()].copy_from_slice(path);
}

/// The four numbers of a message's header.
pub fn words(header: &[u8]) -> [u32; 4] {
    [0, 4, 8, 12].map(|at| u32::from_le_bytes(header[at..at + 4].try_into().expect("four bytes")))
}

/// Writes a message and answers its length.
pub fn write_message(out: &mut [u8], [kind, req_id, tx_id]: [u32; 3], payload: &[u8]) -> u32 {
    for (word, bytes) in [kind, req_id, tx_id, payload.len() as u32].iter().zip(out.chunks_mut(4)) {
        bytes.copy_from_slice(&word.to_le_bytes());
    }
    out[16..][..payload.len()].copy_from_slice(payload);
    16 + payload.len() as u32
}
