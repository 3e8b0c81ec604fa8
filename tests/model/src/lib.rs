//! An independent model of documents 01 and 02: the three exported calls on the same lent bytes. They decode, check in the order of 01, act and encode.
#![deny(warnings)]
#![forbid(unsafe_code)]

pub mod event;
pub mod few;
pub mod layout;
pub mod nodes;
pub mod path;
pub mod payload;
pub mod size;
pub mod sound;
pub mod store;
pub mod world;

#[cfg(test)]
mod created;
#[cfg(test)]
mod worked;

use layout::{decode, encode};
use size::*;
use world::World;

/// The five tables, as lent.
pub struct Tables<'a> {
    pub nodes: &'a mut [u8],
    pub copies: &'a mut [u8],
    pub watches: &'a mut [u8],
    pub transactions: &'a mut [u8],
    pub domains: &'a mut [u8],
}

impl Tables<'_> {
    fn sizes_are_right(&self) -> bool {
        self.nodes.len() == NODES
            && self.copies.len() == COPIES
            && self.watches.len() == WATCHES
            && self.transactions.len() == TRANSACTIONS
            && self.domains.len() == DOMAINS
    }
}

/// The numbers that a request call answers.
#[derive(Clone, Copy, Debug, Default, PartialEq, Eq)]
pub struct Results {
    pub number: u32,
    pub reply_length: u32,
    pub event_count: u32,
    pub page: i64,
    pub channel: u32,
}

/// Why a call was not handled: its number.
#[derive(Clone, Copy, Debug, PartialEq, Eq)]
pub enum Refusal {
    Size = 1,
    Unsound = 2,
    Stranger = 3,
    Frame = 4,
    TooLong = 5,
    NoMessage = 6,
}

use Refusal::*;

fn check(holds: bool, refusal: Refusal) -> Result<(), Refusal> {
    if holds {
        Ok(())
    } else {
        Err(refusal)
    }
}

/// Fills the tables with the fresh store; 1 where a size is wrong.
pub fn fresh(tables: &mut Tables) -> u32 {
    if !tables.sizes_are_right() {
        return Size as u32;
    }
    tables.copies.fill(0);
    encode(&World::fresh(), tables);
    0
}

/// One message from one sender.
pub fn request(tables: &mut Tables, sender: u32, message: &[u8], reply: &mut [u8], events: &mut [u8]) -> Results {
    handled(tables, sender, message, reply, events).unwrap_or_else(|refusal| Results { number: refusal as u32, ..Results::default() })
}

fn handled(tables: &mut Tables, sender: u32, message: &[u8], reply: &mut [u8], events: &mut [u8]) -> Result<Results, Refusal> {
    check(tables.sizes_are_right() && reply.len() == REPLY && events.len() == EVENTS, Size)?;
    let mut world = decode(tables).filter(sound::world).ok_or(Unsound)?;
    check(world.knows(sender), Stranger)?;
    let (header, payload) = message.split_at_checked(16).ok_or(Frame)?;
    let [kind, req_id, tx_id, len] = layout::words(header);
    check(len as usize <= PAYLOAD, TooLong)?;
    check(len as usize == payload.len(), Frame)?;

    let before = world.store.clone();
    let sender = sender as u16;
    let (kind, answer) = match payload::request(kind, payload, tx_id, sender).and_then(|asked| world.act(sender, tx_id, asked)) {
        Ok(answer) => (kind, answer),
        Err(errno) => (16, world::Answer::of_text(errno.name())),
    };
    encode(&world, tables);
    let records = event::records(&before, &world, &answer.events);
    event::write_records(&records, events);
    Ok(Results {
        number: 0,
        reply_length: layout::write_message(reply, [kind, req_id, tx_id], &answer.payload),
        event_count: records.len() as u32,
        page: answer.page,
        channel: answer.channel,
    })
}

/// What the event-message call is lent.
pub struct Asked<'a> {
    pub watches: &'a [u8],
    pub domains: &'a [u8],
    pub events: &'a [u8],
    pub event_count: u32,
    pub record: u32,
    pub watch: u32,
}

/// The event message of one record for one watch: the call number and the message's length.
pub fn event_message(asked: &Asked, message: &mut [u8]) -> (u32, u32) {
    match told(asked, message) {
        Ok(length) => (0, length),
        Err(refusal) => (refusal as u32, 0),
    }
}

fn told(asked: &Asked, message: &mut [u8]) -> Result<u32, Refusal> {
    let Asked { watches, domains, events, .. } = asked;
    check(watches.len() == WATCHES && domains.len() == DOMAINS && events.len() == EVENTS && message.len() == EVENT_MESSAGE, Size)?;
    let (watches, domains) = layout::watches(watches).zip(layout::domains(domains)).ok_or(Unsound)?;
    check(sound::domains(&domains) && sound::watches(&watches, &domains), Unsound)?;
    let payload = event::message(&watches, asked).ok_or(NoMessage)?;
    Ok(layout::write_message(message, [15, 0, 0], &payload))
}
