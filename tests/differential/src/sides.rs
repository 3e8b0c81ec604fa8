//! The two sides, the model and the archive: the same memory lent to each, and the three calls.

use model::size::*;
use model::{Asked, Results, Tables};

/// The lent buffers, in this order.
pub const BUFFERS: [(&str, usize); 8] = [
    ("nodes", NODES),
    ("copies", COPIES),
    ("watches", WATCHES),
    ("transactions", TRANSACTIONS),
    ("domains", DOMAINS),
    ("reply", REPLY),
    ("events", EVENTS),
    ("event message", EVENT_MESSAGE),
];
pub const TABLES: usize = 5;
pub const WATCH_TABLE: usize = 2;
pub const TRANSACTION_TABLE: usize = 3;
pub const DOMAIN_TABLE: usize = 4;
pub const RECORD_BUFFER: usize = 6;
pub const MESSAGE_BUFFER: usize = 7;

/// Bytes around each buffer that no call may touch; a buffer can be lent this much too large.
pub const GUARD: usize = 64;

#[derive(Clone)]
pub struct Memory {
    /// Each buffer with its guards.
    pub areas: [Vec<u8>; 8],
    /// The size that each is lent with.
    pub sizes: [usize; 8],
}

pub fn right_sizes() -> [usize; 8] {
    BUFFERS.map(|(_, size)| size)
}

/// A call's answers: a request's, or the number and length of an event message.
#[derive(Clone, Copy, Debug, PartialEq, Eq)]
pub enum Answers {
    Fresh(u32),
    Request(Results),
    Message { number: u32, length: u32 },
}

#[derive(Clone, Copy, PartialEq, Eq)]
pub enum Side {
    Model,
    Archive,
}

impl Memory {
    /// Buffers full of bytes that depend on their place.
    pub fn new() -> Memory {
        let area = |(_, size): (&str, usize)| (0..size + 2 * GUARD).map(|i| (i * 7 + i / 251) as u8).collect();
        Memory { areas: BUFFERS.map(area), sizes: right_sizes() }
    }

    /// The buffer at its right size.
    pub fn buffer(&self, index: usize) -> &[u8] {
        &self.areas[index][GUARD..][..BUFFERS[index].1]
    }

    pub fn poke(&mut self, index: usize, at: usize, bytes: &[u8]) {
        self.areas[index][GUARD + at..][..bytes.len()].copy_from_slice(bytes);
    }

    fn lent(&mut self) -> [&mut [u8]; 8] {
        let sizes = self.sizes;
        let mut index = 0;
        self.areas.each_mut().map(|area| {
            index += 1;
            &mut area[GUARD..][..sizes[index - 1]]
        })
    }

    pub fn decoded(&mut self) -> Option<model::world::World> {
        self.sizes = right_sizes();
        let [nodes, copies, watches, transactions, domains, ..] = self.lent();
        model::layout::decode(&Tables { nodes, copies, watches, transactions, domains })
    }

    /// Writes tables with this content, sound or not.
    pub fn encode(&mut self, world: &model::world::World) {
        let [nodes, copies, watches, transactions, domains, ..] = self.lent();
        model::layout::encode(world, &mut Tables { nodes, copies, watches, transactions, domains });
    }

    pub fn fresh(&mut self, side: Side) -> Answers {
        let [nodes, copies, watches, transactions, domains, ..] = self.lent();
        let mut tables = Tables { nodes, copies, watches, transactions, domains };
        Answers::Fresh(match side {
            Side::Model => model::fresh(&mut tables),
            Side::Archive => archive::fresh(&mut tables),
        })
    }

    pub fn request(&mut self, side: Side, sender: u32, message: &[u8]) -> Answers {
        let [nodes, copies, watches, transactions, domains, reply, events, _] = self.lent();
        let mut tables = Tables { nodes, copies, watches, transactions, domains };
        Answers::Request(match side {
            Side::Model => model::request(&mut tables, sender, message, reply, events),
            Side::Archive => archive::request(&mut tables, sender, message, reply, events),
        })
    }

    pub fn event_message(&mut self, side: Side, event_count: u32, record: u32, watch: u32) -> Answers {
        let [_, _, watches, _, domains, _, events, message] = self.lent();
        let asked = Asked { watches, domains, events, event_count, record, watch };
        let (number, length) = match side {
            Side::Model => model::event_message(&asked, message),
            Side::Archive => archive::event_message(&asked, message),
        };
        Answers::Message { number, length }
    }
}
