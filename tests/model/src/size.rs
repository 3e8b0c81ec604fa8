//! Document 01's sizes.

pub const SLOTS: usize = 128;
pub const WATCH_PLACES: usize = 16;
pub const TRANSACTION_PLACES: usize = 3;
pub const DOMAIN_PLACES: usize = 8;
pub const CHANGES: usize = 8;
pub const ENTRIES: usize = 4;
pub const RECORDS: usize = 128;

pub const NAME: usize = 32;
pub const VALUE: usize = 64;
pub const TOKEN: usize = 32;
pub const DEPTH: usize = 8;
pub const PATH: usize = 264;
pub const PAYLOAD: usize = 4096;
pub const TOP_DOMAIN: u64 = 32_751;

pub const SLOT: usize = 108;
pub const NODES: usize = SLOTS * SLOT;
pub const COPIES: usize = TRANSACTION_PLACES * NODES;
pub const WATCH: usize = 302;
pub const WATCHES: usize = WATCH_PLACES * WATCH;
pub const CHANGE: usize = 266;
pub const TRANSACTION: usize = 3 + CHANGES * CHANGE;
pub const TRANSACTIONS: usize = TRANSACTION_PLACES * TRANSACTION;
pub const DOMAIN: usize = 3;
pub const DOMAINS: usize = DOMAIN_PLACES * DOMAIN;
pub const RECORD: usize = 268;
pub const EVENTS: usize = RECORDS * RECORD;
pub const REPLY: usize = 16 + PAYLOAD;
pub const EVENT_MESSAGE: usize = 314;
