//! Random steps: each is drawn with a look at the tables, so that it often meets something there.

use crate::craft::Craft;
use crate::history::{Call, Step};
use crate::random::Random;
use crate::sides::*;
use model::layout::write_message;
use model::path::leading;
use model::world::World;

/// What a history dwells on.
#[derive(Clone, Copy, PartialEq, Eq)]
enum Taste {
    Mixed,
    ManyNodes,
    WideDirectory,
    Watches,
    Transactions,
    Domains,
    Altered,
    BigRelease,
    /// Paths whose parents are missing, plainly and in transactions, below watches of every depth.
    Created,
}

const TASTES: [Taste; 9] = [
    Taste::Mixed,
    Taste::ManyNodes,
    Taste::WideDirectory,
    Taste::Watches,
    Taste::Transactions,
    Taste::Domains,
    Taste::Altered,
    Taste::BigRelease,
    Taste::Created,
];
const HOW_OFTEN: [usize; 9] = [24, 8, 4, 14, 24, 14, 8, 4, 20];

/// A call that comes first: sender, kind, tx_id and payload.
type Early = (u32, u32, u32, Vec<u8>);

pub const NAMES: [&str; 6] = ["a", "b", "ab", "c-d", "_E", "@9"];
pub const GUESTS: [u32; 5] = [3, 5, 7, 70, 32_751];

pub struct Maker {
    pub random: Random,
    pub craft: Craft,
    taste: Taste,
    /// Calls that come first, last one first.
    prelude: Vec<Early>,
    left: usize,
    pub made: usize,
}

pub fn nul(text: &str) -> Vec<u8> {
    text.replace('|', "\0").into_bytes()
}

impl Maker {
    pub fn new(seed: u64) -> Maker {
        let mut random = Random::new(seed);
        let taste = TASTES[random.weighted(&HOW_OFTEN)];
        let mut maker = Maker { left: 40 + random.below(200), craft: Craft::new(random.next()), random, taste, prelude: vec![], made: 0 };
        maker.set_stage();
        maker
    }

    /// The calls that bring a history quickly to what it dwells on.
    fn set_stage(&mut self) {
        let mut calls: Vec<(u32, u32, Vec<u8>)> = Vec::new();
        let guests = self.random.below(4);
        for guest in &GUESTS[..guests] {
            calls.push((0, 8, nul(&format!("{guest}|1|1|"))));
        }
        if self.random.percent(60) {
            let entries = *self.random.pick(&["/|b0|", "/|r0|", "/|n0|b3|r5|", "/|w0|r7|"]);
            calls.push((0, 14, nul(entries)));
        }
        match self.taste {
            Taste::WideDirectory => {
                let count = 122 + self.random.below(6);
                calls.extend((0..count).map(|i| (0, 12, nul(&format!("/{:032}|", i * 7919 % 1000)))));
            }
            Taste::BigRelease => {
                calls.extend([(0, 8, nul("9|1|1|")), (0, 14, nul("/|b0|")), (0, 4, nul("/|all|")), (0, 4, nul("@releaseDomain|gone|1|"))]);
                let count = if self.random.percent(50) { 128 } else { 90 + self.random.below(38) };
                calls.extend((0..count).map(|i| (9, 12, nul(&format!("/{}|", i * 37 % 128)))));
                calls.push((0, 9, nul("9|")));
            }
            Taste::Transactions | Taste::Watches => calls.extend([(0, 4, nul("/|all|")), (0, 4, nul("/a|some|1|")), (0, 4, nul("/a/b|own|0|"))]),
            Taste::Domains if self.random.percent(30) => calls.extend((1..=8).map(|id| (0, 8, nul(&format!("{id}|0|0|"))))),
            Taste::ManyNodes => {
                let count = 60 + self.random.below(70);
                calls.extend((0..count).map(|i| (0, 11, nul(&format!("/{}/{}|{i}", NAMES[i % 5], i * 37 % 128)))));
            }
            Taste::Created => {
                calls.extend(["/a|two|2|", "/b|none|0|", "/ab|five|5|", "/a/b|one|1|"].map(|watch| (0, 4, nul(watch))));
                calls.extend(GUESTS[..guests].iter().map(|guest| (*guest, 4, nul("/a|guest|3|"))));
                if self.random.percent(60) {
                    calls.push((0, 4, nul("/|all|")));
                }
            }
            _ => (),
        }
        let last = if self.taste == Taste::Created { self.early_commit() } else { vec![] };
        self.prelude = calls.into_iter().map(|(sender, kind, payload)| (sender, kind, 0, payload)).chain(last).rev().collect();
    }

    /// In some histories that dwell on created parents, a transaction on the fresh store.
    fn early_commit(&mut self) -> Vec<Early> {
        match self.random.below(10) {
            0 | 1 => fullest_commit(),
            2..=4 => self.remaking_commit(),
            _ => vec![],
        }
    }

    /// A path made, and in one transaction removed from some level on and made again.
    fn remaking_commit(&mut self) -> Vec<Early> {
        let below = 2 + self.random.below(6);
        let path = format!("/a/{}", self.names(below));
        let removed = leading(path.as_bytes(), 1 + self.random.below(below));
        let removed = String::from_utf8(removed).expect("a path");
        let made = [(0, 12, 0, nul(&format!("{path}|"))), (0, 14, 0, nul(&format!("{removed}|n0|b3|r5|"))), (0, 6, 0, nul("|"))];
        let again = [(0, 13, 1, nul(&format!("{removed}|"))), (0, 11, 1, nul(&format!("{path}|1"))), (0, 7, 1, nul("T|"))];
        made.into_iter().chain(again).collect()
    }

    /// The next step, or None at the end of the history.
    pub fn step(&mut self, memory: &mut Memory) -> Option<Step> {
        self.made += 1;
        if let Some((sender, kind, tx_id, payload)) = self.prelude.pop() {
            return Some(Step::of(Call::Request { sender, message: frame(kind, 1, tx_id, &payload) }));
        }
        self.left = self.left.checked_sub(1)?;
        let world = memory.decoded().expect("tables that are sound");
        let altered = if self.taste == Taste::Altered { 40 } else { 3 };
        Some(match self.random.weighted(&[100, altered, 2, 4]) {
            0 => Step::of(self.request(&world)),
            1 => self.altered(memory, &world),
            2 => self.resized(&world),
            _ => self.crafted_record(&world),
        })
    }

    /// Whether a history mostly goes on in a transaction that is open.
    fn stays_inside(&self) -> bool {
        matches!(self.taste, Taste::Transactions | Taste::Created)
    }

    /// Whether a path is now to be one that has parents to be created.
    pub fn creates(&mut self) -> bool {
        self.taste == Taste::Created && self.random.percent(50)
    }

    pub fn guest(&mut self, world: &World) -> u32 {
        let introduced: Vec<u32> = world.domains.iter().flatten().map(|&id| id.into()).collect();
        if introduced.is_empty() || self.random.percent(5) {
            *self.random.pick(&GUESTS)
        } else {
            *self.random.pick(&introduced)
        }
    }

    fn sender(&mut self, world: &World) -> u32 {
        let holders: Vec<u32> = world.transactions.iter().flatten().map(|open| open.holder.into()).collect();
        if self.stays_inside() && !holders.is_empty() && self.random.percent(75) {
            return *self.random.pick(&holders);
        }
        match self.random.weighted(&[50, 46, 3, 1]) {
            0 => 0,
            1 => {
                let guest = self.guest(world);
                if world.knows(guest) {
                    guest
                } else {
                    0
                }
            }
            2 => *self.random.pick(&GUESTS),
            _ => *self.random.pick(&[65_536, 65_539, u32::MAX, 32_752]),
        }
    }

    pub fn request(&mut self, world: &World) -> Call {
        let sender = self.sender(world);
        let kinds = [1, 2, 3, 4, 5, 6, 7, 8, 9, 10, 11, 12, 13, 14, 17, 21, 0];
        let weights = match self.taste {
            Taste::Watches => [2, 2, 1, 30, 8, 2, 2, 2, 1, 1, 14, 6, 14, 6, 1, 1, 1],
            Taste::Transactions => [3, 6, 2, 3, 1, 9, 12, 1, 1, 1, 30, 10, 12, 6, 1, 1, 1],
            Taste::Created => [1, 2, 1, 4, 2, 8, 10, 1, 1, 1, 30, 20, 18, 3, 1, 1, 1],
            Taste::Domains => [2, 3, 1, 6, 2, 3, 3, 22, 4, 3, 14, 6, 3, 14, 3, 1, 1],
            Taste::ManyNodes | Taste::WideDirectory => [24, 4, 2, 3, 1, 4, 4, 1, 1, 1, 30, 24, 5, 3, 1, 1, 1],
            _ => [8, 8, 4, 8, 4, 6, 6, 4, 2, 2, 20, 8, 10, 10, 2, 1, 2],
        };
        let kind = kinds[self.random.weighted(&weights)];
        let mut tx_id = self.tx_id(world, sender);
        if kind == 6 && !self.random.percent(4) {
            tx_id = 0;
        }
        if kind == 7 && tx_id == 0 {
            tx_id = self.random.below(4) as u32;
        }
        let mut payload = self.payload(kind, sender, world);
        if kind == 1 && self.taste == Taste::WideDirectory && self.random.percent(40) {
            payload = nul("/|");
        }
        if self.random.percent(5) {
            self.spoil(&mut payload);
        }
        let kind = if kind == 0 { *self.random.pick(&[0, 15, 16, 18, 19, 20, 22, 23, 24, 128, 257, 65_538, u32::MAX]) } else { kind };
        let req_id = self.random.next() as u32;
        Call::Request { sender, message: self.framed(kind, req_id, tx_id, payload) }
    }

    /// Often an open transaction of the sender, sometimes another's, a closed one or one that can't be.
    fn tx_id(&mut self, world: &World, sender: u32) -> u32 {
        let own = |(i, open): (usize, &Option<model::world::Transaction>)| {
            open.as_ref().filter(|open| u32::from(open.holder) == sender).map(|_| i as u32 + 1)
        };
        let held: Vec<u32> = world.transactions.iter().enumerate().filter_map(own).collect();
        let inside = if self.stays_inside() { 93 } else { 60 };
        match self.random.below(100) {
            0 | 1 => self.random.below(5) as u32,
            2 => *self.random.pick(&[256, 257, 65_537, u32::MAX]),
            chance if chance < inside && !held.is_empty() => *self.random.pick(&held),
            _ => 0,
        }
    }

    /// The message, now and then with a frame that is wrong.
    fn framed(&mut self, kind: u32, req_id: u32, tx_id: u32, mut payload: Vec<u8>) -> Vec<u8> {
        match self.random.below(250) {
            0 => payload.resize(4096, b'z'),
            1 => payload.resize(4097, 0),
            _ => payload.truncate(4096),
        }
        let mut message = frame(kind, req_id, tx_id, &payload);
        match self.random.below(150) {
            0 => message.truncate(self.random.below(16)),
            1 => message.truncate(16),
            2 => message.push(0),
            3 => drop(message.pop()),
            4 => message[12 + self.random.below(4)] ^= 1 << self.random.below(8),
            _ => (),
        }
        message
    }
}

/// A transaction of eight changes, each of which creates eight nodes.
fn fullest_commit() -> Vec<Early> {
    let change = |i: u32| (0, 11 + i % 2, 1, nul(&format!("/{i}/1/2/3/4/5/6/7|")));
    let (start, end) = ((0, 6, 0, nul("|")), (0, 7, 1, nul("T|")));
    [start].into_iter().chain((0..8).map(change)).chain([end]).collect()
}

pub fn frame(kind: u32, req_id: u32, tx_id: u32, payload: &[u8]) -> Vec<u8> {
    let mut message = vec![0; 16 + payload.len()];
    write_message(&mut message, [kind, req_id, tx_id], payload);
    message
}
