//! Steps that go beyond messages: bytes of tables altered, buffers of other sizes, and records that no call makes.

use crate::history::{Call, Poke, Step};
use crate::make::{frame, Maker};
use crate::sides::*;
use model::size::*;
use model::world::World;

impl Maker {
    /// Some bytes of a table altered: mostly unsound, sometimes sound but unlike anything that calls make.
    pub fn altered(&mut self, memory: &Memory, world: &World) -> Step {
        if self.random.percent(25) {
            return self.new_parents(memory, world);
        }
        let pokes = if self.random.percent(50) {
            self.craft.pokes(memory)
        } else {
            (0..1 + self.random.weighted(&[80, 15, 5])).map(|_| self.poke(memory, world)).collect()
        };
        let call = if pokes.iter().all(|p| p.buffer == WATCH_TABLE || p.buffer == DOMAIN_TABLE) && self.random.percent(30) {
            Call::EventMessage { count: 3, record: self.random.below(3) as u32, watch: self.random.below(16) as u32 }
        } else {
            self.request(world)
        };
        Step { pokes, keep: self.random.percent(70), resized: None, call }
    }

    /// New parents that no call counted in an open transaction, which is mostly committed at once.
    fn new_parents(&mut self, memory: &Memory, world: &World) -> Step {
        let (place, pokes) = self.craft.new_parents(memory);
        let call = if self.random.percent(70) {
            let holder = world.transactions[place].as_ref().map_or(0, |open| open.holder);
            let message = frame(7, self.random.next() as u32, place as u32 + 1, b"T\0");
            Call::Request { sender: holder.into(), message }
        } else {
            self.request(world)
        };
        Step { pokes, keep: self.random.percent(50), resized: None, call }
    }

    fn poke(&mut self, memory: &Memory, world: &World) -> Poke {
        let buffer = self.random.weighted(&[40, 12, 20, 16, 12]);
        let (size, head) = [(SLOT, 12), (SLOT, 12), (WATCH, 6), (TRANSACTION, 5), (DOMAIN, 3)][buffer];
        let table = memory.buffer(buffer);
        let mut entry = self.random.below(table.len() / size);
        if self.random.percent(80) {
            let used: Vec<usize> = (0..table.len() / size).filter(|i| table[i * size] & 0x80 != 0).collect();
            entry = if used.is_empty() { entry } else { *self.random.pick(&used) };
        }
        if buffer == 1 && self.random.percent(80) {
            let open = (0..3).find(|&i| world.transactions[i].is_some()).unwrap_or(0);
            entry = open * SLOTS + entry % SLOTS;
        }
        let start = entry * size;
        let old = &table[start..start + size];
        let (at, bytes) = match self.random.below(10) {
            0..=2 => (self.random.below(head), None),
            3 | 4 => (self.random.below(size), None),
            5 => (0, Some(vec![0; size])),
            6 => {
                let other = self.random.below(table.len() / size) * size;
                return Poke { buffer, at: other, bytes: old.to_vec() };
            }
            7 => (0, Some(vec![old[0] ^ [0x80, 0x40, 0x20, 0x01][self.random.below(4)]])),
            8 if buffer == 0 => (3, Some(vec![self.random.byte(); 3])),
            8 if buffer == 2 => (6 + self.random.below(24), Some(vec![*self.random.pick(b"/@a\0")])),
            8 if buffer == 3 => (5 + self.random.below(12), Some(vec![*self.random.pick(b"/@a\0")])),
            8 => (1, Some(self.random.pick(&[[0, 0], [0, 3], [0x7f, 0xef], [0x7f, 0xf0], [0, 5]]).to_vec())),
            _ => (self.random.below(size), Some(vec![self.random.byte()])),
        };
        let bytes = bytes.unwrap_or_else(|| vec![old[at] ^ 1 << self.random.below(8)]);
        Poke { buffer, at: start + at, bytes }
    }

    pub fn resized(&mut self, world: &World) -> Step {
        let buffer = self.random.below(BUFFERS.len());
        let right = BUFFERS[buffer].1;
        let size = match self.random.below(5) {
            0 => right - 1,
            1 => right + 1,
            2 => 0,
            3 => right + GUARD,
            _ => self.random.below(right),
        };
        let call = match (buffer, self.random.below(3)) {
            (table, 0) if table < TABLES => Call::Fresh,
            (WATCH_TABLE | DOMAIN_TABLE | RECORD_BUFFER, 1) | (MESSAGE_BUFFER, _) => {
                Call::EventMessage { count: 1, record: 0, watch: self.random.below(16) as u32 }
            }
            _ => self.request(world),
        };
        Step { resized: Some((buffer, size)), ..Step::of(call) }
    }

    /// An event message asked of a record that perhaps no call makes.
    pub fn crafted_record(&mut self, world: &World) -> Step {
        let used: Vec<usize> = (0..WATCH_PLACES).filter(|&i| world.watches[i].is_some()).collect();
        let watch = if used.is_empty() || self.random.percent(5) { self.random.below(20) } else { *self.random.pick(&used) };
        let path = self.record_path(world.watches.get(watch).and_then(Option::as_ref).map(|w| &w.path[..]), world);
        let at = *self.random.pick(&[0, 1, 126, 127]);
        let mask = if self.random.percent(85) {
            0x8000u32.checked_shr(watch as u32).unwrap_or(0) as u16 | self.random.next() as u16
        } else {
            self.random.next() as u16
        };
        let length = if self.random.percent(92) { path.len() } else { *self.random.pick(&[0, 264, 265, 511]) };
        let mut bytes = vec![0; RECORD];
        bytes[..2].copy_from_slice(&mask.to_be_bytes());
        bytes[2..4]
            .copy_from_slice(&((length as u16) << 7 | if self.random.percent(20) { self.random.next() as u16 & 127 } else { 0 }).to_be_bytes());
        let shown = path.len().min(264);
        bytes[4..4 + shown].copy_from_slice(&path[..shown]);
        if self.random.percent(10) {
            bytes[267] = 1;
        }
        let record = if self.random.percent(90) { at as u32 } else { *self.random.pick(&[128, 129, u32::MAX, 5]) };
        let count = *self.random.pick(&[at as u32 + 1, 128, 129, u32::MAX, at as u32, 0]);
        let call = Call::EventMessage { count, record, watch: watch as u32 };
        Step { pokes: vec![Poke { buffer: RECORD_BUFFER, at: at * RECORD, bytes }], ..Step::of(call) }
    }

    fn record_path(&mut self, watched: Option<&[u8]>, world: &World) -> Vec<u8> {
        let own = watched.unwrap_or(b"/a");
        let slash = own.iter().rposition(|&b| b == b'/').unwrap_or(0);
        match self.random.below(12) {
            0 | 1 => own.to_vec(),
            2 => own[..slash.max(1)].to_vec(),
            3 => [own, b"/x"].concat(),
            4 => [own, b"x"].concat(),
            5 => [own, b"/"].concat(),
            6 => b"/".to_vec(),
            7 => format!("/{}", self.random.pick(&["0", "5", "32751", "32752", "03", "5x", "", "99999999999999999999999"])).into_bytes(),
            8 => self.random.pick(&["@introduceDomain", "@releaseDomain", "@introduceDomain/3", "a", "x"]).as_bytes().to_vec(),
            9 => own[..own.len() - 1].to_vec(),
            10 => [own, b"//.\0"].concat(),
            _ => self.path(3, world).into_iter().take(264).collect(),
        }
    }
}
