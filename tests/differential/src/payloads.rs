//! Random payloads: mostly well formed, often about what is in the tables.

use crate::make::{nul, Maker, GUESTS, NAMES};
use model::size::*;
use model::store::Store;
use model::world::World;

const TOKENS: [&str; 5] = ["t", "u", "", "tok/en 1", "0123456789abcdef0123456789abcdef"];

impl Maker {
    pub fn payload(&mut self, kind: u32, sender: u32, world: &World) -> Vec<u8> {
        let mut out = Vec::new();
        match kind {
            1..=3 | 12 | 13 => out = self.named(kind, sender, world),
            4 | 5 => return self.watch(kind, sender, world),
            6 | 21 => (),
            7 => out = if self.random.percent(80) { b"T".to_vec() } else { b"F".to_vec() },
            8 => return self.introduction(world),
            9 => out = self.guest(world).to_string().into_bytes(),
            10 | 17 => out = self.domain(world).into_bytes(),
            11 => {
                out = self.named(kind, sender, world);
                out.push(0);
                out.extend(self.value());
                return out;
            }
            14 => {
                out = self.path(sender, world);
                let count = 1 + self.random.weighted(&[40, 30, 15, 8, 5, 1]);
                for _ in 0..count {
                    out.push(0);
                    out.extend(self.entry(sender));
                }
            }
            _ => out = self.path(sender, world),
        }
        out.push(0);
        out
    }

    /// The path of a node request; where a history dwells on created parents, often of any depth to be made and near the root to be removed.
    fn named(&mut self, kind: u32, sender: u32, world: &World) -> Vec<u8> {
        let depth = match kind {
            11 | 12 if self.creates() => 1 + self.random.below(DEPTH),
            13 if self.creates() => 1 + self.random.below(3),
            _ => return self.path(sender, world),
        };
        format!("/{}", self.names(depth)).into_bytes()
    }

    fn domain(&mut self, world: &World) -> String {
        match self.random.weighted(&[60, 10, 10, 10, 10]) {
            0 => self.guest(world).to_string(),
            1 => "0".into(),
            2 => self.random.below(40_000).to_string(),
            3 => self.random.pick(&["32751", "32752", "65535", "65539", "4294967299", "18446744073709551619"]).to_string(),
            _ => self.random.pick(&["", "03", "-3", "+3", " 3", "3 ", "x", "3a", "00"]).to_string(),
        }
    }

    fn introduction(&mut self, world: &World) -> Vec<u8> {
        let id = if self.random.percent(70) { (1 + self.random.below(12)).to_string() } else { self.domain(world) };
        let pages =
            ["0", "1", "-1", "-9223372036854775808", "9223372036854775807", "-9223372036854775809", "9223372036854775808", "-0", "01", "-", "", "+1"];
        let channels = ["0", "1", "4294967295", "4294967296", "00", "-1", ""];
        let page = if self.random.percent(60) { (self.random.next() as i64).to_string() } else { self.random.pick(&pages).to_string() };
        let channel = if self.random.percent(70) { (self.random.next() as u32).to_string() } else { self.random.pick(&channels).to_string() };
        let end = if self.random.percent(95) { "" } else { "|" };
        nul(&format!("{id}|{page}|{channel}|{end}"))
    }

    fn entry(&mut self, sender: u32) -> Vec<u8> {
        let letter = if self.random.percent(98) { *self.random.pick(b"nrwb") } else { *self.random.pick(b"NBx0 ") };
        let id = match self.random.weighted(&[30, 30, 30, 2, 2]) {
            0 => sender.to_string(),
            1 => self.random.pick(&GUESTS).to_string(),
            2 => "0".into(),
            3 => "32752".into(),
            _ => self.random.pick(&["", "00", "05", "-1", "x", "99999999999"]).to_string(),
        };
        [&[letter], id.as_bytes()].concat()
    }

    fn value(&mut self) -> Vec<u8> {
        let length = match self.random.weighted(&[80, 10, 5, 5]) {
            0 => self.random.below(6),
            1 => 64,
            2 => 65,
            _ => self.random.below(400),
        };
        (0..length).map(|_| self.random.byte()).collect()
    }

    fn watch(&mut self, kind: u32, sender: u32, world: &World) -> Vec<u8> {
        let standing: Vec<_> = world.watches.iter().flatten().filter(|w| u32::from(w.owner) == sender).collect();
        let known = !standing.is_empty() && self.random.percent(if kind == 5 { 70 } else { 8 });
        let mut out = if known {
            let watch = standing[self.random.below(standing.len())];
            let base = model::path::base(watch.owner);
            let cut = watch.path.strip_prefix(&base[..]).filter(|_| watch.relative || self.random.percent(30));
            [cut.unwrap_or(&watch.path), b"\0", &watch.token].concat()
        } else {
            let path = match self.random.weighted(&[80, 16, 4]) {
                0 => self.path(sender, world),
                1 => self.random.pick(&["@introduceDomain", "@releaseDomain"]).as_bytes().to_vec(),
                _ => self.random.pick(&["@introduceDomain/3", "@x", "@", "@releaseDomain1"]).as_bytes().to_vec(),
            };
            let token = if self.random.percent(97) { self.random.pick(&TOKENS).as_bytes().to_vec() } else { vec![b'k'; 33] };
            [&path[..], b"\0", &token].concat()
        };
        out.push(0);
        if kind == 4 && self.random.percent(40) {
            out.extend(self.random.pick(&["0", "1", "1", "2", "3", "5", "7", "255", "256", "01", "", "-1", "1"]).as_bytes());
            out.push(0);
        }
        out
    }

    pub fn path(&mut self, sender: u32, world: &World) -> Vec<u8> {
        if self.random.percent(45) {
            let copies = world.transactions.iter().flatten().map(|open| &open.store);
            let stores: Vec<&Store> = copies.chain([&world.store]).collect();
            let store = *self.random.pick(&stores);
            let used: Vec<usize> = (0..SLOTS).filter(|&slot| store.slots[slot].is_some()).collect();
            let path = path_of(store, *self.random.pick(&used));
            let base = model::path::base(sender as u16);
            return path.strip_prefix(&base[..]).filter(|_| self.random.percent(50)).unwrap_or(&path).to_vec();
        }
        let depth = 1 + self.random.weighted(&[40, 35, 15, 5, 3]);
        let few = self.names(depth);
        match self.random.weighted(&[60, 6, 10, 6, 2, 2, 2, 1, 4, 5, 3]) {
            0 => format!("/{few}"),
            1 => "/".into(),
            2 => few,
            3 => {
                let names = if self.random.percent(20) { String::new() } else { format!("/{few}") };
                format!("/local/domain/{sender}{names}")
            }
            4 => {
                let deep = 7 + self.random.below(3);
                format!("/{}", self.names(deep))
            }
            5 => {
                let length = *self.random.pick(&[31, 32, 33]);
                format!("/{}{}", if self.random.percent(30) { "a/" } else { "" }, "n".repeat(length))
            }
            6 => self.random.pick(&["", "//", "/a/", "a/", "/a//b", "/a.b", "/a b", "/\u{e9}", "@a", "@introduceDomain", "/~", "/a/b/"]).to_string(),
            7 => self.long_path(),
            8 => format!("/{few}/{}", self.random.below(200)),
            9 => self.longest_path(),
            _ => format!("/{}", self.made % 150),
        }
        .into_bytes()
    }

    pub fn names(&mut self, count: usize) -> String {
        let names: Vec<&str> = (0..count).map(|i| *self.random.pick(if i == 0 { &NAMES[..4] } else { &NAMES })).collect();
        names.join("/").trim_start_matches('@').into()
    }

    /// A path of names as long as a name may be, as deep as may be or nearly so.
    fn longest_path(&mut self) -> String {
        let depth = *self.random.pick(&[7, 8, 8, 8, 9]);
        (0..depth).map(|level| format!("/{level:032}")).collect()
    }

    /// A path about as long as a request may give.
    fn long_path(&mut self) -> String {
        let length = *self.random.pick(&[2047, 2048, 2049, 3071, 3072, 3073]);
        let full = self.random.percent(50);
        let names = "a/".repeat(length / 2 + 1);
        let text = if full { format!("/{names}") } else { names };
        let cut = text[..length].to_string();
        if cut.ends_with('/') {
            format!("{}b", &cut[..length - 1]).replace("/b", "bb")
        } else {
            cut
        }
    }

    /// A payload no longer quite as it was.
    pub fn spoil(&mut self, payload: &mut Vec<u8>) {
        match self.random.below(6) {
            0 => drop(payload.pop()),
            1 => payload.push(0),
            2 => payload.extend(b"x\0"),
            3 if !payload.is_empty() => {
                let at = self.random.below(payload.len());
                payload[at] = self.random.byte();
            }
            4 => payload.clear(),
            _ => {
                let at = self.random.below(payload.len() + 1);
                payload.insert(at, *self.random.pick(b"\0/@1a \xff"));
            }
        }
    }
}

/// The path of a used slot.
fn path_of(store: &Store, mut slot: usize) -> Vec<u8> {
    let mut path = Vec::new();
    while slot != 0 {
        path = [b"/", &*store.node(slot).name, &path].concat();
        slot = store.node(slot).parent;
    }
    if path.is_empty() {
        b"/".to_vec()
    } else {
        path
    }
}
