//! Document 01's worked lines, starred and not, on bytes; and what its other sentences give as an example.

use crate::layout::{record as record_of, words, write_message};
use crate::size::*;
use crate::{event_message, fresh, request, Asked, Results, Tables};

const DIRECTORY: u32 = 1;
const READ: u32 = 2;
const GET_PERMS: u32 = 3;
pub const WATCH: u32 = 4;
pub const START: u32 = 6;
pub const END: u32 = 7;
pub const INTRODUCE: u32 = 8;
const RELEASE: u32 = 9;
pub const WRITE: u32 = 11;
pub const MKDIR: u32 = 12;
pub const RM: u32 = 13;
pub const SET_PERMS: u32 = 14;

pub struct Core {
    nodes: Vec<u8>,
    copies: Vec<u8>,
    watches: Vec<u8>,
    pub transactions: Vec<u8>,
    domains: Vec<u8>,
    reply: Vec<u8>,
    events: Vec<u8>,
    last: Results,
}

impl Core {
    pub fn new() -> Core {
        let mut core = Core {
            nodes: vec![7; NODES],
            copies: vec![7; COPIES],
            watches: vec![7; WATCHES],
            transactions: vec![7; TRANSACTIONS],
            domains: vec![7; DOMAINS],
            reply: vec![0; REPLY],
            events: vec![0; EVENTS],
            last: Results::default(),
        };
        assert_eq!(fresh(&mut core.split().0), 0);
        core
    }

    fn split(&mut self) -> (Tables<'_>, &mut [u8], &mut [u8]) {
        let Core { nodes, copies, watches, transactions, domains, reply, events, .. } = self;
        (Tables { nodes, copies, watches, transactions, domains }, reply, events)
    }

    pub fn send(&mut self, sender: u32, message: &[u8]) -> u32 {
        let (mut tables, reply, events) = self.split();
        self.last = request(&mut tables, sender, message, reply, events);
        self.last.number
    }

    /// The reply's payload; `|` stands for a nul, both ways.
    pub fn within(&mut self, tx_id: u32, sender: u32, kind: u32, text: &str) -> String {
        let payload = text.replace('|', "\0");
        let mut message = vec![0; 16 + payload.len()];
        write_message(&mut message, [kind, 77, tx_id], payload.as_bytes());
        assert_eq!(self.send(sender, &message), 0);
        let [answered, req_id, id, length] = words(&self.reply[..16]);
        assert_eq!((req_id, id, length + 16), (77, tx_id, self.last.reply_length));
        assert!(answered == kind || answered == 16);
        let payload = self.reply[16..][..length as usize].to_vec();
        String::from_utf8(payload).unwrap().replace('\0', "|")
    }

    pub fn ask(&mut self, sender: u32, kind: u32, text: &str) -> String {
        self.within(0, sender, kind, text)
    }

    fn told(&self, record: u32, watch: u32) -> Option<String> {
        let mut message = vec![0; EVENT_MESSAGE];
        let event_count = self.last.event_count;
        let asked = Asked { watches: &self.watches, domains: &self.domains, events: &self.events, event_count, record, watch };
        match event_message(&asked, &mut message) {
            (0, length) => Some(String::from_utf8(message[16..length as usize].to_vec()).unwrap().replace('\0', "|")),
            (6, 0) => None,
            other => panic!("{other:?}"),
        }
    }

    /// The last call's records: the mask in hexadecimal and the path of each.
    pub fn records(&self) -> Vec<String> {
        let text = |record: &[u8]| {
            let (mask, path) = record_of(record).expect("a path");
            format!("{mask:04x} {}", String::from_utf8_lossy(path))
        };
        self.events.chunks(RECORD).take(self.last.event_count as usize).map(text).collect()
    }

    fn slot(&self, slot: usize) -> &[u8] {
        &self.nodes[SLOT * slot..][..SLOT]
    }
}

#[test]
fn reads_of_the_fresh_store() {
    let mut core = Core::new();
    assert_eq!(core.ask(0, READ, "/|"), "");
    assert_eq!(core.ask(0, READ, "/a|"), "ENOENT|");
    assert_eq!(core.ask(0, INTRODUCE, "3|1|2|"), "OK|");
    assert_eq!(core.ask(3, READ, "/a|"), "EACCES|");
    assert_eq!(core.ask(0, READ, "/a/|"), "EINVAL|");
}

#[test]
fn a_write_takes_the_lowest_slots() {
    let mut core = Core::new();
    assert_eq!(core.ask(0, WRITE, "/a/b|7"), "OK|");
    assert_eq!(core.slot(0)[..3], [0x80, 0x00, 0x01]);
    assert_eq!(core.slot(1)[..3], [0x80, 0x04, 0x01]);
    assert_eq!(core.slot(2)[..3], [0x81, 0x04, 0x09]);
    assert_eq!((core.slot(2)[12], core.slot(2)[44]), (b'b', b'7'));
}

#[test]
fn removing_what_is_absent() {
    let mut core = Core::new();
    assert_eq!(core.ask(0, START, "|"), "1|");
    let before = core.nodes.clone();
    assert_eq!(core.ask(0, RM, "/x|"), "OK|");
    assert_eq!(core.ask(0, RM, "/x/y|"), "ENOENT|");
    assert_eq!(core.nodes, before);
    assert_eq!(core.within(1, 0, END, "T|"), "OK|");
}

#[test]
fn sizes() {
    let mut core = Core::new();
    let name = "n".repeat(32);
    assert_eq!(core.ask(0, MKDIR, &format!("/{name}|")), "OK|");
    assert_eq!(core.ask(0, MKDIR, &format!("/{name}n|")), "ENOSPC|");
    assert_eq!(core.ask(0, READ, &format!("/{name}n|")), "ENOENT|");
    assert_eq!(core.ask(0, MKDIR, "/1/2/3/4/5/6/7/8|"), "OK|");
    assert_eq!(core.ask(0, MKDIR, "/1/2/3/4/5/6/7/8/9|"), "ENOSPC|");
    let value = "v".repeat(64);
    assert_eq!(core.ask(0, WRITE, &format!("/v|{value}")), "OK|");
    assert_eq!(core.ask(0, WRITE, &format!("/v|{value}v")), "ENOSPC|");
    assert_eq!(core.ask(0, READ, "/v|"), value);
}

#[test]
fn a_plain_write_makes_stale() {
    let mut core = Core::new();
    assert_eq!(core.ask(0, START, "|"), "1|");
    assert_eq!(core.ask(0, WRITE, "/a|"), "OK|");
    assert_eq!(core.within(1, 0, END, "T|"), "EAGAIN|");
    assert_eq!(core.ask(0, START, "|"), "1|");
}

#[test]
fn a_present_mkdir_is_no_change() {
    let mut core = Core::new();
    assert_eq!(core.ask(0, START, "|"), "1|");
    assert_eq!(core.ask(0, MKDIR, "/|"), "OK|");
    assert_eq!(core.within(1, 0, END, "T|"), "OK|");
}

#[test]
fn entries_give_rights() {
    let mut core = Core::new();
    for id in ["3", "5", "6"] {
        assert_eq!(core.ask(0, INTRODUCE, &format!("{id}|-1|4294967295|")), "OK|");
    }
    assert_eq!((core.last.page, core.last.channel), (-1, u32::MAX));
    core.ask(0, WRITE, "/a|");
    assert_eq!(core.ask(0, SET_PERMS, "/a|n3|r5|"), "OK|");
    assert_eq!(core.ask(0, GET_PERMS, "/a|"), "n3|r5|");
    assert_eq!(core.ask(3, WRITE, "/a|x"), "OK|");
    assert_eq!(core.ask(3, READ, "/a|"), "x");
    assert_eq!(core.ask(5, READ, "/a|"), "x");
    assert_eq!(core.ask(5, WRITE, "/a|y"), "EACCES|");
    assert_eq!(core.ask(6, READ, "/a|"), "EACCES|");
    assert_eq!(core.ask(6, WRITE, "/a|y"), "EACCES|");
}

#[test]
fn long_directories() {
    let mut core = Core::new();
    for i in 0..124 {
        assert_eq!(core.ask(0, MKDIR, &format!("/{i:032}|")), "OK|");
    }
    assert_eq!(core.ask(0, DIRECTORY, "/|").len(), 4092);
    assert_eq!(core.ask(0, MKDIR, &format!("/{:032}|", 124)), "OK|");
    assert_eq!(core.ask(0, DIRECTORY, "/|"), "E2BIG|");
}

#[test]
fn depth_of_a_watch() {
    let mut core = Core::new();
    assert_eq!(core.ask(0, WRITE, "/a|"), "OK|");
    assert_eq!(core.ask(0, WATCH, "/a|t|0|"), "OK|");
    assert_eq!(core.told(0, 0).unwrap(), "/a|t|");
    assert_eq!(core.ask(0, WATCH, "/a|u|1|"), "OK|");
    assert_eq!(core.ask(0, WRITE, "/a/b|"), "OK|");
    assert_eq!(core.last.event_count, 1);
    assert_eq!(core.told(0, 0), None);
    assert_eq!(core.told(0, 1).unwrap(), "/a/b|u|");
}

#[test]
fn the_trace_example() {
    let mut core = Core::new();
    let mut line = |sender, kind, text: &str| {
        let mut message = vec![0; 16 + text.len()];
        write_message(&mut message, [kind, 1, 0], text.replace('|', "\0").as_bytes());
        let number = core.send(sender, &message);
        let [answered, _, _, length] = if number == 0 { words(&core.reply[..16]) } else { [0; 4] };
        (number, answered, length, core.last.event_count)
    };
    assert_eq!(line(0, WRITE, "/a|1"), (0, 11, 3, 0));
    assert_eq!(line(0, READ, "/a|"), (0, 2, 1, 0));
    assert_eq!(line(0, WATCH, "/a|t|"), (0, 4, 3, 1));
    assert_eq!(line(5, READ, "/a|"), (3, 0, 0, 0));
}

#[test]
fn removal_tells_watches_below_and_cuts_the_base() {
    let mut core = Core::new();
    core.ask(0, WRITE, "/local/domain/0/x/y|");
    assert_eq!(core.ask(0, WATCH, "x/y|t|"), "OK|");
    assert_eq!(core.told(0, 0).unwrap(), "x/y|t|");
    assert_eq!(core.ask(0, RM, "/local|"), "OK|");
    assert_eq!(core.told(0, 0).unwrap(), "x/y|t|");
    assert_eq!(core.ask(0, WRITE, "/local|"), "OK|");
    assert_eq!(core.last.event_count, 0);
}

#[test]
fn domain_events() {
    let mut core = Core::new();
    assert_eq!(core.ask(0, WATCH, "@releaseDomain|t|1|"), "OK|");
    assert_eq!(core.told(0, 0).unwrap(), "@releaseDomain|t|");
    assert_eq!(core.ask(0, WATCH, "@releaseDomain|u|"), "OK|");
    assert_eq!(core.ask(0, INTRODUCE, "9|0|0|"), "OK|");
    assert_eq!(core.last.event_count, 0);
    assert_eq!(core.ask(0, RELEASE, "9|"), "OK|");
    assert_eq!(core.told(0, 0).unwrap(), "/9|t|");
    assert_eq!(core.told(0, 1).unwrap(), "@releaseDomain|u|");
}

#[test]
fn payload_forms() {
    let mut core = Core::new();
    for (kind, text, answer) in [
        (INTRODUCE, "1|-0|1|", "EINVAL|"),
        (INTRODUCE, "1|-9223372036854775808|1|", "OK|"),
        (INTRODUCE, "2|9223372036854775808|1|", "EINVAL|"),
        (INTRODUCE, "2|1|4294967296|", "EINVAL|"),
        (INTRODUCE, "32752|1|1|", "EINVAL|"),
        (INTRODUCE, "2|1|1||", "EINVAL|"),
        (RELEASE, "0|", "EINVAL|"),
        (SET_PERMS, "/|n3|", "EINVAL|"),
        (SET_PERMS, "/|n0|r1|r2|r3|r4|", "ENOSPC|"),
        (SET_PERMS, "/|", "EINVAL|"),
        (RM, "/|", "EINVAL|"),
        (WATCH, "@releaseDomain|t|0|", "EINVAL|"),
        (WATCH, "@other|t|", "EINVAL|"),
        (WATCH, "/a|t|256|", "EINVAL|"),
        (WATCH, "/a||", "OK|"),
        (WATCH, "/a||3|", "EEXIST|"),
        (START, "", "EINVAL|"),
        (18, "", "ENOSYS|"),
    ] {
        assert_eq!(core.ask(0, kind, text), answer, "{kind} {text}");
    }
}

#[test]
fn call_numbers() {
    let mut core = Core::new();
    let long = [2u32, 0, 0, 4097].map(u32::to_le_bytes).concat();
    assert_eq!(core.send(0, &long), 5);
    assert_eq!(core.send(0, &long[..15]), 4);
    assert_eq!(core.send(1, &long), 3);
    assert_eq!(core.send(0, &[2u32, 0, 0, 1].map(u32::to_le_bytes).concat()), 4);
    core.nodes[5] ^= 1;
    assert_eq!(core.send(1, &long), 2);
    core.reply.pop();
    assert_eq!(core.send(1, &long), 1);
}
