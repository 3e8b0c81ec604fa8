//! What was reached, so that a gap shows.

use crate::before::{used_slots, Before};
use crate::history::Call;
use crate::sides::*;
use crate::text::KINDS;
use model::layout::words;
use model::size::*;
use model::Results;
use std::collections::BTreeMap;

const OUTCOMES: [&str; 9] = ["OK", "ENOSYS", "EINVAL", "EACCES", "ENOENT", "EEXIST", "E2BIG", "ENOSPC", "EAGAIN"];

/// The errnos that a kind can answer, beside success; the last line is every type that isn't handled.
const POSSIBLE: [&str; 17] = [
    "EINVAL EACCES ENOENT E2BIG",
    "EINVAL EACCES ENOENT",
    "EINVAL EACCES ENOENT",
    "EINVAL EACCES EEXIST ENOSPC",
    "EINVAL EACCES ENOENT",
    "EINVAL ENOSPC",
    "EINVAL ENOENT EAGAIN",
    "EINVAL EACCES EEXIST ENOSPC",
    "EINVAL EACCES ENOENT",
    "EINVAL",
    "EINVAL EACCES ENOENT ENOSPC",
    "EINVAL EACCES ENOENT ENOSPC",
    "EINVAL EACCES ENOENT ENOSPC",
    "EINVAL EACCES ENOENT ENOSPC",
    "EINVAL",
    "EINVAL",
    "ENOSYS",
];

/// What else a long run must reach.
const MARKS: [&str; 38] = [
    "full: nodes",
    "full: watches",
    "full: transactions",
    "full: domains",
    "full: changes",
    "request number 0",
    "request number 1",
    "request number 2",
    "request number 3",
    "request number 4",
    "request number 5",
    "message number 0",
    "message number 1",
    "message number 2",
    "message number 6",
    "fresh number 0",
    "fresh number 1",
    "records 0",
    "records 1",
    "records 2 to 8",
    "records 9 to 127",
    "records 128",
    "created 2 to 7, all heard",
    "created 8, all heard",
    "created, some unheard",
    "commit without",
    "commit, 1 to 8 records",
    "commit, 9 to 63 records",
    "commit, 64 records",
    "commit: made and removed",
    "commit: removed and made",
    "commit: parents altered",
    "unsound: removal, parents",
    "unsound: parents as names",
    "unsound: parents above",
    "unsound: zero bits",
    "page and channel",
    "request in a transaction",
];

#[derive(Default)]
pub struct Counts {
    pub calls: u64,
    pub histories: u64,
    /// Event messages of records that calls made.
    pub messages: u64,
    kinds: [[u64; 9]; 17],
    marks: BTreeMap<&'static str, u64>,
}

impl Counts {
    fn mark(&mut self, what: &str) {
        let mark = MARKS.iter().find(|mark| **mark == what).unwrap_or_else(|| panic!("{what} is no mark"));
        *self.marks.entry(mark).or_default() += 1;
    }

    /// Counts a call that both sides answered alike; `before` is what the call found, and `memory` is as it left it.
    pub fn call(&mut self, call: &Call, answers: &Answers, before: &Before, memory: &mut Memory) {
        self.calls += 1;
        match (call, answers) {
            (_, Answers::Fresh(number)) => self.mark(&format!("fresh number {number}")),
            (_, Answers::Message { number, .. }) => self.mark(&format!("message number {number}")),
            (Call::Request { message, .. }, Answers::Request(results)) => {
                self.mark(&format!("request number {}", results.number));
                match results.number {
                    0 => self.handled(message, results, before, memory),
                    2 => before.flaw().into_iter().for_each(|flaw| self.mark(flaw)),
                    _ => (),
                }
            }
            _ => unreachable!("a request's answers"),
        }
    }

    pub fn message(&mut self, answers: &Answers) {
        self.messages += 1;
        if let Answers::Message { number, .. } = answers {
            self.mark(&format!("message number {number}"));
        }
    }

    fn handled(&mut self, message: &[u8], results: &Results, before: &Before, memory: &mut Memory) {
        let [kind, _, tx_id, _] = words(&message[..16]);
        let reply = &memory.buffer(5)[..results.reply_length as usize];
        let errno = (words(&reply[..16])[0] == 16).then(|| String::from_utf8_lossy(&reply[16..reply.len() - 1]).into_owned());
        let outcome = errno.map_or(0, |name| OUTCOMES.iter().position(|o| *o == name).expect("an errno of document 01"));
        self.kinds[KINDS.iter().position(|(number, _)| *number == kind).unwrap_or(16)][outcome] += 1;
        self.mark(match results.event_count {
            0 => "records 0",
            1 => "records 1",
            2..=8 => "records 2 to 8",
            9..=127 => "records 9 to 127",
            _ => "records 128",
        });
        if (results.page, results.channel) != (0, 0) {
            self.mark("page and channel");
        }
        match OUTCOMES[outcome] {
            "ENOSPC" => self.no_space(kind, tx_id, memory),
            "OK" if kind == 7 && message[16] == b'T' => before.commit(message, results.event_count).into_iter().for_each(|mark| self.mark(mark)),
            "OK" if tx_id != 0 && matches!(kind, 1..=3 | 11..=14) => self.mark("request in a transaction"),
            "OK" if matches!(kind, 11 | 12) => self.created(used_slots(memory) - before.used, results.event_count as usize),
            _ => (),
        }
    }

    /// A plain request that created nodes, and how many of them were heard.
    fn created(&mut self, created: usize, heard: usize) {
        if (1..created).contains(&heard) {
            self.mark("created, some unheard");
        } else if heard == 8 {
            self.mark("created 8, all heard");
        } else if heard > 1 {
            self.mark("created 2 to 7, all heard");
        }
    }

    /// Which table was full, where one was.
    fn no_space(&mut self, kind: u32, tx_id: u32, memory: &mut Memory) {
        let Some(world) = memory.decoded() else { return };
        match kind {
            4 if world.watches.iter().all(Option::is_some) => self.mark("full: watches"),
            6 => self.mark("full: transactions"),
            8 => self.mark("full: domains"),
            _ => {
                let open = (tx_id as usize).checked_sub(1).and_then(|place| world.transactions.get(place)?.as_ref());
                if open.is_some_and(|open| open.changes.len() == CHANGES) {
                    self.mark("full: changes");
                }
                if open.map_or(&world.store, |open| &open.store).free_slots() == 0 {
                    self.mark("full: nodes");
                }
            }
        }
    }

    /// The table of what was reached.
    pub fn table(&self) -> String {
        let mut lines = format!("{:21}", "");
        OUTCOMES.iter().for_each(|outcome| lines += &format!("{outcome:>9}"));
        for (index, row) in self.kinds.iter().enumerate() {
            lines += &format!("\n{:21}", KINDS.get(index).map_or("other types", |(_, name)| name));
            row.iter().for_each(|count| lines += &if *count == 0 { format!("{:>9}", ".") } else { format!("{count:>9}") });
        }
        lines += "\n";
        for pair in MARKS.chunks(2) {
            lines += "\n";
            pair.iter().for_each(|mark| lines += &format!("{mark:26}{:>10}      ", self.marks.get(mark).unwrap_or(&0)));
            lines.truncate(lines.trim_end().len());
        }
        lines
    }

    /// What was never reached.
    pub fn gaps(&self) -> Vec<String> {
        let mut gaps = Vec::new();
        for (index, possible) in POSSIBLE.iter().enumerate() {
            let name = KINDS.get(index).map_or("other types", |(_, name)| name);
            let success = if index < KINDS.len() { "OK" } else { "" };
            for outcome in possible.split(' ').chain([success].into_iter().filter(|s| !s.is_empty())) {
                let at = OUTCOMES.iter().position(|o| *o == outcome).expect("an outcome");
                if self.kinds[index][at] == 0 {
                    gaps.push(format!("{name}: {outcome}"));
                }
            }
        }
        gaps.extend(MARKS.iter().filter(|mark| !self.marks.contains_key(**mark)).map(|mark| mark.to_string()));
        gaps
    }
}
