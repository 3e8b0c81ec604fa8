//! Each created node makes its own event: outside transactions, in a commit, and in the transaction's table.

use crate::size::{CHANGE, CHANGES};
use crate::worked::*;

/// A core in which domain 0 watches all.
fn watched() -> Core {
    let mut core = Core::new();
    assert_eq!(core.ask(0, WATCH, "/|t|"), "OK|");
    core
}

/// One request that must be answered `OK`, and its records.
fn told(core: &mut Core, tx_id: u32, kind: u32, text: &str) -> Vec<String> {
    assert_eq!(core.within(tx_id, 0, kind, text), "OK|", "{text}");
    core.records()
}

/// The records of a commit of these requests, each in the same transaction.
fn committed(core: &mut Core, requests: &[(u32, &str)]) -> Vec<String> {
    assert_eq!(core.ask(0, START, "|"), "1|");
    for (kind, text) in requests {
        assert!(told(core, 1, *kind, text).is_empty(), "{text}");
    }
    told(core, 1, END, "T|")
}

#[test]
fn parents_come_first() {
    let mut core = watched();
    assert_eq!(told(&mut core, 0, WRITE, "/a/b/c|1"), ["8000 /a", "8000 /a/b", "8000 /a/b/c"]);
    assert_eq!(told(&mut core, 0, WRITE, "/a/b/c|1"), ["8000 /a/b/c"]);
    assert_eq!(told(&mut core, 0, MKDIR, "/a/b/c|"), [""; 0]);
    assert_eq!(told(&mut core, 0, MKDIR, "/a/x/y|"), ["8000 /a/x", "8000 /a/x/y"]);
    assert_eq!(told(&mut core, 0, SET_PERMS, "/a/x/y|n0|"), ["8000 /a/x/y"]);
    assert_eq!(told(&mut core, 0, RM, "/a|"), ["8000 /a"]);
    assert_eq!(told(&mut core, 0, WRITE, "/z|1"), ["8000 /z"]);
    assert_eq!(told(&mut core, 0, WRITE, "/|1"), ["8000 /"]);
}

#[test]
fn depth_cuts_each_event() {
    let mut core = Core::new();
    assert_eq!(core.ask(0, WATCH, "/local|t|2|"), "OK|");
    assert_eq!(told(&mut core, 0, WRITE, "/local/domain/5/x|1"), ["8000 /local", "8000 /local/domain", "8000 /local/domain/5"]);
    assert_eq!(core.ask(0, WATCH, "/a|t|0|"), "OK|");
    assert_eq!(told(&mut core, 0, WRITE, "/a/b|1"), ["4000 /a"]);
    assert_eq!(told(&mut core, 0, WRITE, "/a/b|1"), [""; 0]);
}

#[test]
fn the_transaction_counts_new_parents() {
    let mut core = watched();
    assert_eq!(core.ask(0, START, "|"), "1|");
    assert_eq!(core.within(1, 0, WRITE, "/a/b|7"), "OK|");
    assert_eq!(core.transactions[..9], [0x81, 0, 0, 0x02, 0x04, 0x2f, 0x61, 0x2f, 0x62]);
    assert_eq!(core.within(1, 0, RM, "/a/b|"), "OK|");
    assert_eq!(core.transactions[3 + CHANGE..][..2], [0x80, 0x04]);
    assert_eq!(told(&mut core, 1, END, "T|"), ["8000 /a"]);
}

#[test]
fn a_commit_makes_those_of_its_changes() {
    let mut core = watched();
    assert_eq!(committed(&mut core, &[(WRITE, "/a/b|"), (WRITE, "/a/c|")]), ["8000 /a", "8000 /a/b", "8000 /a/c"]);
    assert_eq!(told(&mut core, 0, RM, "/a|"), ["8000 /a"]);
    let again = [(WRITE, "/a/b|"), (RM, "/a|"), (WRITE, "/a/b|")];
    assert_eq!(committed(&mut core, &again), ["8000 /a", "8000 /a/b", "8000 /a", "8000 /a", "8000 /a/b"]);
    assert_eq!(committed(&mut core, &[(RM, "/a|"), (MKDIR, "/a/b|")]), ["8000 /a", "8000 /a", "8000 /a/b"]);
}

#[test]
fn created_and_written_is_one_event() {
    let mut core = watched();
    assert_eq!(told(&mut core, 0, WRITE, "/a|1"), ["8000 /a"]);
    assert_eq!(committed(&mut core, &[(WRITE, "/b/c|1"), (WRITE, "/b|1")]), ["8000 /b", "8000 /b/c", "8000 /b"]);
}

#[test]
fn created_and_removed_again_is_heard_by_nobody() {
    let mut core = watched();
    let gone = [(WRITE, "/a/b/c|1"), (RM, "/a/b|"), (MKDIR, "/d/e|")];
    assert_eq!(committed(&mut core, &gone), ["8000 /a", "8000 /d", "8000 /d/e"]);
}

#[test]
fn a_created_path_is_not_told_below() {
    let mut core = Core::new();
    assert_eq!(core.ask(0, WATCH, "/a/b/c|t|"), "OK|");
    assert_eq!(told(&mut core, 0, WRITE, "/a/b/c/d|1"), ["8000 /a/b/c", "8000 /a/b/c/d"]);
}

#[test]
fn rights_decide_for_each_event() {
    let mut core = Core::new();
    for id in [3, 5] {
        assert_eq!(core.ask(0, INTRODUCE, &format!("{id}|1|1|")), "OK|");
    }
    assert_eq!(told(&mut core, 0, WRITE, "/g|"), [""; 0]);
    assert_eq!(told(&mut core, 0, SET_PERMS, "/g|n0|w3|r5|"), [""; 0]);
    assert_eq!(core.ask(3, WATCH, "/g|three|"), "OK|");
    assert_eq!(core.ask(5, WATCH, "/g|five|1|"), "OK|");
    assert_eq!(core.ask(3, WRITE, "/g/a/b|1"), "OK|");
    assert_eq!(core.records(), ["c000 /g/a", "8000 /g/a/b"]);
    assert_eq!(told(&mut core, 0, SET_PERMS, "/g/a|n0|r5|"), ["c000 /g/a"]);
    // Made again below `/`, `/g` may be read by domain 5 before the commit only.
    assert_eq!(committed(&mut core, &[(RM, "/g|"), (MKDIR, "/g/a/x|")]), ["4000 /g", "4000 /g", "4000 /g/a"]);
}

#[test]
fn most_records() {
    let mut core = watched();
    let deep = |top: usize| format!("/{top}/2/3/4/5/6/7/8|");
    assert_eq!(told(&mut core, 0, MKDIR, &deep(0)).len(), 8);
    assert_eq!(core.ask(0, START, "|"), "1|");
    for top in 1..=CHANGES {
        assert_eq!(core.within(1, 0, WRITE, &deep(top)), "OK|");
    }
    let records = told(&mut core, 1, END, "T|");
    assert_eq!((records.len(), &records[0][..], &records[63][..]), (64, "8000 /1", "8000 /8/2/3/4/5/6/7/8"));
}

/// A commit of one change whose entry was given another first byte: the call number and the records.
fn with_head(text: &str, head: u8) -> (u32, Vec<String>) {
    let mut core = watched();
    core.ask(0, START, "|");
    assert_eq!(core.within(1, 0, MKDIR, text), "OK|");
    core.transactions[3] = head;
    let end = [7u32, 1, 1, 2].map(u32::to_le_bytes).concat();
    (core.send(0, &[&end[..], b"T\0"].concat()), core.records())
}

#[test]
fn new_parents_that_no_call_counts() {
    let fewer = |count: usize| ["8000 /a", "8000 /a/b", "8000 /a/b/c"][3 - count..].iter().map(|text| text.to_string()).collect();
    for (head, number, records) in [
        (0x04, 0, fewer(3)),
        (0x02, 0, fewer(2)),
        (0x00, 0, fewer(1)),
        (0x06, 2, fewer(0)),
        (0x08, 2, fewer(0)),
        (0x0e, 2, fewer(0)),
        (0x80, 0, fewer(1)),
        (0x82, 2, fewer(0)),
        (0x84, 2, fewer(0)),
        (0x10, 2, fewer(0)),
        (0x20, 2, fewer(0)),
        (0x44, 2, fewer(0)),
    ] {
        assert_eq!(with_head("/a/b/c|", head), (number, records), "{head:02x}");
    }
    assert_eq!(with_head("/a|", 0x02).0, 2);
}
