//! Steps and differences in readable form.

use crate::history::{Call, Step};
use crate::sides::*;
use model::size::*;

pub const KINDS: [(u32, &str); 16] = [
    (1, "DIRECTORY"),
    (2, "READ"),
    (3, "GET_PERMS"),
    (4, "WATCH"),
    (5, "UNWATCH"),
    (6, "START"),
    (7, "END"),
    (8, "INTRODUCE"),
    (9, "RELEASE"),
    (10, "GET_DOMAIN_PATH"),
    (11, "WRITE"),
    (12, "MKDIR"),
    (13, "RM"),
    (14, "SET_PERMS"),
    (17, "IS_DOMAIN_INTRODUCED"),
    (21, "RESET_WATCHES"),
];

/// Bytes as text: `|` for a nul, `\xNN` for others that don't print; the middle of a long one left out.
pub fn bytes(bytes: &[u8]) -> String {
    let show = |bytes: &[u8]| -> String {
        bytes
            .iter()
            .map(|&b| match b {
                0 => "|".into(),
                b'!'..=b'~' if b != b'|' && b != b'\\' => char::from(b).to_string(),
                _ => format!("\\x{b:02x}"),
            })
            .collect()
    };
    if bytes.len() > 400 {
        format!("{} ... {} ({} bytes)", show(&bytes[..40]), show(&bytes[bytes.len() - 20..]), bytes.len())
    } else {
        show(bytes)
    }
}

fn hex(bytes: &[u8]) -> String {
    bytes.iter().map(|b| format!("{b:02x}")).collect::<Vec<_>>().join(" ")
}

fn message(message: &[u8]) -> String {
    let Some(header) = message.get(..16) else { return format!("a message of {} bytes: {}", message.len(), hex(message)) };
    let [kind, req_id, tx_id, len] = model::layout::words(header);
    let name = KINDS.iter().find(|(number, _)| *number == kind).map_or(format!("type {kind}"), |(_, name)| name.to_string());
    let frame = if len as usize == message.len() - 16 { String::new() } else { format!("  (len {len}, {} bytes follow)", message.len() - 16) };
    format!("{name}  tx {tx_id}  req {req_id}  `{}`{frame}", bytes(&message[16..]))
}

/// Where a byte of a buffer lies.
fn place(buffer: usize, at: usize) -> String {
    let within = |what: &str, size: usize| format!("{what} {} byte {}", at / size, at % size);
    match buffer {
        0 => within("slot", SLOT),
        1 => format!("copy {} slot {} byte {}", at / NODES + 1, at % NODES / SLOT, at % SLOT),
        2 => within("watch", WATCH),
        3 => within("transaction", TRANSACTION),
        4 => within("domain", DOMAIN),
        6 => within("record", RECORD),
        _ => format!("byte {at}"),
    }
}

pub fn step(number: usize, step: &Step) -> String {
    let mut lines = String::new();
    for poke in &step.pokes {
        let end = poke.bytes.iter().rposition(|&b| b != 0).map_or(0, |last| last + 1).max(1).min(poke.bytes.len());
        let zeros = poke.bytes.len() - end;
        let rest = if zeros == 0 { String::new() } else { format!(" and {zeros} zeros") };
        lines += &format!("{number:5}  alter {}, {}: {}{rest}\n", BUFFERS[poke.buffer].0, place(poke.buffer, poke.at), hex(&poke.bytes[..end]));
    }
    if let Some((buffer, size)) = step.resized {
        lines += &format!("{number:5}  lend {} with {size} bytes\n", BUFFERS[buffer].0);
    }
    let call = match &step.call {
        Call::Fresh => "fresh".into(),
        Call::Request { sender, message: m } => format!("sender {sender}  {}", message(m)),
        Call::EventMessage { count, record, watch } => format!("event message: count {count}, record {record}, watch {watch}"),
    };
    let after = if step.pokes.is_empty() {
        ""
    } else if step.keep {
        "  (kept if sound)"
    } else {
        "  (then put back)"
    };
    lines + &format!("{number:5}  {call}{after}")
}

/// The first byte in which the two memories differ.
pub fn difference(model: &Memory, archive: &Memory) -> Option<String> {
    let buffer = (0..BUFFERS.len()).find(|&i| model.areas[i] != archive.areas[i])?;
    let (a, b) = (&model.areas[buffer], &archive.areas[buffer]);
    let at = (0..a.len()).find(|&i| a[i] != b[i])?;
    let (name, size) = BUFFERS[buffer];
    let wher = match at.checked_sub(GUARD) {
        Some(inside) if inside < size => place(buffer, inside),
        Some(past) => format!("{} bytes past its end", past - size),
        None => format!("{} bytes before it", GUARD - at),
    };
    let end = (at + 24).min(a.len());
    Some(format!("{name}, {wher}\nmodel:   {}\narchive: {}", hex(&a[at..end]), hex(&b[at..end])))
}

/// The payloads of two replies, where both sides gave one.
pub fn replies(model: &Memory, archive: &Memory, a: &Answers, b: &Answers) -> String {
    let reply = |memory: &Memory, answers: &Answers| match answers {
        Answers::Request(r) if r.number == 0 => {
            let length = (r.reply_length as usize).clamp(16, REPLY);
            let [kind, ..] = model::layout::words(&memory.buffer(5)[..16]);
            format!("type {kind} `{}`", bytes(&memory.buffer(5)[16..length]))
        }
        _ => "none".into(),
    };
    match a {
        Answers::Request(_) => format!("\nmodel's reply:   {}\narchive's reply: {}", reply(model, a), reply(archive, b)),
        _ => String::new(),
    }
}
