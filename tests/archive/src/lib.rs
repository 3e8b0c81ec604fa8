//! The proved archive's three calls, with the model's types.
#![deny(warnings)]

use model::{Asked, Results, Tables};

extern "C" {
    fn haabuvilk_fresh(
        nodes: *mut u8,
        nodes_size: usize,
        copies: *mut u8,
        copies_size: usize,
        watches: *mut u8,
        watches_size: usize,
        transactions: *mut u8,
        transactions_size: usize,
        domains: *mut u8,
        domains_size: usize,
    ) -> u32;

    fn haabuvilk_request(
        nodes: *mut u8,
        nodes_size: usize,
        copies: *mut u8,
        copies_size: usize,
        watches: *mut u8,
        watches_size: usize,
        transactions: *mut u8,
        transactions_size: usize,
        domains: *mut u8,
        domains_size: usize,
        sender: u32,
        message: *const u8,
        message_size: usize,
        reply: *mut u8,
        reply_size: usize,
        events: *mut u8,
        events_size: usize,
        reply_length: *mut u32,
        event_count: *mut u32,
        page: *mut i64,
        channel: *mut u32,
    ) -> u32;

    fn haabuvilk_event_message(
        watches: *const u8,
        watches_size: usize,
        domains: *const u8,
        domains_size: usize,
        events: *const u8,
        events_size: usize,
        event_count: u32,
        record: u32,
        watch: u32,
        message: *mut u8,
        message_size: usize,
        message_length: *mut u32,
    ) -> u32;
}

pub fn fresh(tables: &mut Tables) -> u32 {
    let Tables { nodes: n, copies: c, watches: w, transactions: t, domains: d } = tables;
    // The slices are exclusive borrows, so they are valid and do not overlap.
    unsafe {
        haabuvilk_fresh(n.as_mut_ptr(), n.len(), c.as_mut_ptr(), c.len(), w.as_mut_ptr(), w.len(), t.as_mut_ptr(), t.len(), d.as_mut_ptr(), d.len())
    }
}

/// The results are filled beforehand with what no call answers, so that one left unwritten shows.
pub fn request(tables: &mut Tables, sender: u32, message: &[u8], reply: &mut [u8], events: &mut [u8]) -> Results {
    let Tables { nodes: n, copies: c, watches: w, transactions: t, domains: d } = tables;
    let mut r = Results { number: 0, reply_length: u32::MAX, event_count: u32::MAX, page: 0x5A5A, channel: 0x5A5A };
    // As above; the four results are fields of their own.
    r.number = unsafe {
        haabuvilk_request(
            n.as_mut_ptr(),
            n.len(),
            c.as_mut_ptr(),
            c.len(),
            w.as_mut_ptr(),
            w.len(),
            t.as_mut_ptr(),
            t.len(),
            d.as_mut_ptr(),
            d.len(),
            sender,
            message.as_ptr(),
            message.len(),
            reply.as_mut_ptr(),
            reply.len(),
            events.as_mut_ptr(),
            events.len(),
            &mut r.reply_length,
            &mut r.event_count,
            &mut r.page,
            &mut r.channel,
        )
    };
    r
}

/// The call number and the message's length.
pub fn event_message(asked: &Asked, message: &mut [u8]) -> (u32, u32) {
    let (w, d, e) = (asked.watches, asked.domains, asked.events);
    let mut length = u32::MAX;
    // As above.
    let number = unsafe {
        haabuvilk_event_message(
            w.as_ptr(),
            w.len(),
            d.as_ptr(),
            d.len(),
            e.as_ptr(),
            e.len(),
            asked.event_count,
            asked.record,
            asked.watch,
            message.as_mut_ptr(),
            message.len(),
            &mut length,
        )
    };
    (number, length)
}
