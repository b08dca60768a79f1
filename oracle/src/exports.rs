//! The exported calls. A slice crosses as pointer and length, a field as a pointer. The declarations that are `pub` are what
//! the comparisons of minutes held and of kiosks and the benchmark call in their own way.

use crate::call::{Call, Reply};
use crate::frame::Frame;
use std::sync::atomic::{AtomicU64, Ordering};

#[link(name = "switch", kind = "static")]
extern "C" {
    fn ksk_fresh(block: *mut u32, words: usize, n: u32) -> u32;
    fn ksk_lookup(block: *const u32, words: usize, version: u32, key: u32, found: *mut u32, value: *mut u32) -> u32;
    pub fn ksk_size(block: *const u32, words: usize, version: u32, size: *mut u32) -> u32;
    pub fn ksk_held(block: *const u32, words: usize, version: u32, minutes: *mut u64) -> u32;
    pub fn ksk_held_between(block: *const u32, words: usize, version: u32, first: u32, last: u32, minutes: *mut u64) -> u32;
    pub fn ksk_insert(
        block: *mut u32,
        words: usize,
        dest: u32,
        source: u32,
        key: u32,
        value: u32,
        had: *mut u32,
        old: *mut u32,
    ) -> u32;
    pub fn ksk_remove(block: *mut u32, words: usize, dest: u32, source: u32, key: u32, had: *mut u32, old: *mut u32) -> u32;
    pub fn ksk_copy(block: *mut u32, words: usize, dest: u32, source: u32) -> u32;
    fn ksk_batch(block: *mut u32, words: usize, dest: u32, source: u32, edits: *const u32, edit_words: usize) -> u32;
    fn ksk_restore(block: *mut u32, words: usize, version: u32, text: *const u8, bytes: usize, line: *mut u64) -> u32;
    pub fn ksk_clear(block: *mut u32, words: usize, version: u32) -> u32;
    pub fn ksk_union(block: *mut u32, words: usize, dest: u32, left: u32, right: u32, rule: u32) -> u32;
    pub fn ksk_difference(block: *mut u32, words: usize, dest: u32, left: u32, right: u32, rule: u32, cancel: u32) -> u32;
    pub fn ksk_list(
        block: *const u32,
        words: usize,
        left: u32,
        right: u32,
        start: u32,
        out: *mut u32,
        room: usize,
        written: *mut u32,
        total: *mut u32,
    ) -> u32;
    fn ksk_frames(
        block: *const u32,
        words: usize,
        from: u32,
        to: u32,
        batch: u32,
        start: u32,
        out: *mut u8,
        room: usize,
        written: *mut u32,
        total: *mut u32,
    ) -> u32;
    pub fn ksk_same(block: *const u32, words: usize, from: u32, to: u32, same: *mut u32) -> u32;
    fn ksk_parse(
        line: *const u8,
        bytes: usize,
        batch: *mut u32,
        index: *mut u32,
        count: *mut u32,
        kind: *mut u32,
        key: *mut u32,
        value: *mut u32,
        place: *mut u32,
    ) -> u32;
    fn ksk_begin(inbox: *mut u32, words: usize, batch: u32) -> u32;
    fn ksk_receive(
        block: *mut u32,
        words: usize,
        inbox: *mut u32,
        inbox_words: usize,
        version: u32,
        line: *const u8,
        bytes: usize,
        repeat: *mut u32,
        missing: *mut u32,
        place: *mut u32,
    ) -> u32;
    fn ksk_missing(inbox: *const u32, words: usize, missing: *mut u32) -> u32;
    fn ksk_ask(
        inbox: *const u32,
        inbox_words: usize,
        start: u32,
        out: *mut u8,
        bytes: usize,
        written: *mut u32,
        total: *mut u32,
    ) -> u32;
    fn ksk_resend(
        block: *const u32,
        words: usize,
        from: u32,
        to: u32,
        batch: u32,
        request: *const u8,
        request_bytes: usize,
        start: u32,
        out: *mut u8,
        bytes: usize,
        written: *mut u32,
        total: *mut u32,
    ) -> u32;
    pub fn ksk_kiosk_fresh(kiosk: *mut u32, words: usize) -> u32;
    pub fn ksk_kiosk_lookup(kiosk: *const u32, words: usize, key: u32, found: *mut u32, value: *mut u32) -> u32;
    pub fn ksk_kiosk_insert(kiosk: *mut u32, words: usize, key: u32, value: u32, had: *mut u32, old: *mut u32) -> u32;
    pub fn ksk_kiosk_remove(kiosk: *mut u32, words: usize, key: u32, had: *mut u32, old: *mut u32) -> u32;
    pub fn ksk_kiosk_list(
        kiosk: *const u32,
        words: usize,
        start: u32,
        out: *mut u32,
        room: usize,
        written: *mut u32,
        total: *mut u32,
    ) -> u32;
    pub fn ksk_kiosk_receive(
        kiosk: *mut u32,
        words: usize,
        inbox: *mut u32,
        inbox_words: usize,
        line: *const u8,
        bytes: usize,
        repeat: *mut u32,
        missing: *mut u32,
        place: *mut u32,
    ) -> u32;
}

pub fn fresh(block: &mut [u32], n: u32) -> u32 {
    unsafe { ksk_fresh(block.as_mut_ptr(), block.len(), n) }
}

pub fn begin(inbox: &mut [u32], batch: u32) -> u32 {
    unsafe { ksk_begin(inbox.as_mut_ptr(), inbox.len(), batch) }
}

/// The records are only read; they are given to change, so that a change would be seen.
pub fn batch(block: &mut [u32], dest: u32, source: u32, edits: &mut [u32]) -> u32 {
    unsafe { ksk_batch(block.as_mut_ptr(), block.len(), dest, source, edits.as_mut_ptr(), edits.len()) }
}

/// The number and the faulty line's. The text is only read; it is given to change, so that a change would be seen.
pub fn restore(block: &mut [u32], version: u32, text: &mut [u8]) -> (u32, u64) {
    let mut line = u64::MAX;
    let number = unsafe { ksk_restore(block.as_mut_ptr(), block.len(), version, text.as_mut_ptr(), text.len(), &mut line) };
    (number, line)
}

/// What fields hold before a call: a refusal must set them to zero, not leave them.
pub const STALE: u32 = 0xdead_beef;

pub fn missing(inbox: &[u32]) -> (u32, u32) {
    let mut missing = STALE;
    let number = unsafe { ksk_missing(inbox.as_ptr(), inbox.len(), &mut missing) };
    (number, missing)
}

/// The number, the bad digit's place and the frame.
pub fn parse(line: &[u8]) -> (u32, u32, Frame) {
    let mut f = Frame { batch: STALE, index: STALE, count: STALE, kind: STALE, key: STALE, value: STALE };
    let Frame { batch, index, count, kind, key, value } = &mut f;
    let mut place = STALE;
    let number = unsafe { ksk_parse(line.as_ptr(), line.len(), batch, index, count, kind, key, value, &mut place) };
    (number, place, f)
}

/// How often each number was answered.
pub static ANSWERS: [AtomicU64; 19] = [const { AtomicU64::new(0) }; 19];

/// The numbers that a call on a block can answer: a comparison that never meets one compares less than it says.
pub const NUMBERS: [usize; 19] = [0, 1, 2, 3, 4, 5, 6, 7, 8, 9, 10, 11, 12, 13, 14, 15, 16, 17, 18];

/// Runs a call. Fields that an export does not have stay zero.
pub fn run(block: &mut [u32], inbox: &mut [u32], call: &Call) -> Reply {
    let mut reply = call.blank();
    run_into(block, inbox, call, &mut reply);
    if let Some(times) = ANSWERS.get(reply.number as usize) {
        times.fetch_add(1, Ordering::Relaxed);
    }
    reply
}

/// The same with a reply at hand, so that no output has to be made: this is what is timed.
pub fn run_into(block: &mut [u32], inbox: &mut [u32], call: &Call, reply: &mut Reply) {
    let (b, words) = (block.as_mut_ptr(), block.len());
    let [x, y] = &mut reply.fields;
    reply.number = unsafe {
        match *call {
            Call::Copy { dest, source } => ksk_copy(b, words, dest, source),
            Call::Batch { dest, source, ref edits } => ksk_batch(b, words, dest, source, edits.as_ptr(), edits.len()),
            Call::Clear { version } => ksk_clear(b, words, version),
            Call::Union { dest, left, right, rule } => ksk_union(b, words, dest, left, right, rule),
            Call::Difference { dest, left, right, rule, cancel } => ksk_difference(b, words, dest, left, right, rule, cancel),
            Call::Size { version } => {
                *x = STALE;
                ksk_size(b, words, version, x)
            }
            Call::Same { from, to } => {
                *x = STALE;
                ksk_same(b, words, from, to, x)
            }
            Call::Held { .. } | Call::HeldBetween { .. } | Call::Restore { .. } => {
                let (number, field) = wide(b, words, call);
                (*x, *y) = (field as u32, (field >> 32) as u32);
                number
            }
            _ => {
                (*x, *y) = (STALE, STALE);
                match *call {
                    Call::Lookup { version, key } => ksk_lookup(b, words, version, key, x, y),
                    Call::Insert { dest, source, key, value } => ksk_insert(b, words, dest, source, key, value, x, y),
                    Call::Remove { dest, source, key } => ksk_remove(b, words, dest, source, key, x, y),
                    Call::List { left, right, start, room } => {
                        ksk_list(b, words, left, right, start, reply.words.as_mut_ptr(), room, x, y)
                    }
                    Call::Frames { from, to, batch, start, room } => {
                        ksk_frames(b, words, from, to, batch, start, reply.bytes.as_mut_ptr(), room, x, y)
                    }
                    Call::Ask { start, room } => {
                        ksk_ask(inbox.as_ptr(), inbox.len(), start, reply.bytes.as_mut_ptr(), room, x, y)
                    }
                    Call::Resend { from, to, batch, ref request, start, room } => {
                        let (asked, bytes, out) = (request.as_ptr(), request.len(), reply.bytes.as_mut_ptr());
                        ksk_resend(b, words, from, to, batch, asked, bytes, start, out, room, x, y)
                    }
                    Call::Receive { version, ref line } => {
                        reply.place = STALE;
                        let (inbox, inbox_words) = (inbox.as_mut_ptr(), inbox.len());
                        ksk_receive(b, words, inbox, inbox_words, version, line.as_ptr(), line.len(), x, y, &mut reply.place)
                    }
                    _ => unreachable!("answered above"),
                }
            }
        }
    };
}

/// The calls whose one field has 64 bits.
unsafe fn wide(b: *mut u32, words: usize, call: &Call) -> (u32, u64) {
    let mut field = u64::MAX;
    let number = match *call {
        Call::Held { version } => ksk_held(b, words, version, &mut field),
        Call::HeldBetween { version, first, last } => ksk_held_between(b, words, version, first, last, &mut field),
        Call::Restore { version, ref text } => ksk_restore(b, words, version, text.0.as_ptr(), text.0.len(), &mut field),
        _ => unreachable!("its fields are words"),
    };
    (number, field)
}
