//! The standby: hears lines into its version, and asks for those that it misses.

use crate::control::Message;
use crate::ksk::{Frame, Inbox, Refusal};
use crate::site::{Site, OPEN};
use std::error::Error;

/// Why a standby's time is over.
pub enum Order {
    TakeOver(Vec<u64>),
    /// The day is over; what the primary has counted.
    Over(Vec<u64>),
}

struct Hearing {
    batch: u32,
    inbox: Option<Inbox>,
    /// Lines of this batch in this tick, and how many of them were new.
    lines: u64,
    new: u64,
    asked: bool,
}

/// Batch numbers ascend, so lines up to `batch` are late ones of the time before.
pub fn run(site: &mut Site, batch: u32) -> Result<Order, Box<dyn Error>> {
    let mut hearing = Hearing { batch, inbox: None, lines: 0, new: 0, asked: false };
    loop {
        match site.control.hear()? {
            Message::Sent(sent) => tick(site, &mut hearing, sent)?,
            Message::Shift(words) => return Ok(Order::TakeOver(words)),
            Message::End => tell(site)?,
            Message::Counts(words) => return Ok(Order::Over(words)),
            _ => return Err("a message that no standby expects".into()),
        }
    }
}

fn tick(site: &mut Site, hearing: &mut Hearing, sent: u64) -> Result<(), Box<dyn Error>> {
    (hearing.lines, hearing.new) = (0, 0);
    for datagram in site.link.take(sent, &mut site.counts)? {
        hear(site, hearing, &datagram)?;
    }
    if site.options.repair {
        ask(site, hearing)?;
    }
    let sent = site.link.carry()?;
    Ok(site.control.say(&Message::Sent(sent))?)
}

/// A line of a later batch begins that batch: the primary sends one only when the batch before is done with.
fn hear(site: &mut Site, hearing: &mut Hearing, line: &[u8]) -> Result<(), Refusal> {
    if let Some(frame) = Frame::parse(line).ok().filter(|frame| frame.batch > hearing.batch) {
        *hearing = Hearing { batch: frame.batch, inbox: Some(Inbox::begin(frame.batch)), lines: 0, new: 0, asked: false };
    }
    let Some(inbox) = &mut hearing.inbox else {
        site.counts.late += 1;
        return Ok(());
    };
    match site.block.receive(inbox, OPEN, line) {
        Ok(heard) => {
            hearing.lines += 1;
            hearing.new += !heard.again as u64;
            site.counts.heard += !heard.again as u64;
            site.counts.heard_again += heard.again as u64;
        }
        Err(Refusal::NoRoom) => site.counts.no_room += 1,
        // A line of a batch that is done with, or of a request from before the last site change.
        Err(Refusal::Batch | Refusal::Kind) => site.counts.late += 1,
        Err(other) => return Err(other),
    }
    Ok(())
}

/// Asks for the first time when a tick has brought nothing new, and then at each tick, once the question before has left.
/// When nothing is missing it says so, and again whenever it is sent a line nevertheless.
fn ask(site: &mut Site, hearing: &mut Hearing) -> Result<(), Refusal> {
    let Some(inbox) = &hearing.inbox else { return Ok(()) };
    let complete = inbox.missing()? == Some(0);
    if complete && hearing.lines > 0 || !complete && (hearing.asked || hearing.new == 0) && !site.link.is_busy() {
        hearing.asked = true;
        for line in inbox.ask()? {
            site.link.put(line, &mut site.counts);
        }
    }
    Ok(())
}

/// What it holds and what it has counted, for the comparison at the end.
fn tell(site: &mut Site) -> Result<(), Box<dyn Error>> {
    let entries = site.entries()?.iter().flat_map(|e| [e.key as u64, e.left as u64]).collect();
    site.control.say(&Message::Entries(entries))?;
    let counts = site.counts.words();
    Ok(site.control.say(&Message::Counts(counts))?)
}
