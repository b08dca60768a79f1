//! A host in Rust: the primary drops a call, its lines reach the standby, which asks for those that were lost, and both sites hold the same minutes. Then the same with accounts: a ledger over a version of the primary.

mod ksk;

use ksk::{Block, Declined, Edit, Frame, Inbox, Ledger, NotRestored, Refusal};
use std::error::Error;

/// The version that the ledger is over: it holds the open calls.
const OPEN_CALLS: u32 = 2;
/// What the standby has been sent of it.
const SENT: u32 = 3;
/// Stays empty: a listing against it is the whole version.
const EMPTY: u32 = 15;

fn main() -> Result<(), Box<dyn Error>> {
    let mut primary = Block::fresh(2016)?;
    let mut standby = Block::fresh(2016)?;
    for call in 1..=3 {
        primary.insert(0, 0, call, 10 * call)?;
        standby.insert(0, 0, call, 10 * call)?;
    }
    // Version 1 of the primary: call 2 drops, call 4 comes in.
    let released = primary.remove(1, 0, 2)?.unwrap_or(0);
    println!("call 2 dropped, {released} minutes released");
    primary.insert(1, 1, 4, 40)?;
    send(&primary, 0, 1, 7, &mut standby, 0)?;
    print(&standby, 0)?;
    damage(&primary, &mut standby)?;
    flush(&mut primary)?;
    send(&primary, 0, 1, 8, &mut standby, 0)?;
    print(&standby, 0)?;
    restore(&mut primary)?;
    accounts(&mut primary, &mut standby)?;
    Ok(())
}

/// Sends the change from one version to another into a version of the standby. The standby asks for what it misses, and the primary sends that again, until it says that it is complete.
fn send(primary: &Block, from: u32, to: u32, batch: u32, standby: &mut Block, version: u32) -> Result<(), Refusal> {
    let mut inbox = Inbox::begin(batch);
    let mut lines = primary.frames(from, to, batch)?;
    println!("lines sent: {}, missing: {}", lines.len(), hear(standby, &mut inbox, version, &lines)?);
    loop {
        let request = inbox.ask()?;
        print!("asked:\n{}", String::from_utf8_lossy(&request.concat()));
        lines = primary.resend(from, to, batch, &request)?;
        if lines.is_empty() {
            return Ok(());
        }
        println!("lines sent again: {}, missing: {}", lines.len(), hear(standby, &mut inbox, version, &lines)?);
    }
}

/// Hands lines to the standby over a link that loses two of each three. Returns how many are missing then.
fn hear(standby: &mut Block, inbox: &mut Inbox, version: u32, lines: &[[u8; 35]]) -> Result<u32, Refusal> {
    for line in lines.iter().step_by(3) {
        standby.receive(inbox, version, line)?;
    }
    Ok(inbox.missing()?.unwrap_or(u32::MAX))
}

/// Two lines that are damaged on the way: one in a digit, which the standby is sent, one in its kind, which is only read.
fn damage(primary: &Block, standby: &mut Block) -> Result<(), Refusal> {
    let line = primary.frames(0, 1, 7)?[0];
    let (mut digit, mut kind) = (line, line);
    digit[20] = b'x';
    kind[16] = b'1';
    if let Err(Refusal::Digit(place)) = standby.receive(&mut Inbox::begin(7), 0, &digit) {
        println!("a damaged line: bad digit at place {place}");
    }
    if Frame::parse(&kind) == Err(Refusal::Kind) {
        println!("a damaged line: kind above 2");
    }
    Ok(())
}

/// The switch flushes what has gathered in one call: call 1 drops, calls 5 and 6 come in. Version 0 stays what the standby holds by now.
fn flush(primary: &mut Block) -> Result<(), Refusal> {
    primary.copy(0, 1)?;
    primary.batch(1, 1, &[Edit::Remove { key: 1 }, Edit::Put { key: 5, value: 50 }, Edit::Put { key: 6, value: 60 }])?;
    println!("flushed: {} calls hold {} minutes", primary.size(1)?, primary.held(1)?);
    Ok(())
}

fn print(block: &Block, version: u32) -> Result<(), Refusal> {
    for entry in block.list(version, EMPTY)? {
        println!("call {} holds {} minutes", entry.key, entry.left);
    }
    Ok(())
}

/// After maintenance a version is loaded from lines, key then value; in the second text the keys do not ascend.
fn restore(primary: &mut Block) -> Result<(), Box<dyn Error>> {
    primary.restore(4, b"000000010000000a\n000000030000001e\n")?;
    print(primary, 4)?;
    if let Err(NotRestored { why: Refusal::Order, line: Some(line) }) = primary.restore(4, b"000000030000001e\n000000010000000a\n") {
        println!("not restored: line {line} is out of order");
    }
    Ok(())
}

/// Account 1 opens two calls; one drops and its release reaches the standby, the other ends.
fn accounts(primary: &mut Block, standby: &mut Block) -> Result<(), Box<dyn Error>> {
    let call = |i: u32| 1 << 24 | i;
    let mut ledger = Ledger::fresh(4)?;
    ledger.top_up(1, 100)?;
    ledger.reserve(primary, OPEN_CALLS, call(5), 30)?;
    ledger.reserve(primary, OPEN_CALLS, call(6), 40)?;
    // 0 minutes would read like a release.
    assert_eq!(ledger.reserve(primary, OPEN_CALLS, call(7), 0), Err(Declined::EditRefused(Refusal::Zero)));
    println!("call {} refused: 0 minutes", call(7));
    print_account(&ledger, primary, 1)?;
    bring_up_to_date(primary, 9, standby)?;
    print(standby, OPEN_CALLS)?;
    ledger.release(primary, OPEN_CALLS, call(5))?;
    println!("call {} dropped", call(5));
    print_account(&ledger, primary, 1)?;
    bring_up_to_date(primary, 10, standby)?;
    print(standby, OPEN_CALLS)?;
    ledger.settle(primary, OPEN_CALLS, call(6), 12)?;
    print_account(&ledger, primary, 1)?;
    Ok(())
}

/// The standby is sent what has changed since it was last sent something, if anything has.
fn bring_up_to_date(primary: &mut Block, batch: u32, standby: &mut Block) -> Result<(), Refusal> {
    if primary.same(SENT, OPEN_CALLS)? {
        return Ok(());
    }
    send(primary, SENT, OPEN_CALLS, batch, standby, OPEN_CALLS)?;
    primary.copy(SENT, OPEN_CALLS)
}

/// An account's call numbers are a range, so its open calls hold what the version holds between the two ends.
fn print_account(ledger: &Ledger, block: &Block, account: u32) -> Result<(), Box<dyn Error>> {
    let t = ledger.account(account)?;
    let open = block.held_between(OPEN_CALLS, account << 24, account << 24 | 0xff_ffff)?;
    println!("account {account}: topped up {}, spent {}, in open calls {open}, free {}", t.topped, t.spent, t.free);
    Ok(())
}
