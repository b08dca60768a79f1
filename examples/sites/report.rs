//! What is printed.

use crate::calls::{ACCOUNTS, TICKS_A_SECOND};
use crate::change::Gap;
use crate::counts::Counts;
use crate::options::Options;
use crate::shift::Shift;
use crate::site::{Site, NODES};
use std::io::{stderr, IsTerminal, Write};
use std::time::Duration;

pub fn begin(o: &Options) {
    println!("Two sites, A and B: two processes, each with a table of {} nodes, joined by UDP on 127.0.0.1, a line a datagram.", grouped(NODES as u64));
    println!("Calls: 100 begin each second and as many end, 200 edits a second; about 1,100 are open at once, on {ACCOUNTS} accounts.");
    println!("Every 3 seconds the site that is used copies its version and sends the other what has changed since the copy before.");
    println!("The link loses {} % of the datagrams, repeats {} % and holds {} % back for up to a second.", o.loss, o.repeat, o.delay);
    match o.repair {
        true => println!("Repair is on: the other site asks for the lines that it misses until it has them all."),
        false => println!("Repair is off: each line is sent once."),
    }
    match o.sudden {
        true => println!("Every {} minutes the site that is used fails without warning, and from then on the other site's version is used.", o.change),
        false => {
            println!("Every {} minutes the sites change: edits wait, the last changes are sent, and from then on the other site's version is used.", o.change)
        }
    }
    if !o.complete() {
        println!("After each site change somebody sets the table right by hand, so that each is counted by itself.");
    }
    println!("Stranded: minutes reserved there for calls that are over. Missing: minutes of open calls that are not reserved there.\n");
}

/// A line that is written over, where somebody looks.
pub fn progress(site: &Site, shift: &Shift) {
    if shift.clock % 50 == 0 && !site.options.quiet && stderr().is_terminal() {
        let (now, day, open) = (clock(shift.clock), clock(site.options.ticks_of_day()), grouped(shift.calls.open().len() as u64));
        let stranded = grouped(shift.stranded);
        let _ = write!(stderr(), "\r{now} of {day}: site {} is used, {open} calls are open; stranded so far: {stranded} minutes\x1b[K", site.name);
    }
}

fn progress_ends() {
    if stderr().is_terminal() {
        let _ = write!(stderr(), "\r\x1b[K");
    }
}

pub fn change(site: &Site, shift: &Shift, entries: usize, gap: &Gap, off: usize) {
    if site.options.quiet {
        return;
    }
    progress_ends();
    let (open, entries) = (grouped(shift.calls.open().len() as u64), grouped(entries as u64));
    print!("{}  site {} is used now: {open} calls are open, {entries} reservations stand; ", clock(shift.clock), site.name);
    print!("stranded {} minutes, missing {}; ", grouped(gap.stranded_minutes), grouped(gap.missing_minutes));
    match off {
        0 => print!("every account adds up"),
        _ => print!("{off} of {ACCOUNTS} accounts do not add up"),
    }
    println!("; edits waited {:.1} s", seconds(shift.waited));
}

pub fn end(c: &Counts, o: &Options, took: Duration) {
    progress_ends();
    println!("\n{} of calls in {:.1} seconds.", clock(o.ticks_of_day()), took.as_secs_f64());
    traffic(c);
    let [stranded, over, missing, open] = [c.stranded_minutes, c.stranded_calls, c.missing_minutes, c.missing_calls].map(grouped);
    println!("Stranded after {} site changes: {stranded} minutes of {over} calls that are over.", c.changes);
    println!("Missing after them: {missing} minutes of {open} calls that are open.");
    println!("Edits waited {:.1} seconds a site change, on the average.", seconds(c.waited) / c.changes.max(1) as f64);
    match c.differing {
        0 => println!("At the end both sites hold the same {} entries.", grouped(c.entries)),
        differing => println!("At the end the sites differ in {} entries.", grouped(differing)),
    }
    println!("{} passed, {} failed", c.passed, c.failed);
}

fn traffic(c: &Counts) {
    let [reserved, settled, dropped, top_ups, refused] = [c.reserved, c.settled, c.dropped, c.top_ups, c.refused].map(grouped);
    println!("Ledger: {reserved} reserved, {settled} settled, {dropped} dropped, {top_ups} top-ups, {refused} refused.");
    let [copies, lines, again, requests] = [c.copies, c.lines, c.sent_again, c.requests].map(grouped);
    println!("Copies: {copies}, of {lines} lines; {again} lines were sent again for {requests} requests.");
    let [datagrams, lost, repeated, held_back, gone] = [c.datagrams, c.lost, c.repeated, c.held_back, c.gone].map(grouped);
    println!("Link: {datagrams} datagrams, {lost} lost, {repeated} repeated, {held_back} held back; {gone} more lost by the machine.");
    let [heard, again, late, no_room] = [c.heard, c.heard_again, c.late, c.no_room].map(grouped);
    println!("Lines heard: {heard} new, {again} again, {late} late, {no_room} without room.");
}

pub fn seconds(ticks: u64) -> f64 {
    ticks as f64 / TICKS_A_SECOND as f64
}

fn clock(ticks: u64) -> String {
    let seconds = ticks / TICKS_A_SECOND;
    format!("{:02}:{:02}:{:02}", seconds / 3600, seconds / 60 % 60, seconds % 60)
}

/// 1234567 is 1,234,567.
fn grouped(n: u64) -> String {
    let digits = n.to_string();
    let mut out = String::new();
    for (place, digit) in digits.chars().enumerate() {
        if place > 0 && (digits.len() - place) % 3 == 0 {
            out.push(',');
        }
        out.push(digit);
    }
    out
}
