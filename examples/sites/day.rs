//! A day: two processes that are primary and standby in turn, until the day is over and both are compared.

use crate::change;
use crate::control::Message;
use crate::counts::Counts;
use crate::options::Options;
use crate::primary;
use crate::shift::Shift;
use crate::site::{Site, SENT};
use crate::standby::{self, Order};
use std::collections::BTreeMap;
use std::error::Error;
use std::net::{TcpListener, TcpStream};
use std::process::{Child, Command};
use std::time::{Duration, Instant};

/// How long the second process may take to start.
const PATIENCE: Duration = Duration::from_secs(60);

/// The second process, which does not outlive this one's interest in it.
struct Second(Child);

impl Drop for Second {
    fn drop(&mut self) {
        if !matches!(self.0.try_wait(), Ok(Some(_))) {
            let _ = self.0.kill();
            let _ = self.0.wait();
        }
    }
}

/// Starts the second process, runs the day as site A, and returns what both have counted.
pub fn run(options: &Options) -> Result<Counts, Box<dyn Error>> {
    let listener = TcpListener::bind("127.0.0.1:0")?;
    let port = listener.local_addr()?.port().to_string();
    let mut second = Second(Command::new(std::env::current_exe()?).args(["standby", &port]).args(options.words()).spawn()?);
    let mut site = Site::open('A', options, accept(&listener, &mut second)?)?;
    let shift = Shift::first(options.seed)?;
    let counts = play(&mut site, Some(shift))?;
    if !second.0.wait()?.success() {
        return Err("the second process failed".into());
    }
    Ok(counts)
}

/// The second process: site B, the standby at first.
pub fn second(options: &Options, port: u16) -> Result<(), Box<dyn Error>> {
    let mut site = Site::open('B', options, TcpStream::connect(("127.0.0.1", port))?)?;
    play(&mut site, None)?;
    Ok(())
}

fn accept(listener: &TcpListener, second: &mut Second) -> Result<TcpStream, Box<dyn Error>> {
    let start = Instant::now();
    listener.set_nonblocking(true)?;
    while start.elapsed() < PATIENCE {
        if let Ok((stream, _)) = listener.accept() {
            stream.set_nonblocking(false)?;
            return Ok(stream);
        }
        if second.0.try_wait()?.is_some() {
            return Err("the second process ended before it began".into());
        }
        std::thread::sleep(Duration::from_millis(5));
    }
    Err("the second process did not begin".into())
}

/// Primary while there is a shift, standby otherwise. Returns what both sites have counted.
fn play(site: &mut Site, mut shift: Option<Shift>) -> Result<Counts, Box<dyn Error>> {
    let mut batch = 0;
    let day = site.options.ticks_of_day();
    loop {
        if let Some(mut now) = shift.take() {
            let until = day.min((now.changes + 1) * site.options.ticks_to_change());
            primary::run(site, &mut now, until)?;
            if until == day {
                return end(site);
            }
            batch = now.batch;
            hand_over(site, now)?;
        }
        match standby::run(site, batch)? {
            Order::TakeOver(words) => {
                let mut now = Shift::of_words(&words);
                change::take_over(site, &mut now)?;
                shift = Some(now);
            }
            Order::Over(words) => {
                site.counts = Counts::default();
                site.counts.add(&words);
                return Ok(site.counts.clone());
            }
        }
    }
}

/// The version of the open calls stays as it is: from now on it is the standby's.
fn hand_over(site: &mut Site, mut shift: Shift) -> Result<(), Box<dyn Error>> {
    shift.changes += 1;
    site.block.clear(SENT)?;
    Ok(site.control.say(&Message::Shift(shift.words()))?)
}

/// The primary compares what both sites hold, and adds up what both have counted.
fn end(site: &mut Site) -> Result<Counts, Box<dyn Error>> {
    site.control.say(&Message::End)?;
    let Message::Entries(other) = site.control.hear()? else { return Err("the standby did not say what it holds".into()) };
    let Message::Counts(counts) = site.control.hear()? else { return Err("the standby did not say what it counted".into()) };
    site.counts.add(&counts);
    compare(site, &other)?;
    let refused = site.counts.refused;
    site.counts.check(refused == 0, "the ledger refused nothing");
    let counts = site.counts.clone();
    site.control.say(&Message::Counts(counts.words()))?;
    Ok(counts)
}

/// Without repair the sites are not expected to agree, so there it is a figure and no check.
fn compare(site: &mut Site, other: &[u64]) -> Result<(), Box<dyn Error>> {
    let mut theirs: BTreeMap<u32, u32> = other.chunks(2).map(|e| (e[0] as u32, e[1] as u32)).collect();
    let mine = site.entries()?;
    let differ = mine.iter().filter(|entry| theirs.remove(&entry.key) != Some(entry.left)).count() + theirs.len();
    site.counts.differing = differ as u64;
    site.counts.entries = mine.len() as u64;
    if site.options.repair {
        site.counts.check(differ == 0, "both sites hold the same entries");
    }
    Ok(())
}
