//! A batch on a link that loses lines both ways: the standby asks, the primary sends, until the standby is complete.

use super::met::Met;
use super::primary::Primary;
use crate::call::Call;
use crate::exports;
use crate::frame::{Frame, LINE};
use crate::history::Trio;
use crate::original::Map;
use crate::parts::room::filled;
use crate::parts::uneven::{holding, Lean};
use crate::parts::Compared;
use crate::plain::NO_ROOM;
use crate::random::Random;
use crate::request::{self, complete, placed, text, LAST, REQUEST};
use crate::rules::Supply;
use crate::table::Table;
use std::collections::BTreeSet;

type Entries = Vec<(u32, u32)>;
type Lines = Vec<Vec<u8>>;

pub fn entries(map: &Map) -> Entries {
    map.iter().map(|(key, &value)| (key, value)).collect()
}

/// Once in how many lines one is lost; for ever after the last round of loss none is.
#[derive(Clone, Copy)]
struct Link {
    loss: usize,
}

const GOOD: Link = Link { loss: usize::MAX };

impl Link {
    /// What arrives: lines are lost, garbled so that they are malformed, or come twice.
    fn arriving(self, random: &mut Random, lines: &[Vec<u8>]) -> Lines {
        let mut arriving = vec![];
        for line in lines {
            if self.loss == usize::MAX {
                arriving.push(line.clone());
            } else if random.once_in(40) {
                let mut garbled = line.clone();
                garbled[random.below(LINE)] = b'x';
                arriving.push(garbled);
            } else if !random.once_in(self.loss) {
                arriving.extend(vec![line.clone(); 1 + random.once_in(30) as usize]);
            }
        }
        arriving
    }
}

struct Standby {
    trio: Trio,
    version: u32,
    batch: u32,
    count: u32,
    accepted: BTreeSet<u32>,
    turned_away: bool,
}

/// What else the standby holds may leave too little room; it is cleared when a line was refused for it.
const FILLER: u32 = 15;

impl Standby {
    /// A's entries under a shape of their own.
    fn new(random: &mut Random, primary: &Primary, batch: u32, count: u32) -> Result<Standby, String> {
        let version = random.below(15) as u32;
        let mut table = Table::fresh(primary.trio.table.n + 96);
        let a = entries(&primary.trio.maps[primary.from as usize]);
        let mut supply = Supply::new(table.free());
        table.versions[version as usize] = holding(random, &mut supply, &a, Lean::Anyhow, 1);
        if random.once_in(2) {
            let left = random.below(table.free().len());
            table = filled(random, &table, left);
        }
        let mut trio = Trio::of(table);
        match exports::begin(&mut trio.inbox, batch) {
            0 => Ok(Standby { trio, version, batch, count, accepted: BTreeSet::new(), turned_away: false }),
            number => Err(format!("begin answers {number}")),
        }
    }

    fn hear(&mut self, line: &[u8]) -> Result<(), String> {
        let reply = self.trio.step(&Call::Receive { version: self.version, line: line.to_vec() })?;
        if reply.number == NO_ROOM {
            self.turned_away = true;
            self.trio.step(&Call::Clear { version: FILLER })?;
        }
        if reply.number == 0 {
            self.accepted.insert(Frame::parse(line).ok_or("a malformed line was accepted")?.index);
        }
        Ok(())
    }

    /// What is to be asked, by the lines that were accepted.
    fn missing(&self) -> BTreeSet<u32> {
        let all = if self.accepted.is_empty() { LAST + 1 } else { self.count };
        (0..all).filter(|index| !self.accepted.contains(index)).collect()
    }

    fn is_complete(&self) -> bool {
        self.accepted.len() as u32 == self.count
    }

    /// The request, asked for in pieces.
    fn ask(&mut self, random: &mut Random) -> Result<Lines, String> {
        let mut lines: Lines = vec![];
        loop {
            let room = LINE * (1 + random.below(5)) + random.below(LINE);
            let reply = self.trio.step(&Call::Ask { start: lines.len() as u32, room })?;
            lines.extend(reply.bytes[..reply.fields[0] as usize].chunks(LINE).map(<[u8]>::to_vec));
            if lines.len() as u32 == reply.fields[1] {
                break;
            }
        }
        let asked = request::asked(&lines.concat(), self.batch);
        let expected = Ok(self.missing());
        if asked != expected {
            return Err(format!("{asked:?} is asked, not {expected:?}"));
        }
        Ok(lines)
    }
}

struct Exchange {
    primary: Primary,
    standby: Standby,
    batch: u32,
    /// The last request that was answered.
    answered: Vec<u8>,
}

impl Exchange {
    /// What the primary sends for the bytes that arrive of a request; a request that lacks a line is refused.
    fn sent(&mut self, random: &mut Random, arrived: &[u8], whole: &[u8]) -> Result<Lines, String> {
        let mut lines: Lines = vec![];
        loop {
            let room = LINE * (1 + random.below(9));
            let call = self.primary.call(self.batch, arrived, lines.len() as u32, room);
            let reply = self.primary.trio.step(&call)?;
            let expected = if arrived == whole { 0 } else { REQUEST };
            if reply.number != expected {
                return Err(format!("{call:?} is answered with {}", reply.number));
            }
            lines.extend(reply.bytes[..reply.fields[0] as usize].chunks(LINE).map(<[u8]>::to_vec));
            if lines.len() as u32 == reply.fields[1] {
                return Ok(lines);
            }
        }
    }

    /// One request and what is sent for it.
    fn round(&mut self, random: &mut Random, asking: Link, data: Link, met: &mut Met) -> Compared {
        let whole = self.standby.ask(random)?;
        let wanted = self.standby.missing();
        let (mut arrived, mut whole) = (asking.arriving(random, &whole).concat(), whole.concat());
        if !self.answered.is_empty() && asking.loss != usize::MAX && random.once_in(6) {
            met.when(self.answered != whole, "link: an old request was answered again");
            (arrived, whole) = (self.answered.clone(), self.answered.clone());
        }
        let fresh = arrived == whole && whole != self.answered;
        met.when(arrived.is_empty(), "link: no line of a request arrived");
        met.when(!arrived.is_empty() && arrived != whole, "link: a request arrived incomplete");
        let sent = self.sent(random, &arrived, &whole)?;
        if arrived == whole {
            self.answered = whole;
        }
        if fresh && sent.len() != wanted.range(..self.standby.count).count() {
            return Err(format!("{} lines are sent for {wanted:?}", sent.len()));
        }
        self.standby.turned_away = false;
        let mut heard = data.arriving(random, &sent);
        random.shuffle(&mut heard);
        heard.iter().try_for_each(|line| self.standby.hear(line))?;
        let all = sent.iter().all(|line| heard.contains(line));
        met.when(!all, "link: an asked frame was lost again");
        met.when(self.standby.turned_away, "link: a frame found no room and was asked again");
        if fresh && all && !self.standby.turned_away {
            met.when(true, "link: all asked frames arrived");
            if !self.standby.is_complete() {
                return Err(format!("all of {wanted:?} arrived, and the standby is not complete"));
            }
        }
        Ok(1 + heard.len() as u64)
    }

    /// The standby says so, is sent nothing, and holds B.
    fn closed(&mut self, random: &mut Random) -> Result<(), String> {
        let request = self.standby.ask(random)?.concat();
        if request != text(&placed(vec![complete(self.batch)])) {
            return Err(format!("a complete standby asks {:?}", String::from_utf8_lossy(&request)));
        }
        if !self.sent(random, &request, &request)?.is_empty() {
            return Err("lines are sent to a complete standby".into());
        }
        let held = entries(&self.standby.trio.maps[self.standby.version as usize]);
        if held == entries(&self.primary.trio.maps[self.primary.to as usize]) {
            Ok(())
        } else {
            Err("complete, but not B".into())
        }
    }
}

/// After so many rounds the link is good, so that every history ends.
const ROUNDS: usize = 60;

pub fn until_complete(random: &mut Random, met: &mut Met) -> Compared {
    let delta = random.pick(&[0, 1, 2, 5, 20, 40, 60]);
    let mut primary = Primary::of_length(random, delta)?;
    let batch = random.word();
    let lines = primary.lines(batch)?;
    let standby = Standby::new(random, &primary, batch, lines.len() as u32)?;
    let mut exchange = Exchange { primary, standby, batch, answered: vec![] };
    let (asking, data) = (Link { loss: random.pick(&[2, 5, 20, usize::MAX]) }, Link { loss: random.pick(&[2, 3, 10, 100]) });
    let first = if random.once_in(5) { vec![] } else { data.arriving(random, &lines) };
    first.iter().try_for_each(|line| exchange.standby.hear(line))?;
    met.when(exchange.standby.accepted.is_empty(), "link: nothing of the batch arrived at first");
    let mut compared = first.len() as u64;
    for round in 0..ROUNDS + 2 {
        if exchange.standby.is_complete() {
            met.when(round == 0, "link: complete at once");
            met.when(round == 1, "link: complete after one request");
            met.when(round > 1, "link: complete after several");
            exchange.closed(random)?;
            return Ok(compared + 2);
        }
        let (asking, data) = if round < ROUNDS { (asking, data) } else { (GOOD, GOOD) };
        compared += exchange.round(random, asking, data, met)?;
    }
    Err("never complete".into())
}
