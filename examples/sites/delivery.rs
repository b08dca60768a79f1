//! A copy on its way to the standby: its lines are sent, and those that are asked for are sent again, until the standby says that it is complete.

use crate::ksk::Refusal;
use crate::link::Line;
use crate::request::{asks, Gathered};
use crate::site::{Site, COPY, OPEN, SENT};

/// A standby that hears new lines does not ask in that tick, so only a longer silence counts.
const QUIET: u64 = 2;

pub struct Delivery {
    batch: u32,
    under_way: bool,
    /// Ticks since the standby said something of this batch.
    quiet: u64,
    first: Line,
    request: Gathered,
}

impl Delivery {
    pub fn none() -> Delivery {
        Delivery { batch: 0, under_way: false, quiet: 0, first: [0; 35], request: Gathered::none() }
    }

    pub fn under_way(&self) -> bool {
        self.under_way
    }

    /// Copies the version of the open calls and sends what has changed since the copy before.
    pub fn begin(&mut self, site: &mut Site, batch: u32) -> Result<(), Refusal> {
        site.block.copy(COPY, OPEN)?;
        let lines = site.block.frames(SENT, COPY, batch)?;
        site.counts.copies += 1;
        site.counts.lines += lines.len() as u64;
        *self = Delivery { batch, under_way: true, first: lines[0], ..Delivery::none() };
        for line in lines {
            site.link.put(line, &mut site.counts);
        }
        Ok(())
    }

    /// A datagram from the standby. Those that are no line of a request of this batch are late ones, and nothing is done for them.
    pub fn hear(&mut self, site: &mut Site, datagram: &[u8]) -> Result<(), Refusal> {
        let Some(line) = asks(datagram, self.batch).filter(|_| self.under_way) else { return Ok(()) };
        self.quiet = 0;
        match self.request.add(&line) {
            // What is still to leave may be just what is asked for.
            Some(request) if !site.link.is_busy() => self.answer(site, &request),
            _ => Ok(()),
        }
    }

    fn answer(&mut self, site: &mut Site, request: &[Line]) -> Result<(), Refusal> {
        let lines = match site.block.resend(SENT, COPY, self.batch, request) {
            Ok(lines) => lines,
            // Lines of two requests came together. The standby asks again.
            Err(Refusal::Request) => return Ok(()),
            Err(other) => return Err(other),
        };
        site.counts.requests += 1;
        site.counts.sent_again += lines.len() as u64;
        if lines.is_empty() {
            return self.done(site);
        }
        for line in lines {
            site.link.put(line, &mut site.counts);
        }
        Ok(())
    }

    /// At the end of a tick. Without repair a copy is done with when the link is empty, whatever has arrived of it.
    /// With repair a standby that says nothing may have heard nothing of this batch, or its word was lost: it is sent the first line once more.
    pub fn tick(&mut self, site: &mut Site) -> Result<(), Refusal> {
        if !self.under_way || !site.link.is_empty() {
            return Ok(());
        }
        if !site.options.repair {
            return self.done(site);
        }
        self.quiet += 1;
        if self.quiet > QUIET {
            site.link.put(self.first, &mut site.counts);
        }
        Ok(())
    }

    fn done(&mut self, site: &mut Site) -> Result<(), Refusal> {
        self.under_way = false;
        site.block.copy(SENT, COPY)?;
        site.block.clear(COPY)
    }
}
