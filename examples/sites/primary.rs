//! The primary: calls go on in its version; every few seconds a copy is sent to the standby.

use crate::calls::TICKS_A_SECOND;
use crate::control::Message;
use crate::delivery::Delivery;
use crate::report;
use crate::shift::Shift;
use crate::site::Site;
use std::error::Error;

const TICKS_TO_COPY: u64 = 3 * TICKS_A_SECOND;
/// Shortly before a site change a copy follows the other, so that little is left for the last one.
const TICKS_OF_HASTE: u64 = 4 * TICKS_A_SECOND;
/// If the last lines are not over by then, the link is taken for dead.
const TICKS_TO_GIVE_UP: u64 = 20_000;

/// Runs until the clock says `until`. Then edits wait until the last changes are over at the standby, unless this site fails without warning.
pub fn run(site: &mut Site, shift: &mut Shift, until: u64) -> Result<(), Box<dyn Error>> {
    let mut delivery = Delivery::none();
    let mut next = shift.clock + TICKS_TO_COPY;
    let fails = site.options.sudden && until < site.options.ticks_of_day();
    while shift.clock < until {
        let due = shift.clock >= next || !fails && shift.clock + TICKS_OF_HASTE >= until;
        if due && !delivery.under_way() {
            next = shift.clock + TICKS_TO_COPY;
            begin(site, shift, &mut delivery)?;
        }
        tick(site, Some(shift), &mut delivery)?;
        report::progress(site, shift);
    }
    if fails {
        return Ok(());
    }
    shift.waited = finish(site, &mut delivery)?;
    begin(site, shift, &mut delivery)?;
    shift.waited += finish(site, &mut delivery)?;
    Ok(())
}

fn begin(site: &mut Site, shift: &mut Shift, delivery: &mut Delivery) -> Result<(), Box<dyn Error>> {
    shift.batch += 1;
    Ok(delivery.begin(site, shift.batch)?)
}

/// One tick of the link and, if a shift is given, of the calls: they go on while the standby hears what was sent.
fn tick(site: &mut Site, shift: Option<&mut Shift>, delivery: &mut Delivery) -> Result<(), Box<dyn Error>> {
    let sent = site.link.carry()?;
    site.control.say(&Message::Sent(sent))?;
    if let Some(shift) = shift {
        shift.tick(&mut site.block, &mut site.counts)?;
    }
    let sent = site.control.sent()?;
    for datagram in site.link.take(sent, &mut site.counts)? {
        delivery.hear(site, &datagram)?;
    }
    Ok(delivery.tick(site)?)
}

/// Edits wait until the copy that is on its way is over: so many ticks.
fn finish(site: &mut Site, delivery: &mut Delivery) -> Result<u64, Box<dyn Error>> {
    for waited in 0..TICKS_TO_GIVE_UP {
        if !delivery.under_way() {
            return Ok(waited);
        }
        tick(site, None, delivery)?;
    }
    Err(format!("the standby is not complete after {TICKS_TO_GIVE_UP} ticks: the link loses too much").into())
}
