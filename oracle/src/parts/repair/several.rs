//! Requests at a primary where several checks fail at once, and at changed and cut blocks: 1, 2, 3, 15, 8 and 6 in this order.

use super::met::Met;
use super::plant::{apart, BREAKS, GARBLES};
use super::primary::judge;
use crate::call::{Call, Reply};
use crate::frame::LINE;
use crate::history::{Keys, Mix};
use crate::parts::uneven::{self, Lean};
use crate::parts::{checks, damage, Compared};
use crate::plain;
use crate::random::Random;
use crate::request::{complete, placed, span, text};
use crate::rules::Supply;
use crate::table::Table;
use std::cell::RefCell;
use std::collections::BTreeSet;

#[derive(Clone, Copy, PartialEq, Eq, PartialOrd, Ord, Debug)]
enum Check {
    Shape,
    Sound,
    From,
    To,
    Request,
    Batch,
    Deep,
}

use Check::*;

const CHECKS: [(Check, u32); 7] = [(Shape, 1), (Sound, 2), (From, 3), (To, 3), (Request, 15), (Batch, 8), (Deep, 6)];

type Fails = BTreeSet<Check>;

/// A request that asks index 0 and some more, or that says complete; broken and of another batch as is to be.
fn request(random: &mut Random, batch: u32, broken: bool, other: bool) -> Vec<u8> {
    if !broken && random.once_in(4) {
        let changed = if other { 1 << random.below(32) } else { 0 };
        return text(&placed(vec![complete(batch ^ changed)]));
    }
    let count = random.pick(&[1, 2, 4]);
    let mut lines = apart(random, batch, count);
    lines.insert(0, span(batch, (0, 0)));
    let mut lines = placed(lines);
    let at = 1 + random.below(count);
    if other {
        lines[at].batch ^= 1 << random.below(32);
    }
    if !broken {
        return text(&lines);
    }
    if random.once_in(2) {
        let mut request = text(&lines);
        random.pick(&GARBLES).1(random, &mut request, at);
        return request;
    }
    while !random.pick(&BREAKS).1(random, &mut lines, at) {}
    text(&lines)
}

/// Two chains of one set of keys, too deep from one to the other; from one to itself nothing has changed.
fn deep(random: &mut Random, versions: [u32; 2]) -> Table {
    let mut table = Table::fresh(random.pick(&[160, 256]));
    let keys: Vec<u32> = (0..65 + random.below(10) as u32).collect();
    let mut supply = Supply::new(table.free());
    for version in versions {
        table.versions[version as usize] = uneven::tree(random, &mut supply, &keys, Lean::Left, usize::MAX);
    }
    table
}

/// Fails what is to fail, and nothing else.
fn case(random: &mut Random, fails: &Fails, met: &mut Met) -> Result<(), String> {
    let versions @ [one, other] = [random.below(8) as u32, 8 + random.below(8) as u32];
    let table = deep(random, versions);
    let mut block = table.words();
    if fails.contains(&Sound) {
        checks::unsound(random, &mut block, other);
    }
    if fails.contains(&Shape) {
        checks::misshapen(random, &mut block);
    }
    let beyond = random.pick(&[16, 17, 31, 255, 256, 1 << 31, u32::MAX]);
    let from = if fails.contains(&From) { beyond } else { one };
    let to = match (fails.contains(&To), fails.contains(&Deep)) {
        (true, _) => random.pick(&[16, beyond]),
        (false, true) => other,
        (false, false) => one,
    };
    let batch = random.word();
    let request = request(random, batch, fails.contains(&Request), fails.contains(&Batch));
    let asks_nothing = request == text(&placed(vec![complete(batch)]));
    let call = Call::Resend { from, to, batch, request, start: random.pick(&[0, 0, 1, u32::MAX]), room: LINE * random.below(4) };
    let number = CHECKS.iter().find(|(check, _)| fails.contains(check)).map_or(0, |&(_, number)| number);
    for (refused, name) in [(1, "resend: 1"), (2, "resend: 2"), (3, "resend: 3"), (6, "resend: 6")] {
        met.when(number == refused, name);
    }
    met.when(number == 6 && asks_nothing, "resend: 6 where nothing is asked");
    let expected = match number {
        0 => plain::answer(&mut table.clone(), &mut [], &call),
        _ => Reply { number, ..call.blank() },
    };
    judge(&block, &call, expected).map(drop)
}

pub fn every_pair(random: &mut Random, met: &mut Met) -> Compared {
    let met = RefCell::new(met);
    checks::every_pair(random, &CHECKS.map(|(check, _)| check), |random, fails| case(random, fails, *met.borrow_mut()))
}

/// Any damage; what is still sound must be answered.
pub fn damaged(random: &mut Random, _: &mut Met) -> Compared {
    let mix = Mix { versions: 1 + random.below(16), keys: Keys::Below(40), illegal: 6, large: 4 };
    let whole = damage::start(random, 64, mix)?;
    for _ in 0..30 {
        let mut block = whole.clone();
        damage::damage(random, &mut block);
        let (batch, broken, other) = (random.word(), random.once_in(6), random.once_in(6));
        let request = request(random, batch, broken, other);
        let room = LINE * random.below(8);
        let call = Call::Resend { from: mix.version(random), to: mix.version(random), batch, request, start: 0, room };
        damage::compare(&block, &[], &call)?;
    }
    Ok(30)
}
