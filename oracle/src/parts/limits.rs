//! Fresh, begin and the missing question at every length and number near their limits.

use super::{Compared, Effort};
use crate::block::length;
use crate::exports;
use crate::frame::{self, INBOX};
use crate::history::same_words;
use crate::random::Random;
use crate::sound;

fn fresh_at(words: usize, n: u32) -> Result<(), String> {
    let legal = (32..=4096).contains(&n) && n % 32 == 0 && words == length(n as usize);
    let mut block = vec![0xabcd_ef01; words];
    let number = exports::fresh(&mut block, n);
    let mut expected = vec![if legal { 0 } else { 0xabcd_ef01 }; words];
    if legal {
        expected[0] = n;
    }
    if number != !legal as u32 {
        return Err(format!("fresh of N = {n} in {words} words answers {number}"));
    }
    same_words("fresh block", &expected, &block)
}

/// Each N to beyond the largest with its own length and both neighbours, and no words at all.
pub fn fresh(_: Effort) -> Compared {
    let mut compared = 0;
    for n in (0..4200).chain([8192, 1 << 16, u32::MAX - 31, u32::MAX]) {
        let right = length(n as usize % 10_000);
        for words in [0, 1, right - 1, right, right + 1] {
            fresh_at(words, n)?;
            compared += 1;
        }
    }
    Ok(compared)
}

/// A drawn inbox: sound, or with stray bits, a large count or another length.
pub fn drawn_inbox(random: &mut Random) -> Vec<u32> {
    let mut inbox = vec![0; INBOX];
    let count = random.pick(&[0, 1, 2, 31, 32, 33, 64, 100, 4095, 4096]);
    inbox[0] = random.below(3) as u32;
    inbox[1] = count;
    for index in 0..count {
        if !random.once_in(3) {
            frame::hear(&mut inbox, index);
        }
    }
    match random.below(8) {
        0 => inbox[1] = random.pick(&[4097, 5000, u32::MAX]),
        1 if count < 4096 => frame::hear(&mut inbox, count + random.below(4096 - count as usize) as u32),
        2 => inbox.truncate(random.below(INBOX)),
        3 => inbox.push(0),
        _ => {}
    }
    inbox
}

pub fn inboxes(effort: Effort) -> Compared {
    effort.each(20_000, |random| {
        let mut inbox = drawn_inbox(random);
        let number = sound::check_inbox(&inbox);
        let expected = (number, if number == 0 { frame::missing(&inbox) } else { 0 });
        let entry = inbox.clone();
        let told = exports::missing(&inbox);
        if told != expected {
            return Err(format!("missing of {inbox:?} answers {told:?}, not {expected:?}"));
        }
        let batch = random.word();
        let begun = exports::begin(&mut inbox, batch);
        let mut after = entry;
        if after.len() == INBOX {
            after = vec![0; INBOX];
            after[0] = batch;
        }
        if begun != (after.len() != INBOX) as u32 {
            return Err(format!("begin on {} words answers {begun}", after.len()));
        }
        same_words("begun inbox", &after, &inbox)?;
        Ok(2)
    })
}
