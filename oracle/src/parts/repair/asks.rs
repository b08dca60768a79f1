//! What inboxes ask: beside the plain reading, beside their runs counted in the heard words, and index by index.

use super::met::Met;
use crate::call::{Call, Reply};
use crate::exports;
use crate::frame::{hear, heard, INBOX, LINE};
use crate::history::same_words;
use crate::parts::limits::drawn_inbox;
use crate::parts::Compared;
use crate::plain;
use crate::random::Random;
use crate::sound;
use crate::table::Table;

/// A sound inbox that has heard what is said.
pub fn inbox(batch: u32, count: u32, mut was_heard: impl FnMut(u32) -> bool) -> Vec<u32> {
    let mut inbox = vec![0; INBOX];
    (inbox[0], inbox[1]) = (batch, count);
    (0..count).filter(|&index| was_heard(index)).for_each(|index| hear(&mut inbox, index));
    inbox
}

/// Asks with no block at hand; the inbox stays as it is.
pub fn told(inbox: &[u32], start: u32, room: usize) -> Result<Reply, String> {
    let call = Call::Ask { start, room };
    let expected = match sound::check_inbox(inbox) {
        0 => plain::answer(&mut Table::fresh(32), &mut inbox.to_vec(), &call),
        number => Reply { number, ..call.blank() },
    };
    let mut words = inbox.to_vec();
    let reply = exports::run(&mut [], &mut words, &call);
    if reply != expected {
        return Err(format!("{call:?} of {inbox:x?}: {reply:?}, not {expected:?}"));
    }
    same_words("inbox", inbox, &words)?;
    Ok(reply)
}

/// The whole request, asked for at once.
pub fn whole(inbox: &[u32]) -> Result<Vec<u8>, String> {
    let mut reply = told(inbox, 0, 2048 * LINE)?;
    reply.bytes.truncate(reply.fields[0] as usize);
    if reply.fields[0] as usize != LINE * reply.fields[1] as usize {
        return Err(format!("{:?} of a whole request", reply.fields));
    }
    Ok(reply.bytes)
}

/// Which indexes are missing, 32 in a word.
fn missing_words(inbox: &[u32]) -> impl Iterator<Item = u32> + '_ {
    let below = |word: u32| match inbox[1].saturating_sub(32 * word) {
        0 => 0,
        left @ 1..=31 => (1 << left) - 1,
        _ => u32::MAX,
    };
    (0..128).map(move |word| !inbox[2 + word as usize] & below(word))
}

/// The lines that are needed: bits that begin a run; one line where none is missing, and one where the count is unknown.
pub fn needed(inbox: &[u32]) -> u32 {
    let mut before = 0;
    let mut begun = 0;
    for word in missing_words(inbox) {
        begun += (word & !(word << 1 | before)).count_ones();
        before = word >> 31;
    }
    begun.max(1)
}

fn number(digits: &[u8]) -> u32 {
    u32::from_str_radix(std::str::from_utf8(digits).expect("digits"), 16).expect("digits")
}

/// Marks what each line asks, and holds the marks to the missing indexes; no index may be asked twice.
fn covers(inbox: &[u32], request: &[u8]) -> bool {
    let mut asked = [false; 4096];
    let mut once = true;
    for line in request.chunks(LINE) {
        let (key, value) = (number(&line[18..26]) as usize, number(&line[26..34]) as usize);
        let indexes = match &line[16..18] {
            b"10" => key..key + 1,
            b"11" => key..value + 1,
            _ => 0..0,
        };
        once &= !asked[indexes.clone()].contains(&true);
        asked[indexes].fill(true);
    }
    let all = inbox[1] == 0;
    once && (0..4096).all(|index| asked[index as usize] == (all || index < inbox[1] && !heard(inbox, index)))
}

/// The request of a sound inbox is as long as it must be and asks what is missing.
pub fn judge(inbox: &[u32]) -> Result<Vec<u8>, String> {
    let request = whole(inbox)?;
    let lines = (request.len() / LINE) as u32;
    if lines != needed(inbox) || !covers(inbox, &request) {
        return Err(format!("{lines} lines ask {:?} of {inbox:x?}", String::from_utf8_lossy(&request)));
    }
    Ok(request)
}

fn count(random: &mut Random) -> u32 {
    match random.below(3) {
        0 => 1 + random.below(4096) as u32,
        1 => 1 + random.below(100) as u32,
        _ => random.pick(&[0, 1, 2, 3, 31, 32, 33, 63, 64, 65, 4095, 4096]),
    }
}

/// Some runs that were not heard; short ones and those at words' ends often.
fn gaps(random: &mut Random, count: u32) -> Vec<(u32, u32)> {
    let gap = |random: &mut Random| {
        let first = if random.once_in(3) { 32 * random.below(128) as u32 + 31 } else { random.below(4096) as u32 };
        let first = first % count.max(1);
        (first, first + random.pick(&[0, 1, 1, 2, 31, 32, 33, 100]))
    };
    (0..random.below(6)).map(|_| gap(random)).collect()
}

fn some_inbox(random: &mut Random) -> Vec<u32> {
    let (batch, count) = (random.word(), count(random));
    let gaps = gaps(random, count);
    let rate = random.pick(&[2, 3, 10, 100]);
    let any = random.below(count.max(1) as usize) as u32;
    let one = random.pick(&[0, count.saturating_sub(1), any]);
    match random.below(8) {
        0 => inbox(batch, count, |_| false),
        1 => inbox(batch, count, |_| true),
        2 => inbox(batch, count, |index| index != one),
        3 => inbox(batch, count, |index| index == one),
        4 => inbox(batch, count, |index| index % 2 == 0),
        5 => inbox(batch, count, |_| !random.once_in(rate)),
        6 => inbox(batch, count, |_| random.once_in(rate)),
        _ => inbox(batch, count, |index| gaps.iter().all(|&(first, last)| index < first || last < index)),
    }
}

fn sort(inbox: &[u32], met: &mut Met) {
    let count = inbox[1];
    let missing = |index: u32| index < count && !heard(inbox, index);
    let runs = crate::request::runs((0..count).filter(|&index| missing(index)));
    let long = |least: u32, most: u32| runs.iter().any(|(first, last)| (least..=most).contains(&(last - first + 1)));
    let all = runs == [(0, count.wrapping_sub(1))];
    met.when(count == 0, "ask: count unknown");
    met.when(count > 0 && runs.is_empty(), "ask: complete");
    met.when(long(1, 1), "ask: one index alone");
    met.when(long(2, 2), "ask: a run of two");
    met.when(long(3, 4096), "ask: a run of many");
    met.when(runs.iter().any(|(first, last)| first % 32 != 0 && first / 32 != last / 32), "ask: a run over words");
    met.when(!all && missing(0), "ask: the first index");
    met.when(!all && count > 0 && missing(count - 1), "ask: the last index");
    met.when(count > 1 && all, "ask: all of several");
    met.when(count == 4096 && all, "ask: all of 4,096");
    met.when(count == 1 && all, "ask: the only one");
    met.when(count == 4096 && !all && !runs.is_empty(), "ask: count 4,096, some");
    met.when(runs.len() == 2048, "ask: 2,048 lines");
}

/// Each request whole, and from start indexes into outputs of any length.
pub fn drawn(random: &mut Random, met: &mut Met) -> Compared {
    let inbox = some_inbox(random);
    sort(&inbox, met);
    let request = judge(&inbox)?;
    let total = (request.len() / LINE) as u32;
    for _ in 0..6 {
        let start = random.pick(&[0, 0, total / 2, total - 1, total, total + 1, 1 << 31, u32::MAX]);
        let rest = LINE * (total as usize).saturating_sub(start as usize);
        let room = random.pick(&[0, LINE - 1, LINE, LINE + 1, rest / 2, rest.saturating_sub(1), rest, rest + 1, rest + 3 * LINE]);
        let reply = told(&inbox, start, room)?;
        if reply.fields[1] != total {
            return Err(format!("total {} and {total} of one inbox", reply.fields[1]));
        }
        met.when(0 < start && start < total && room >= LINE, "ask: start within");
        met.when(start == total, "ask: start at the total");
        met.when(start > total, "ask: start past the total");
        met.when(rest > 0 && room < LINE, "ask: output of less than a line");
        met.when(LINE < room && room < rest && room % LINE != 0, "ask: output that ends within a line");
        met.when(LINE <= room && room < rest, "ask: output too short");
    }
    Ok(7)
}

/// Other lengths, counts above 4,096 and stray bits: refused, and nothing written.
pub fn refused(random: &mut Random, met: &mut Met) -> Compared {
    let inbox = drawn_inbox(random);
    let start = random.pick(&[0, 0, 1, u32::MAX]);
    let room = LINE * random.below(4);
    let reply = told(&inbox, start, room)?;
    met.when(reply.number == 1, "ask: 1");
    met.when(reply.number == 2 && inbox[1] > 4096, "ask: 2 for the count");
    met.when(reply.number == 2 && inbox[1] < 4096, "ask: 2 for a stray bit");
    Ok(1)
}
