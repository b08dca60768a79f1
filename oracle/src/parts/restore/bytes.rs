//! Each byte of a short text changed to every other, and each length that it may be cut to.

use super::asked::{only_read, refusal};
use super::met::Met;
use super::planted::entries;
use crate::call::{Call, Reply};
use crate::exports;
use crate::history::same_words;
use crate::parts::{uneven, Compared};
use crate::plain;
use crate::random::Random;
use crate::restore::{self, Fault, Text, BYTES};
use crate::table::Table;

/// A small block and a version in it.
struct Site {
    table: Table,
    block: Vec<u32>,
    version: u32,
}

impl Site {
    fn drawn(random: &mut Random) -> Site {
        let table = uneven::table(random, 32, 3, 20);
        Site { block: table.words(), table, version: random.below(4) as u32 }
    }

    /// On copies of the words; a fault that is known without reading must be the plain reading's too.
    fn compare(&self, text: &[u8], known: Option<Fault>) -> Result<(), String> {
        let call = Call::Restore { version: self.version, text: Text(text.to_vec()) };
        let (mut table, mut block, mut again) = (self.table.clone(), self.block.clone(), self.block.clone());
        let expected = plain::answer(&mut table, &mut [], &call);
        let reply = exports::run(&mut block, &mut [], &call);
        let told = |reply: &Reply| format!("text {:?}: {reply:?}, not {expected:?}", String::from_utf8_lossy(text));
        if reply != expected || known.is_some_and(|fault| reply != refusal(fault)) {
            return Err(told(&reply));
        }
        same_words("block", if reply.number == 0 { table.words() } else { self.block.clone() }.as_slice(), &block)?;
        only_read(&mut again, self.version, text, &reply)?;
        same_words("block of the call whose text goes on", &block, &again)
    }
}

fn allowed(place: usize, byte: u8) -> bool {
    match place {
        16 => byte == b'\n',
        _ => matches!(byte, b'0'..=b'9' | b'a'..=b'f'),
    }
}

pub fn each(random: &mut Random, met: &mut Met) -> Compared {
    let (site, count) = (Site::drawn(random), 1 + random.below(4));
    let mut text = restore::lines(&entries(random, count));
    for at in 0..text.len() {
        let (kept, line, place) = (text[at], (at / BYTES) as u64, at % BYTES);
        for byte in 0..=255 {
            text[at] = byte;
            let fault = (!allowed(place, byte)).then_some(Fault { number: 17, line });
            site.compare(&text, fault)?;
        }
        met.place(place);
        text[at] = kept;
    }
    for bytes in 0..text.len() {
        let (whole, rest) = (bytes / BYTES, bytes % BYTES);
        let fault = (rest != 0).then_some(Fault { number: 17, line: whole as u64 });
        site.compare(&text[..bytes], fault)?;
        (rest != 0).then(|| met.short(rest));
    }
    Ok(257 * text.len() as u64)
}
