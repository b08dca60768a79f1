//! One question, and its answer beside every other way to it.

use super::kinds::sort;
use super::met::Met;
use crate::call::{Call, Reply};
use crate::frame::{Frame, LINE};
use crate::history::Trio;

/// Asks on all sides: the plain walk, the original's entries, every word of the block; then the frames. Gives the number and
/// the answer.
pub fn ask(trio: &mut Trio, from: u32, to: u32, met: &mut Met) -> Result<[u32; 2], String> {
    let told = trio.step(&Call::Same { from, to })?;
    let framed = trio.step(&Call::Frames { from, to, batch: 7, start: 0, room: LINE })?;
    let answer = [told.number, told.fields[0]];
    if !agree(answer, &framed) {
        return Err(format!("from {from} to {to}: {answer:?} beside the frames {framed:?}"));
    }
    let [from, to] = [from, to].map(|version| &trio.table.versions[version as usize]);
    sort(from, to, answer, met);
    Ok(answer)
}

/// Yes exactly where the delta is the single frame "nothing changed", no where it is another, and no or 6 where it is too deep.
/// Equal entries are walked alike both ways, since of two trees of one size both are opened; so a yes is never beside a 6.
fn agree(answer: [u32; 2], framed: &Reply) -> bool {
    match framed.number {
        0 => {
            let first = Frame::parse(&framed.bytes[..LINE]).expect("the first frame is written");
            answer == [0, (framed.fields[1] == 1 && first.kind == 0) as u32]
        }
        number => answer == [0, 0] || answer == [number, 0],
    }
}
