//! The kiosk alone, on any words, beside the sorted list of document 02.

use super::met::Met;
use crate::call::Reply;
use crate::frame::Fault;
use crate::history::same_words;
use crate::kiosk::{plain, run, Call};

/// What stands behind the lent slices.
const BEHIND: [u32; 4] = [0x600d_f00d; 4];

/// Runs a call on slices behind which words stand that are not lent.
pub fn lend(kiosk: &mut Vec<u32>, inbox: &mut Vec<u32>, call: &Call) -> Result<Reply, String> {
    let lengths = (kiosk.len(), inbox.len());
    kiosk.extend(BEHIND);
    inbox.extend(BEHIND);
    let reply = run(&mut kiosk[..lengths.0], &mut inbox[..lengths.1], call);
    let kept = kiosk.ends_with(&BEHIND) && inbox.ends_with(&BEHIND);
    kiosk.truncate(lengths.0);
    inbox.truncate(lengths.1);
    if kept {
        Ok(reply)
    } else {
        Err("words behind the lent slices have changed".into())
    }
}

/// A call on copies of the words. The sorted list says what comes of it; a refusal that is known beforehand must be what it says,
/// leaves zeros in every other field, and leaves every word and the output as they were.
pub fn judge(kiosk: &[u32], inbox: &[u32], call: &Call, known: Option<Fault>, met: &mut Met) -> Result<Reply, String> {
    let (mut kiosk_told, mut inbox_told) = (kiosk.to_vec(), inbox.to_vec());
    let expected = plain::answer(&mut kiosk_told, &mut inbox_told, call);
    let (mut kiosk_after, mut inbox_after) = (kiosk.to_vec(), inbox.to_vec());
    let reply = lend(&mut kiosk_after, &mut inbox_after, call)?;
    let refusal = |Fault { number, place }| Reply { number, place, ..call.blank() };
    if reply != expected || known.is_some_and(|fault| reply != refusal(fault)) {
        return Err(format!("{call:?}: {reply:?}, not {expected:?}, known {known:?}"));
    }
    if reply.number != 0 && (kiosk_after != kiosk || inbox_after != inbox) {
        return Err(format!("{call:?}: {} with changed words", reply.number));
    }
    same_words("kiosk", &kiosk_told, &kiosk_after)?;
    same_words("inbox", &inbox_told, &inbox_after)?;
    met.alone(call, reply.number);
    Ok(reply)
}
