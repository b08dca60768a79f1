//! A request as it arrives: its lines are datagrams too, so some are lost, come twice or in another order.
//! The standby says the same again until it is answered.

use crate::link::Line;
use std::collections::BTreeMap;

/// The lines of requests that are not whole yet: by the request's count, then by the line's index, both as digits.
pub struct Gathered {
    requests: BTreeMap<[u8; 4], BTreeMap<[u8; 4], Line>>,
}

impl Gathered {
    pub fn none() -> Gathered {
        Gathered { requests: BTreeMap::new() }
    }

    /// Takes a line in; the request, once every line of it is there. Two requests of one count may be mixed: whether it is a proper one is the table's to say.
    pub fn add(&mut self, line: &Line) -> Option<Vec<Line>> {
        let count: [u8; 4] = line[12..16].try_into().ok()?;
        let lines = self.requests.entry(count).or_default();
        lines.insert(line[8..12].try_into().ok()?, *line);
        let wanted = usize::from_str_radix(std::str::from_utf8(&count).ok()?, 16).ok()?;
        if lines.len() < wanted {
            return None;
        }
        std::mem::take(&mut self.requests).remove(&count).map(|lines| lines.into_values().collect())
    }
}

/// Whether a datagram is a line of a request of this batch.
pub fn asks(datagram: &[u8], batch: u32) -> Option<Line> {
    let line: Line = datagram.try_into().ok()?;
    let kind = matches!(&line[16..18], b"10" | b"11" | b"12");
    (kind && line[..8] == *format!("{batch:08x}").as_bytes()).then_some(line)
}
