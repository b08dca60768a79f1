//! A plain map and a plain set of heard indexes: what an accepted call must find, list and miss.

use crate::call::Reply;
use crate::frame::Frame;
use crate::kiosk::Call;
use std::collections::{BTreeMap, BTreeSet};

#[derive(Clone, Default)]
pub struct Mirror {
    pub map: BTreeMap<u32, u32>,
    count: Option<u32>,
    heard: BTreeSet<u32>,
}

fn found(value: Option<u32>) -> [u32; 2] {
    [value.is_some() as u32, value.unwrap_or(0)]
}

impl Mirror {
    pub fn begin(&mut self) {
        self.count = None;
        self.heard.clear();
    }

    /// The reply of a call that is not refused.
    pub fn answer(&mut self, call: &Call) -> Reply {
        let mut reply = call.blank();
        reply.fields = match *call {
            Call::Lookup { key } => found(self.map.get(&key).copied()),
            Call::Insert { key, value } => found(self.map.insert(key, value)),
            Call::Remove { key } => found(self.map.remove(&key)),
            Call::List { start, room } => self.list(start as usize, room, &mut reply.words),
            Call::Receive { ref line } => self.hear(&Frame::parse(line).expect("an accepted line")),
            Call::Missing => [self.missing(), 0],
        };
        reply
    }

    fn list(&self, start: usize, room: usize, out: &mut [u32]) -> [u32; 2] {
        let mut written = 0;
        for (&key, &value) in self.map.iter().skip(start) {
            if written + 4 > room {
                break;
            }
            out[written..written + 4].copy_from_slice(&[key, value, 0, 0]);
            written += 4;
        }
        [written as u32, self.map.len() as u32]
    }

    fn missing(&self) -> u32 {
        self.count.map_or(u32::MAX, |count| count - self.heard.len() as u32)
    }

    fn hear(&mut self, frame: &Frame) -> [u32; 2] {
        self.count = Some(frame.count);
        let new = self.heard.insert(frame.index);
        match frame.kind {
            1 if new => {
                self.map.insert(frame.key, frame.value);
            }
            2 if new => {
                self.map.remove(&frame.key);
            }
            _ => {}
        }
        [!new as u32, self.missing()]
    }
}
