//! What must have been met of requests by the end.

use std::collections::BTreeSet;

#[derive(Default)]
pub struct Met(BTreeSet<&'static str>);

const ALL: [&str; 70] = [
    "ask: complete",
    "ask: count unknown",
    "ask: one index alone",
    "ask: a run of two",
    "ask: a run of many",
    "ask: a run over words",
    "ask: the first index",
    "ask: the last index",
    "ask: all of several",
    "ask: all of 4,096",
    "ask: the only one",
    "ask: count 4,096, some",
    "ask: 2,048 lines",
    "ask: start within",
    "ask: start at the total",
    "ask: start past the total",
    "ask: output of less than a line",
    "ask: output that ends within a line",
    "ask: output too short",
    "ask: 1",
    "ask: 2 for the count",
    "ask: 2 for a stray bit",
    "resend: what ask wrote",
    "resend: what ask wrote of an unknown count",
    "resend: what ask wrote, complete",
    "resend: complete",
    "resend: neighbouring single lines",
    "resend: neighbouring runs",
    "resend: a run over the delta's end",
    "resend: past the delta alone",
    "resend: the delta's last frame",
    "resend: index 4,095",
    "resend: a frame 4,095",
    "resend: all, in one run",
    "resend: \"nothing\"",
    "resend: an empty delta, past its frame",
    "resend: start within",
    "resend: start at the total",
    "resend: start past the total",
    "resend: output of less than a line",
    "resend: output that ends within a line",
    "resend: output too short",
    "15: at the first line",
    "15: at a line between",
    "15: at the last line",
    "15: at the only line",
    "15: several faults",
    "15: a fault and another batch",
    "8: at the first line",
    "8: at a line between",
    "8: at the last line",
    "8: complete, of another batch",
    "resend: 1",
    "resend: 2",
    "resend: 3",
    "resend: 6",
    "resend: 6 where nothing is asked",
    "11: kind 10",
    "11: kind 11",
    "11: kind 12",
    "link: nothing of the batch arrived at first",
    "link: a request arrived incomplete",
    "link: no line of a request arrived",
    "link: an asked frame was lost again",
    "link: a frame found no room and was asked again",
    "link: an old request was answered again",
    "link: all asked frames arrived",
    "link: complete at once",
    "link: complete after one request",
    "link: complete after several",
];

impl Met {
    pub fn when(&mut self, met: bool, what: &'static str) {
        if met {
            assert!(ALL.contains(&what), "{what} is not asked for");
            self.0.insert(what);
        }
    }

    pub fn complete(&self) -> Result<(), String> {
        let never: Vec<&str> = ALL.into_iter().filter(|what| !self.0.contains(what)).collect();
        if never.is_empty() {
            Ok(())
        } else {
            Err(format!("never met: {}", never.join("; ")))
        }
    }
}
