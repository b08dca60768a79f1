//! Several loss rates, with and without repair, as comma-separated values for a picture.

use crate::day;
use crate::options::Options;
use crate::report::seconds;
use std::error::Error;

const LOSS: [f64; 8] = [0.0, 1.0, 2.0, 5.0, 10.0, 20.0, 30.0, 50.0];

const HEADER: &str = "loss_percent,repair,site_changes,stranded_minutes,stranded_calls,missing_minutes,missing_calls,\
    edits_waited_seconds,lines,lines_sent_again,datagrams_lost,passed,failed";

/// Whether every check of every run has passed.
pub fn run(options: &Options) -> Result<bool, Box<dyn Error>> {
    println!("{HEADER}");
    let mut failed = 0;
    for loss in LOSS {
        for repair in [true, false] {
            let c = day::run(&Options { loss, repair, quiet: true, ..options.clone() })?;
            let name = if repair { "on" } else { "off" };
            print!("{loss},{name},{},{},{},{},{}", c.changes, c.stranded_minutes, c.stranded_calls, c.missing_minutes, c.missing_calls);
            println!(",{:.1},{},{},{},{},{}", seconds(c.waited), c.lines, c.sent_again, c.lost, c.passed, c.failed);
            failed += c.failed;
        }
    }
    Ok(failed == 0)
}
