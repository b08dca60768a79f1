//! Two sites on a bad link: a day of prepaid calls at the site that is used, a standby that hears of every change, and a site change every so often.
//! Printed is what each site change strands.

mod books;
mod calls;
mod chance;
mod change;
mod control;
mod counts;
mod day;
mod delivery;
#[allow(dead_code)] // the wrapper has calls that are not made here
#[path = "../ksk.rs"]
mod ksk;
mod link;
mod options;
mod primary;
mod report;
mod request;
mod shift;
mod site;
mod standby;
mod table;

use options::Options;
use std::error::Error;
use std::process::ExitCode;
use std::time::Instant;

fn main() -> ExitCode {
    match start() {
        Ok(true) => ExitCode::SUCCESS,
        Ok(false) => ExitCode::FAILURE,
        Err(e) => {
            eprintln!("{e}");
            ExitCode::from(2)
        }
    }
}

/// `standby PORT` is how the first process starts the second. Whether every check has passed.
fn start() -> Result<bool, Box<dyn Error>> {
    let mut words = std::env::args().skip(1).peekable();
    if words.next_if_eq("standby").is_some() {
        let port = words.next().ok_or("standby needs a port")?.parse()?;
        day::second(&Options::read(words)?, port)?;
        return Ok(true);
    }
    if words.next_if_eq("--help").is_some() {
        println!("{}", options::USAGE);
        return Ok(true);
    }
    let options = Options::read(words)?;
    if options.table {
        return table::run(&options);
    }
    let begun = Instant::now();
    report::begin(&options);
    let counts = day::run(&options)?;
    report::end(&counts, &options, begun.elapsed());
    Ok(counts.failed == 0)
}
