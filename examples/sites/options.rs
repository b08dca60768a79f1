//! The command line.

use crate::calls::TICKS_A_SECOND;
use std::str::FromStr;

pub const USAGE: &str = "\
examples/sites/run [options]: two sites on a bad link
  --loss PERCENT     of the datagrams are lost (5)
  --repeat PERCENT   arrive twice (2)
  --delay PERCENT    are held back for up to a second (10)
  --seed N           another day, another link (1)
  --hours H          how long the day is, parts of an hour too (1)
  --change MINUTES   from one site change to the next (2)
  --no-repair        the standby does not ask for lines that are lost
  --sudden           the site that is used fails without warning, with no time to send the last changes
  --table            several loss rates, with and without repair, as comma-separated values";

#[derive(Clone)]
pub struct Options {
    pub loss: f64,
    pub repeat: f64,
    pub delay: f64,
    pub seed: u64,
    pub hours: f64,
    pub change: f64,
    pub repair: bool,
    pub sudden: bool,
    pub table: bool,
    /// Nothing is printed but what `--table` prints.
    pub quiet: bool,
}

impl Options {
    pub fn read(mut words: impl Iterator<Item = String>) -> Result<Options, String> {
        let mut o = Options::default();
        while let Some(word) = words.next() {
            match word.as_str() {
                "--loss" => o.loss = number(&word, words.next())?,
                "--repeat" => o.repeat = number(&word, words.next())?,
                "--delay" => o.delay = number(&word, words.next())?,
                "--seed" => o.seed = number(&word, words.next())?,
                "--hours" => o.hours = number(&word, words.next())?,
                "--change" => o.change = number(&word, words.next())?,
                "--no-repair" => o.repair = false,
                "--sudden" => o.sudden = true,
                "--table" => o.table = true,
                "--quiet" => o.quiet = true,
                _ => return Err(format!("what is {word}?\n{USAGE}")),
            }
        }
        o.checked()
    }

    fn default() -> Options {
        Options { loss: 5.0, repeat: 2.0, delay: 10.0, seed: 1, hours: 1.0, change: 2.0, repair: true, sudden: false, table: false, quiet: false }
    }

    /// Whether nothing may be stranded: only then is it a check.
    pub fn complete(&self) -> bool {
        self.repair && !self.sudden
    }

    fn checked(self) -> Result<Options, String> {
        if [self.loss, self.repeat, self.delay].iter().any(|rate| !(0.0..=100.0).contains(rate)) {
            return Err("--loss, --repeat and --delay are from 0 to 100".into());
        }
        if !(0.0..=24.0).contains(&self.hours) || !(0.1..=60.0 * 24.0).contains(&self.change) {
            return Err("--hours is at most 24, and --change at least 0.1".into());
        }
        Ok(self)
    }

    /// The same as words, for the other process.
    pub fn words(&self) -> Vec<String> {
        let rates = [("--loss", self.loss), ("--repeat", self.repeat), ("--delay", self.delay), ("--hours", self.hours), ("--change", self.change)];
        let mut words: Vec<String> = rates.iter().flat_map(|(name, value)| [name.to_string(), value.to_string()]).collect();
        words.extend(["--seed".into(), self.seed.to_string()]);
        let switches = [(!self.repair, "--no-repair"), (self.sudden, "--sudden"), (self.quiet, "--quiet")];
        words.extend(switches.iter().filter(|(on, _)| *on).map(|(_, name)| name.to_string()));
        words
    }

    pub fn ticks_of_day(&self) -> u64 {
        (self.hours * 3600.0 * TICKS_A_SECOND as f64).round() as u64
    }

    pub fn ticks_to_change(&self) -> u64 {
        (self.change * 60.0 * TICKS_A_SECOND as f64).round() as u64
    }
}

fn number<T: FromStr>(name: &str, word: Option<String>) -> Result<T, String> {
    word.and_then(|w| w.parse().ok()).ok_or_else(|| format!("{name} needs a number\n{USAGE}"))
}
