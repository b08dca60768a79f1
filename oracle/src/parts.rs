//! The parts of a comparison. Each gives the number of cases it compared, or the first that differs.

pub mod balance;
pub mod batch;
pub mod cases;
pub mod checks;
pub mod damage;
pub mod drift;
pub mod exhaustive;
pub mod held;
pub mod histories;
pub mod kiosk;
pub mod ledger;
pub mod limits;
pub mod lines;
pub mod link;
pub mod repair;
pub mod restore;
pub mod room;
pub mod sums;
pub mod uneven;
pub mod zeros;

pub type Compared = Result<u64, String>;

/// A seed, and how many times the usual amount to run.
#[derive(Clone, Copy)]
pub struct Effort {
    pub seed: u64,
    pub times: u64,
}

impl Effort {
    /// Runs a case under many seeds; a case that differs is told with its seed.
    pub fn each(self, usual: u64, case: impl Fn(&mut crate::random::Random) -> Compared) -> Compared {
        let mut compared = 0;
        for round in 0..usual * self.times {
            let seed = self.seed.wrapping_add(round);
            compared += case(&mut crate::random::Random::new(seed)).map_err(|what| format!("seed {seed}: {what}"))?;
        }
        Ok(compared)
    }
}
