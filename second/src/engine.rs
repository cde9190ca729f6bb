//! The two engines and what they answer.

use crate::plain::search;
use crate::rule::Job;
use crate::walk::walk;

/// What lists the instances, under its number in a packed record.
#[derive(Clone, Copy, Debug, PartialEq, Eq)]
pub enum Engine {
    Walk = 0,
    Plain = 1,
}

#[derive(Clone, Copy, Debug, PartialEq, Eq)]
pub enum Ending {
    Complete,
    Stopped,
    Full,
}

#[derive(Clone, Copy, Debug, PartialEq, Eq)]
pub struct Answer {
    pub ending: Ending,
    pub entries: usize,
    pub tests: u32,
}

impl Engine {
    pub const BOTH: [Self; 2] = [Engine::Walk, Engine::Plain];

    pub fn number(self) -> u32 {
        self as u32
    }

    /// Lists the instances of the job's rule in the lent cells.
    pub fn list(self, job: &Job, allowance: u32, cells: &mut [u32]) -> Answer {
        match self {
            Engine::Walk => walk(job, allowance, cells),
            Engine::Plain => search(job, allowance, cells),
        }
    }
}
