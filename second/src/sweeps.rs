//! A job's runs at and around every test count and every entry's end.

use crate::engine::{Answer, Engine};
use crate::job::read;
use crate::list::entry_cells;
use crate::run::{Run, LISTER_ALLOWANCE, LISTER_CELLS};
use std::collections::BTreeSet;

/// Up to this many tests every allowance is run.
const FEW_TESTS: u32 = 40;

/// What an engine answers to a sound job, with the lister's allowance and
/// cells.
pub struct Whole {
    pub answer: Answer,
    pub entry_cells: u32,
    /// The tests made when each entry was found.
    found_at: Vec<u32>,
}

impl Whole {
    pub fn by(engine: Engine, bytes: &[u8]) -> Option<Self> {
        let job = read(bytes).ok()?;
        let mut cells = vec![0; LISTER_CELLS as usize];
        let answer = engine.list(&job, LISTER_ALLOWANCE, &mut cells);
        let entries = cells.chunks_exact(entry_cells(&job)).take(answer.entries);
        Some(Whole {
            answer,
            entry_cells: entry_cells(&job) as u32,
            found_at: entries.map(|entry| entry[0]).collect(),
        })
    }

    fn allowances(&self) -> BTreeSet<u32> {
        let tests = self.answer.tests;
        if tests <= FEW_TESTS {
            return (0..=tests + 1).chain([u32::MAX]).collect();
        }
        let counts = self.found_at.iter().chain([&tests]);
        let around = counts.flat_map(|&count| around(count));
        around.chain([0, u32::MAX]).collect()
    }

    fn cells(&self) -> BTreeSet<u32> {
        let ends = (0..=self.answer.entries as u32).map(|entries| entries * self.entry_cells);
        ends.flat_map(around).collect()
    }
}

/// The numbers at, one below and one above.
fn around(number: u32) -> impl Iterator<Item = u32> {
    number.saturating_sub(1)..=number + 1
}

/// An engine's runs of a sound job, by allowance, by cells, and where both run
/// short at once.
pub fn runs(engine: Engine, bytes: &[u8]) -> Vec<Run> {
    let Some(whole) = Whole::by(engine, bytes) else {
        return Vec::new();
    };
    let run = |allowance, cells| Run {
        engine,
        allowance,
        cells,
        job: bytes.to_vec(),
    };
    let roomy = (whole.answer.entries as u32 + 1) * whole.entry_cells;
    let mut runs = Vec::new();
    runs.extend(whole.allowances().into_iter().map(|each| run(each, roomy)));
    runs.extend(whole.cells().into_iter().map(|each| run(u32::MAX, each)));
    for (entry, found_at) in (1..).zip(&whole.found_at) {
        let one_short = entry * whole.entry_cells - 1;
        runs.extend(around(*found_at).map(|each| run(each, one_short)));
    }
    runs
}
