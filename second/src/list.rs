//! The list: entries that fill the lent cells from the start.

use crate::laying::Values;
use crate::rule::Job;
use crate::variables::Variables;
use std::collections::HashSet;

pub struct List<'a> {
    cells: &'a mut [u32],
    relevant: Variables,
    entry_cells: usize,
    /// The relevant values of each entry.
    listed: HashSet<Vec<u32>>,
}

/// "An entry has 1 + relevant variables + positive literals cells".
pub fn entry_cells(job: &Job) -> usize {
    1 + job.relevant().count() + job.positives().count()
}

impl<'a> List<'a> {
    pub fn new(job: &Job, cells: &'a mut [u32]) -> Self {
        List {
            cells,
            relevant: job.relevant(),
            entry_cells: entry_cells(job),
            listed: HashSet::new(),
        }
    }

    pub fn entries(&self) -> usize {
        self.listed.len()
    }

    /// A whole choice "is listed if its relevant values are not yet in the
    /// list". False where it is new and there is no room for it.
    pub fn add(&mut self, tests: u32, choice: &Values, support: &[u32]) -> bool {
        let relevant_values = choice.of(self.relevant);
        if self.listed.contains(&relevant_values) {
            return true;
        }
        let end = self.entries() * self.entry_cells;
        let Some(cells) = self.cells.get_mut(end..end + self.entry_cells) else {
            return false;
        };
        cells.copy_from_slice(&entry(tests, &relevant_values, support));
        self.listed.insert(relevant_values);
        true
    }
}

/// "the tests made when it was found, the relevant values by rising variable
/// number, the first support."
fn entry(tests: u32, relevant_values: &[u32], support: &[u32]) -> Vec<u32> {
    [&[tests], relevant_values, support].concat()
}
