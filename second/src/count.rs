//! The plain search's count. It is made by searching, so it is for small jobs.

use crate::laying::{lay, row_count, Values};
use crate::rule::{Item, Job};

/// "The plain count is the sum over the whole search".
pub fn plain_count(job: &Job) -> u128 {
    tests(job, &job.body, &Values::default())
}

/// "Take the body in order. A positive literal lays every row of its predicate,
/// in order, against the values so far; each fitting row goes on to the next
/// body item."
fn tests(job: &Job, items: &[Item], values: &Values) -> u128 {
    let Some((item, later)) = items.split_first() else {
        return 0;
    };
    (0..row_count(job, item))
        .map(|row| match lay(job, item, row, values) {
            Some(values) => 1 + tests(job, later, &values),
            None => 1,
        })
        .sum()
}
