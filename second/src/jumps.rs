//! Where the jumping walk goes back to: "the greatest earlier position that
//! binds" a variable of a set that the four sentences name.

use crate::rule::{Item, Job};
use crate::variables::Variables;

pub struct Jumps {
    relevant: Variables,
    /// The variables of the item at each position.
    items: Vec<Variables>,
    /// The variables that each position binds.
    binds: Vec<Variables>,
}

impl Jumps {
    pub fn new(job: &Job) -> Self {
        Jumps {
            relevant: job.relevant(),
            items: job.body.iter().map(Item::variables).collect(),
            binds: binds(job),
        }
    }

    /// "after a whole choice: a relevant variable, at any position".
    pub fn after_whole_choice(&self) -> Option<usize> {
        self.greatest_before(self.items.len(), self.relevant)
    }

    /// "after entering an item that nothing fits: a variable of that item".
    pub fn after_nothing_fits(&self, position: usize) -> Option<usize> {
        self.greatest_before(position, self.items[position])
    }

    /// "after running out later, mark clear: a variable of the item's group".
    pub fn after_running_out_clear(&self, position: usize) -> Option<usize> {
        self.greatest_before(position, self.group(position))
    }

    /// "after running out later, mark set: a relevant variable, or a variable
    /// of any item at or after it".
    pub fn after_running_out_set(&self, position: usize) -> Option<usize> {
        let at_or_after = self.items[position..].iter().copied();
        self.greatest_before(position, at_or_after.fold(self.relevant, Variables::joined))
    }

    fn greatest_before(&self, end: usize, variables: Variables) -> Option<usize> {
        self.binds[..end]
            .iter()
            .rposition(|binds| binds.meets(variables))
    }

    /// The variables "of all items at or after it joined to it by shared
    /// variables through items at or after it, in either direction".
    fn group(&self, position: usize) -> Variables {
        let mut group = self.items[position];
        loop {
            let joined = self.items[position..]
                .iter()
                .filter(|item| item.meets(group))
                .fold(group, |group, item| group.joined(*item));
            if joined == group {
                return group;
            }
            group = joined;
        }
    }
}

/// "A position binds a variable if it is the first positive literal holding
/// it."
fn binds(job: &Job) -> Vec<Variables> {
    let mut bound = Variables::default();
    let mut binds = Vec::new();
    for item in &job.body {
        let held = match item {
            Item::Positive(_) => item.variables(),
            Item::Negated(_) | Item::Compared(..) => Variables::default(),
        };
        binds.push(held.without(bound));
        bound = bound.joined(held);
    }
    binds
}
