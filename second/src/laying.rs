//! One test: a row laid against the values so far.

use crate::rule::{Item, Job, Literal, Term};
use crate::variables::{Variables, VARIABLES};

/// The values so far, for the variables that have one.
#[derive(Clone, Copy, Debug, Default, PartialEq, Eq)]
pub struct Values([Option<u32>; VARIABLES]);

impl Values {
    /// The values of variables that all have one, by rising number.
    pub fn of(&self, variables: Variables) -> Vec<u32> {
        variables.rising().map(|held| self.held(held)).collect()
    }

    fn term(&self, term: Term) -> u32 {
        match term {
            Term::Number(number) => number,
            Term::Variable(variable) => self.held(variable),
        }
    }

    fn held(&self, variable: usize) -> u32 {
        self.0[variable].expect("refusals 9 and 10 leave no variable without a value")
    }

    /// The values with those of a row added, where it fits.
    fn with_row(mut self, literal: &Literal, row: &[u32]) -> Option<Self> {
        let mut cells = literal.terms.iter().zip(row);
        let fits = cells.all(|(term, cell)| match *term {
            Term::Number(number) => number == *cell,
            Term::Variable(variable) => self.0[variable].get_or_insert(*cell) == cell,
        });
        fits.then_some(self)
    }
}

/// How many rows an item has to lay; one that is no positive literal has one.
pub fn row_count(job: &Job, item: &Item) -> usize {
    match item {
        Item::Positive(literal) => job.rows(literal).len(),
        Item::Negated(_) | Item::Compared(..) => 1,
    }
}

/// The values after the item's row, where it fits.
pub fn lay(job: &Job, item: &Item, row: usize, values: &Values) -> Option<Values> {
    match item {
        Item::Positive(literal) => values.with_row(literal, &job.rows(literal)[row]),
        Item::Negated(literal) => {
            let filled: Vec<u32> = literal
                .terms
                .iter()
                .map(|&term| values.term(term))
                .collect();
            let valid = job.is_unsolved(literal) || !job.rows(literal).contains(&filled);
            valid.then_some(*values)
        }
        Item::Compared(comparison, [left, right]) => {
            let holds = comparison.holds(values.term(*left), values.term(*right));
            holds.then_some(*values)
        }
    }
}
