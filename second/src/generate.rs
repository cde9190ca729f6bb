//! Random sound jobs. Some choices are planted: rows are made from them, so
//! that joins succeed.

use crate::fields::{before, head, less_than, n, negated, positive, predicate, row, v, Field};
use crate::random::Random;
use crate::rule::Term;
use crate::variables::VARIABLES;

const NUMBERS: [&[u32]; 9] = [
    &[0],
    &[0, 1],
    &[1, 2, 3],
    &[0, 1, 2, 3],
    &[1, 2, 3, 4, 5, 6, 7],
    &[9, 10, 100],
    &[0, 0x8000_0000, u32::MAX],
    &[0x7FFF_FFFF, 0x8000_0000, 0x0100_0000],
    &[4_294_967_290, u32::MAX, 0, 5, 0x7FFF_FFFA],
];
const ARITIES: [u8; 10] = [0, 1, 1, 1, 1, 2, 2, 2, 3, 4];
const HEADS: [usize; 8] = [0, 0, 1, 1, 1, 2, 3, 4];
const PLANTED: [usize; 7] = [0, 1, 2, 2, 3, 3, 4];

/// The fields of a job that is accepted.
pub fn sound(random: &mut Random) -> Vec<Field> {
    let mut maker = Maker::new(random);
    let predicates = maker.predicates();
    let mut body = maker.body();
    let heads = maker.heads();
    let rows = maker.rows();
    if heads.is_empty() && body.is_empty() {
        body.push(maker.comparison());
    }
    [predicates, rows, heads, body].concat()
}

struct Maker<'a> {
    random: &'a mut Random,
    numbers: &'static [u32],
    variables: Vec<usize>,
    arities: Vec<u8>,
    /// The positive literals so far, and their variables.
    positives: Vec<(u8, Vec<Term>)>,
    bound: Vec<usize>,
    negated: Vec<(u8, Vec<Term>)>,
}

impl<'a> Maker<'a> {
    fn new(random: &'a mut Random) -> Self {
        let numbers = random.pick(&NUMBERS);
        let variables = 1 + random.below(6);
        let variables = (0..variables).map(|_| random.below(VARIABLES)).collect();
        let predicates = match random.below(50) {
            0 => 0,
            1 => 16,
            _ => 1 + random.below(4),
        };
        let arities = (0..predicates).map(|_| random.pick(&ARITIES)).collect();
        Maker {
            random,
            numbers,
            variables,
            arities,
            positives: Vec::new(),
            bound: Vec::new(),
            negated: Vec::new(),
        }
    }

    fn predicates(&mut self) -> Vec<Field> {
        let random = &mut *self.random;
        let marked = |arity: &u8| predicate(*arity, !random.one_in(3));
        self.arities.iter().map(marked).collect()
    }

    /// Rows of planted choices and other rows, in any order.
    fn rows(&mut self) -> Vec<Field> {
        if self.arities.is_empty() {
            return Vec::new();
        }
        let mut rows = Vec::new();
        for _ in 0..self.random.pick(&PLANTED) {
            self.plant(&mut rows);
        }
        for _ in 0..self.random.below(6) {
            let (predicate, arity) = self.predicate();
            let cells: Vec<u32> = (0..arity).map(|_| self.number()).collect();
            rows.push(row(predicate, &cells));
        }
        for end in (1..=rows.len()).rev() {
            rows.swap(self.random.below(end), end - 1);
        }
        rows
    }

    /// Adds the rows that make a choice valid as far as the positive literals
    /// go, now and then one too few, and seldom one twice. Now and then a row
    /// kills the choice, where its predicate is solved.
    fn plant(&mut self, rows: &mut Vec<Field>) {
        let choice: Vec<u32> = (0..VARIABLES).map(|_| self.number()).collect();
        let value = |term: &Term| match *term {
            Term::Number(number) => number,
            Term::Variable(variable) => choice[variable],
        };
        for (predicate, terms) in &self.positives {
            let cells: Vec<u32> = terms.iter().map(value).collect();
            let row = row(*predicate, &cells);
            if self.random.one_in(8) == rows.contains(&row) {
                rows.push(row);
            }
        }
        for (predicate, terms) in &self.negated {
            if self.random.one_in(3) {
                let cells: Vec<u32> = terms.iter().map(value).collect();
                rows.push(row(*predicate, &cells));
            }
        }
    }

    fn body(&mut self) -> Vec<Field> {
        let items = self.random.below(9);
        (0..items).map(|_| self.item()).collect()
    }

    fn item(&mut self) -> Field {
        match self.random.below(10) {
            _ if self.arities.is_empty() => self.comparison(),
            0..=7 => self.positive(),
            8 => self.negated(),
            _ => self.comparison(),
        }
    }

    fn positive(&mut self) -> Field {
        let (predicate, arity) = self.predicate();
        let variables = self.variables.clone();
        let terms = self.terms(arity, &variables);
        for term in &terms {
            if let Term::Variable(variable) = *term {
                self.bound.push(variable);
            }
        }
        let field = positive(predicate, &terms);
        self.positives.push((predicate, terms));
        field
    }

    fn negated(&mut self) -> Field {
        let (predicate, arity) = self.predicate();
        let terms = self.bound_terms(arity);
        let field = negated(predicate, &terms);
        self.negated.push((predicate, terms));
        field
    }

    fn comparison(&mut self) -> Field {
        let sides = self.bound_terms(2);
        if self.random.one_in(2) {
            less_than(sides[0], sides[1])
        } else {
            before(sides[0], sides[1])
        }
    }

    fn heads(&mut self) -> Vec<Field> {
        if self.arities.is_empty() {
            return Vec::new();
        }
        let count = self.random.pick(&HEADS);
        (0..count).map(|_| self.head()).collect()
    }

    fn head(&mut self) -> Field {
        let (predicate, arity) = self.predicate();
        let terms = self.bound_terms(arity);
        head(predicate, &terms)
    }

    /// A declared predicate and its arity.
    fn predicate(&mut self) -> (u8, u8) {
        let predicate = self.random.below(self.arities.len());
        (predicate as u8, self.arities[predicate])
    }

    fn bound_terms(&mut self, count: u8) -> Vec<Term> {
        let bound = self.bound.clone();
        self.terms(count, &bound)
    }

    fn terms(&mut self, count: u8, variables: &[usize]) -> Vec<Term> {
        (0..count).map(|_| self.term(variables)).collect()
    }

    fn term(&mut self, variables: &[usize]) -> Term {
        if variables.is_empty() || self.random.one_in(8) {
            n(self.number())
        } else {
            v(self.random.pick(variables))
        }
    }

    fn number(&mut self) -> u32 {
        self.random.pick(self.numbers)
    }
}
