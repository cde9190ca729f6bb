//! What an accepted job holds: predicates with their rows, and the rule.

use crate::variables::Variables;

#[derive(Clone, Copy, Debug, PartialEq, Eq)]
pub enum Term {
    Number(u32),
    Variable(usize),
}

#[derive(Debug, PartialEq, Eq)]
pub struct Predicate {
    pub arity: usize,
    pub solved: bool,
    /// "A row's number counts from 0 within its predicate."
    pub rows: Vec<Vec<u32>>,
}

/// A predicate and its terms: a head, or a body literal without its sign.
#[derive(Debug, PartialEq, Eq)]
pub struct Literal {
    pub predicate: usize,
    pub terms: Vec<Term>,
}

#[derive(Clone, Copy, Debug, PartialEq, Eq)]
pub enum Comparison {
    LessThan,
    Before,
}

/// "Our millisecond counters start again at 0 after 4,294,967,295".
const COUNTER: u64 = 4_294_967_296;

impl Comparison {
    pub fn holds(self, left: u32, right: u32) -> bool {
        match self {
            Comparison::LessThan => left < right,
            Comparison::Before => {
                let ahead = (COUNTER + u64::from(right) - u64::from(left)) % COUNTER;
                (1..=2_147_483_647).contains(&ahead)
            }
        }
    }
}

#[derive(Debug, PartialEq, Eq)]
pub enum Item {
    Positive(Literal),
    Negated(Literal),
    Compared(Comparison, [Term; 2]),
}

#[derive(Debug, Default, PartialEq, Eq)]
pub struct Job {
    pub predicates: Vec<Predicate>,
    pub heads: Vec<Literal>,
    pub body: Vec<Item>,
}

pub fn variables(terms: &[Term]) -> Variables {
    let variable = |term: &Term| match *term {
        Term::Number(_) => None,
        Term::Variable(variable) => Some(variable),
    };
    terms.iter().filter_map(variable).collect()
}

impl Item {
    pub fn variables(&self) -> Variables {
        match self {
            Item::Positive(literal) | Item::Negated(literal) => variables(&literal.terms),
            Item::Compared(_, terms) => variables(terms),
        }
    }

    /// The literal of either sign, where the item is one.
    fn literal(&self) -> Option<&Literal> {
        match self {
            Item::Positive(literal) | Item::Negated(literal) => Some(literal),
            Item::Compared(..) => None,
        }
    }
}

impl Job {
    pub fn rows(&self, literal: &Literal) -> &[Vec<u32>] {
        &self.predicates[literal.predicate].rows
    }

    /// The mark of the literal's predicate says unsolved.
    pub fn is_unsolved(&self, literal: &Literal) -> bool {
        !self.predicates[literal.predicate].solved
    }

    /// The positive literals in body order.
    pub fn positives(&self) -> impl Iterator<Item = &Literal> {
        self.body.iter().filter_map(|item| match item {
            Item::Positive(literal) => Some(literal),
            Item::Negated(_) | Item::Compared(..) => None,
        })
    }

    /// "The relevant variables are those in a head and those in a body
    /// literal, of either sign, over an unsolved predicate."
    pub fn relevant(&self) -> Variables {
        let literals = self.body.iter().filter_map(Item::literal);
        let literals = literals.filter(|literal| self.is_unsolved(literal));
        self.heads
            .iter()
            .chain(literals)
            .map(|literal| variables(&literal.terms))
            .fold(Variables::default(), Variables::joined)
    }
}
