//! The bytes of a job's fields.

use crate::rule::Term;

pub type Field = Vec<u8>;

/// A term for a variable; the number may be out of range.
pub fn v(variable: usize) -> Term {
    Term::Variable(variable)
}

/// A term for a number.
pub fn n(number: u32) -> Term {
    Term::Number(number)
}

pub fn field(tag: u8, content: &[u8]) -> Field {
    let length = u16::try_from(content.len()).expect("a field's length has two bytes");
    [&[tag], &length.to_be_bytes()[..], content].concat()
}

pub fn predicate(arity: u8, solved: bool) -> Field {
    field(1, &[arity, u8::from(solved)])
}

pub fn row(predicate: u8, cells: &[u32]) -> Field {
    let mut content = vec![predicate];
    content.extend(cells.iter().flat_map(|cell| cell.to_be_bytes()));
    field(2, &content)
}

pub fn head(predicate: u8, terms: &[Term]) -> Field {
    field(3, &[&[predicate], &term_bytes(terms)[..]].concat())
}

pub fn positive(predicate: u8, terms: &[Term]) -> Field {
    field(4, &[&[0, predicate], &term_bytes(terms)[..]].concat())
}

pub fn negated(predicate: u8, terms: &[Term]) -> Field {
    field(4, &[&[1, predicate], &term_bytes(terms)[..]].concat())
}

pub fn less_than(left: Term, right: Term) -> Field {
    field(5, &term_bytes(&[left, right]))
}

pub fn before(left: Term, right: Term) -> Field {
    field(6, &term_bytes(&[left, right]))
}

fn term_bytes(terms: &[Term]) -> Vec<u8> {
    let bytes = |term: &Term| {
        let (kind, number) = match *term {
            Term::Number(number) => (0, number),
            Term::Variable(variable) => (1, variable as u32),
        };
        [&[kind], &number.to_be_bytes()[..]].concat()
    };
    terms.iter().flat_map(bytes).collect()
}
