//! Six jobs that the document's own cases do not have: each tells a walk that
//! is wrong in one sentence apart. Predicate 0 is p, 1 is q where there is one.

use crate::fields::{head, positive, predicate, row, v, Field};
use crate::rule::Term;

/// A job over p, with these rows of p, the head's variables and the body.
fn over_p(arity: u8, rows: &[&[u32]], head_terms: &[Term], body: &[Field]) -> Vec<u8> {
    [
        predicate(arity, true),
        predicate(head_terms.len() as u8, false),
        rows.iter().flat_map(|cells| row(0, cells)).collect(),
        head(1, head_terms),
        body.concat(),
    ]
    .concat()
}

/// A walk that does not clear the mark on entering makes 22 tests.
pub fn mark_on_entering() -> Vec<u8> {
    let (p, q, h) = (0, 1, 2);
    [
        predicate(1, true),
        predicate(2, true),
        predicate(2, false),
        row(p, &[0]),
        row(p, &[1]),
        row(q, &[0, 1]),
        head(h, &[v(1), v(2)]),
        positive(p, &[v(1)]),
        positive(p, &[v(2)]),
        positive(p, &[v(0)]),
        positive(q, &[v(1), v(0)]),
    ]
    .concat()
}

/// One that takes an item that nothing fits for one that ran out later makes 6.
pub fn nothing_fits() -> Vec<u8> {
    let body = [
        positive(0, &[v(3), v(0)]),
        positive(0, &[v(1), v(1)]),
        positive(0, &[v(3), v(1)]),
    ];
    over_p(2, &[&[2, 0], &[2, 1]], &[], &body)
}

/// One that takes a clear mark for a set one makes 10.
pub fn clear_mark() -> Vec<u8> {
    let (p, q, h) = (0, 1, 2);
    [
        predicate(1, true),
        predicate(1, true),
        predicate(1, false),
        row(p, &[1]),
        row(p, &[2]),
        row(q, &[0]),
        head(h, &[v(2)]),
        positive(p, &[v(2)]),
        positive(p, &[v(1)]),
        positive(q, &[v(1)]),
    ]
    .concat()
}

/// One that takes a set mark for a clear one lists 2 entries.
pub fn set_mark() -> Vec<u8> {
    let body = [positive(0, &[v(0)]), positive(0, &[v(2)])];
    over_p(1, &[&[0], &[2]], &[v(0), v(2)], &body)
}

/// One that takes the item's own variables for its group's lists none.
pub fn own_variables() -> Vec<u8> {
    let body = [
        positive(0, &[v(3), v(2)]),
        positive(0, &[v(1), v(0)]),
        positive(0, &[v(0), v(2)]),
    ];
    over_p(2, &[&[1, 2], &[2, 0]], &[v(0)], &body)
}

/// One that follows the group only towards later items lists none.
pub fn forward_group() -> Vec<u8> {
    let body = [
        positive(0, &[v(2), v(3)]),
        positive(0, &[v(1), v(1)]),
        positive(0, &[v(0), v(3)]),
        positive(0, &[v(1), v(0)]),
    ];
    over_p(2, &[&[1, 0], &[2, 2]], &[v(0), v(1)], &body)
}
