//! The document's case 13: both sides of every limit; and searches over as many
//! rows and items as the limits let in.

use crate::fields::{
    before, field, head, less_than, n, negated, positive, predicate, row, v, Field,
};
use crate::rule::Term;

/// Jobs on the good side of a limit.
pub fn inside() -> Vec<Vec<u8>> {
    vec![
        predicates(16),
        rows(1_024),
        heads(4),
        items(8),
        mixed_items(8),
        variable(15),
        arity(4),
        all_limits(),
    ]
}

/// Jobs one over a limit.
pub fn outside() -> Vec<Vec<u8>> {
    vec![
        predicates(17),
        rows(1_025),
        heads(5),
        items(9),
        mixed_items(9),
        variable(16),
        arity(5),
    ]
}

/// Jobs at and around the longest length. No sound job is that long, so those
/// that aren't too long are refused for something else.
pub fn lengths() -> Vec<Vec<u8>> {
    let padded = |length: usize| [predicate(0, true), field(9, &vec![0; length - 8])].concat();
    vec![padded(32_767), padded(32_768), padded(32_769)]
}

/// Eight literals over 1,024 rows. Where only the last row fits, a search that
/// calls itself for each row goes deepest; where every row fits, the allowance
/// ends it.
pub fn long_searches() -> [Vec<u8>; 2] {
    [literals_over_rows(|_| n(1_023)), literals_over_rows(v)]
}

fn literals_over_rows(term: fn(usize) -> Term) -> Vec<u8> {
    let mut fields = vec![predicate(1, true)];
    fields.extend((0..1_024).map(|number| row(0, &[number])));
    fields.extend((0..8).map(|item| positive(0, &[term(item)])));
    fields.concat()
}

fn predicates(count: usize) -> Vec<u8> {
    let last = count as u8 - 1;
    let mut fields = vec![predicate(0, true); count];
    fields.push(head(last, &[]));
    fields.concat()
}

fn rows(count: u32) -> Vec<u8> {
    let rows = (0..count).map(|number| row(0, &[number % 7]));
    let mut fields = vec![predicate(1, true)];
    fields.extend(rows);
    fields.push(head(0, &[v(0)]));
    fields.push(positive(0, &[v(0)]));
    fields.concat()
}

fn heads(count: usize) -> Vec<u8> {
    let mut fields = vec![predicate(1, false)];
    fields.extend(vec![head(0, &[n(3)]); count]);
    fields.concat()
}

fn items(count: usize) -> Vec<u8> {
    let mut fields = vec![predicate(1, true)];
    fields.extend((0..count).map(|variable| positive(0, &[v(variable)])));
    fields.concat()
}

/// One positive literal, then comparisons: tags 4, 5 and 6 share their limit.
fn mixed_items(count: usize) -> Vec<u8> {
    let mut fields = vec![predicate(1, true), positive(0, &[v(0)])];
    let comparisons = [less_than(v(0), n(9)), before(v(0), n(9))];
    fields.extend(comparisons.into_iter().cycle().take(count - 1));
    fields.concat()
}

fn variable(number: usize) -> Vec<u8> {
    [predicate(1, true), positive(0, &[v(number)])].concat()
}

fn arity(arity: u8) -> Vec<u8> {
    let terms: Vec<Term> = (0..usize::from(arity)).map(v).collect();
    let cells: Vec<u32> = (10..10 + u32::from(arity)).collect();
    [
        predicate(arity, false),
        row(0, &cells),
        head(0, &terms),
        positive(0, &terms),
    ]
    .concat()
}

/// 16 predicates, 1,024 rows of four cells, 4 heads and 8 items in one job.
fn all_limits() -> Vec<u8> {
    let all = |first: usize| [v(first), v(first + 1), v(first + 2), v(first + 3)];
    let mut fields: Vec<Field> = vec![predicate(4, true); 16];
    fields.extend((0..1_024u32).map(|each| row(each as u8 % 16, &[each % 3, each, 2, each % 5])));
    fields.extend([0, 4, 8, 12].map(|first| head(15, &all(first))));
    fields.extend([0, 4, 8, 12].map(|first| positive(first as u8, &all(first))));
    fields.extend([less_than(v(1), v(5)), less_than(v(5), v(9))]);
    fields.extend([negated(12, &all(0)), less_than(n(1), v(14))]);
    fields.concat()
}
