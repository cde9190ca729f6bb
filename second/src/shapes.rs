//! Sound jobs made by hand, one for each thing that a walk may meet.

use crate::fields::{before, head, less_than, n, negated, positive, predicate, row, v, Field};

const NUMBERS: [u32; 11] = [
    0,
    1,
    5,
    9,
    10,
    0x7FFF_FFFE,
    0x7FFF_FFFF,
    0x8000_0000,
    0x8000_0001,
    4_294_967_290,
    u32::MAX,
];

pub fn jobs() -> Vec<Vec<u8>> {
    let shapes = [
        interleaved_and_repeated_rows(),
        arity_0(true),
        arity_0(false),
        repeated_variables(),
        numbers_in_rows(),
        counters_in_rows(),
        unsolved_predicates(),
        unsolved_negated_predicate(),
        constraint_over_unsolved(),
        negated_in_every_place(false),
        negated_in_every_place(true),
        join_that_fails_late(),
        mark_cleared_on_entering_again(),
        group_against_body_order(),
        group_not_through_earlier_items(),
        item_without_rows(),
        mixed_signs(),
    ];
    shapes.map(|fields| fields.concat()).to_vec()
}

/// Comparisons of every two of the numbers where an order may go wrong.
pub fn comparisons() -> Vec<Vec<u8>> {
    let mut jobs = Vec::new();
    for left in NUMBERS {
        for right in NUMBERS {
            jobs.push(less_than(n(left), n(right)));
            jobs.push(before(n(left), n(right)));
        }
    }
    jobs
}

/// More instances than the lister's cells can hold.
pub fn more_than_fits() -> Vec<u8> {
    let mut fields = vec![predicate(1, true), predicate(2, false)];
    fields.extend((0..64).map(|number| row(0, &[number])));
    fields.push(head(1, &[v(0), v(1)]));
    fields.extend([positive(0, &[v(0)]), positive(0, &[v(1)])]);
    fields.concat()
}

fn interleaved_and_repeated_rows() -> Vec<Field> {
    vec![
        predicate(1, true),
        predicate(2, false),
        row(1, &[1, 8]),
        row(0, &[2]),
        row(1, &[1, 8]),
        row(0, &[1]),
        row(1, &[2, 7]),
        row(0, &[1]),
        row(0, &[2]),
        row(1, &[2, 8]),
        head(1, &[v(0), v(1)]),
        positive(0, &[v(0)]),
        positive(1, &[v(0), v(1)]),
        positive(0, &[v(2)]),
    ]
}

fn arity_0(with_rows: bool) -> Vec<Field> {
    let rows = if with_rows { 2 } else { 0 };
    let mut fields = vec![predicate(0, false), predicate(1, true)];
    fields.extend(vec![row(0, &[]); rows]);
    fields.extend([row(1, &[3]), row(1, &[4])]);
    fields.extend([head(0, &[]), head(1, &[v(0)])]);
    fields.extend([positive(1, &[v(0)]), positive(0, &[])]);
    fields
}

fn repeated_variables() -> Vec<Field> {
    vec![
        predicate(4, true),
        row(0, &[1, 2, 1, 2]),
        row(0, &[1, 1, 1, 1]),
        row(0, &[2, 1, 2, 2]),
        row(0, &[2, 1, 2, 1]),
        row(0, &[1, 2, 1, 1]),
        head(0, &[v(5), v(5), v(15), v(5)]),
        positive(0, &[v(5), v(15), v(5), v(15)]),
        negated(0, &[v(5), v(15), v(5), v(5)]),
    ]
}

fn numbers_in_rows() -> Vec<Field> {
    let mut fields = vec![predicate(1, true), predicate(2, false)];
    fields.extend(NUMBERS.map(|number| row(0, &[number])));
    fields.push(head(1, &[v(0), v(1)]));
    fields.extend([positive(0, &[v(0)]), positive(0, &[v(1)])]);
    fields.extend([less_than(v(0), v(1)), less_than(n(9), v(1))]);
    fields
}

/// A stop at the moment when the counter starts again: each event with each
/// that it is before, and is less than too.
fn counters_in_rows() -> Vec<Field> {
    let times = [4_294_967_290, u32::MAX, 0, 5, 0x7FFF_FFFA];
    let mut fields = vec![predicate(1, true), predicate(2, false)];
    fields.extend(times.map(|time| row(0, &[time])));
    fields.push(head(1, &[v(0), v(1)]));
    fields.extend([positive(0, &[v(0)]), positive(0, &[v(1)])]);
    fields.extend([before(v(0), v(1)), positive(0, &[v(2)])]);
    fields.extend([before(v(2), v(1)), less_than(v(2), v(0))]);
    fields
}

fn unsolved_predicates() -> Vec<Field> {
    vec![
        predicate(1, false),
        predicate(1, true),
        row(0, &[1]),
        row(0, &[2]),
        row(1, &[5]),
        row(1, &[6]),
        head(1, &[v(3)]),
        positive(1, &[v(3)]),
        positive(0, &[v(1)]),
        positive(1, &[v(2)]),
    ]
}

fn unsolved_negated_predicate() -> Vec<Field> {
    vec![
        predicate(1, true),
        predicate(2, false),
        row(0, &[1]),
        row(0, &[2]),
        row(1, &[1, 2]),
        row(0, &[3]),
        positive(0, &[v(8)]),
        positive(0, &[v(4)]),
        positive(0, &[v(6)]),
        negated(1, &[v(4), v(8)]),
    ]
}

fn constraint_over_unsolved() -> Vec<Field> {
    vec![
        predicate(2, false),
        row(0, &[1, 1]),
        row(0, &[1, 2]),
        row(0, &[2, 1]),
        positive(0, &[v(0), v(1)]),
        positive(0, &[v(1), v(0)]),
        less_than(v(0), n(2)),
    ]
}

/// Negated literals between joins, each with rows that would kill choices.
fn negated_in_every_place(solved: bool) -> Vec<Field> {
    vec![
        predicate(1, true),
        predicate(0, solved),
        predicate(2, solved),
        row(0, &[1]),
        row(1, &[]),
        row(2, &[1, 2]),
        row(0, &[2]),
        row(2, &[2, 2]),
        row(0, &[3]),
        row(2, &[3, 1]),
        head(0, &[v(5)]),
        positive(0, &[v(0)]),
        negated(2, &[v(0), n(2)]),
        positive(0, &[v(5)]),
        negated(2, &[v(0), v(5)]),
        positive(0, &[v(2)]),
        negated(1, &[]),
        less_than(v(2), v(5)),
        negated(2, &[v(5), v(2)]),
    ]
}

/// The last item fits for few values of the first one.
fn join_that_fails_late() -> Vec<Field> {
    vec![
        predicate(1, true),
        predicate(2, true),
        row(0, &[1]),
        row(0, &[2]),
        row(0, &[3]),
        row(1, &[2, 3]),
        row(1, &[3, 1]),
        head(0, &[v(2)]),
        positive(0, &[v(0)]),
        positive(0, &[v(1)]),
        positive(0, &[v(2)]),
        positive(1, &[v(0), v(2)]),
        positive(1, &[v(1), v(3)]),
    ]
}

/// The third item's mark is set under the first row of the first item. Under
/// its second row the last item never fits, and a mark kept would make the walk
/// go back to the second item.
fn mark_cleared_on_entering_again() -> Vec<Field> {
    vec![
        predicate(1, true),
        predicate(2, true),
        row(0, &[1]),
        row(0, &[2]),
        row(1, &[1, 2]),
        head(0, &[v(1)]),
        positive(0, &[v(0)]),
        positive(0, &[v(1)]),
        positive(0, &[v(2)]),
        positive(1, &[v(0), v(2)]),
    ]
}

/// The second item is joined to the first one's variable through the last item
/// and then the one before it.
fn group_against_body_order() -> Vec<Field> {
    vec![
        predicate(1, true),
        predicate(1, true),
        predicate(2, true),
        row(0, &[1]),
        row(0, &[2]),
        row(1, &[5]),
        row(1, &[6]),
        row(2, &[1, 8]),
        row(2, &[2, 9]),
        row(2, &[9, 5]),
        head(1, &[v(1)]),
        positive(0, &[v(3)]),
        positive(1, &[v(1)]),
        positive(2, &[v(3), v(2)]),
        positive(2, &[v(2), v(1)]),
    ]
}

/// The less-than joins the second item to the fourth, but comes before it: when
/// the fourth item runs out, the walk goes back to the first.
fn group_not_through_earlier_items() -> Vec<Field> {
    vec![
        predicate(1, true),
        predicate(1, true),
        predicate(2, true),
        row(0, &[1]),
        row(0, &[2]),
        row(1, &[5]),
        row(1, &[6]),
        row(2, &[1, 7]),
        row(2, &[2, 5]),
        head(1, &[v(1)]),
        positive(0, &[v(0)]),
        positive(1, &[v(1)]),
        less_than(v(0), v(1)),
        positive(2, &[v(0), v(2)]),
        positive(1, &[v(2)]),
    ]
}

fn item_without_rows() -> Vec<Field> {
    vec![
        predicate(1, true),
        predicate(1, true),
        row(0, &[1]),
        row(0, &[2]),
        head(0, &[v(0)]),
        positive(0, &[v(0)]),
        positive(0, &[v(1)]),
        positive(1, &[v(0)]),
    ]
}

fn mixed_signs() -> Vec<Field> {
    vec![
        predicate(1, true),
        predicate(2, false),
        row(0, &[1]),
        row(1, &[1, 2]),
        row(0, &[2]),
        row(1, &[2, 3]),
        row(0, &[3]),
        row(1, &[3, 3]),
        head(0, &[v(1)]),
        head(1, &[v(1), n(4)]),
        positive(0, &[v(0)]),
        less_than(v(0), n(3)),
        positive(1, &[v(0), v(1)]),
        negated(0, &[n(7)]),
        positive(0, &[v(2)]),
        negated(1, &[v(2), v(1)]),
        less_than(v(0), v(1)),
    ]
}
