//! The document's cases 1 to 12, and those of requests 1/14 and 2/14.

use crate::fields::{before, head, less_than, n, negated, positive, predicate, row, v, Field};
use crate::rule::Term;
use crate::run::Run;

/// Every run that cases 1 to 12 tell of, in their order, then the roll-over
/// under both comparisons and the stops under both marks.
pub fn runs() -> Vec<Run> {
    let lister = [
        case_1(),
        case_2(),
        case_3(),
        case_4(),
        case_5(),
        case_6(),
        case_7(),
        case_10(),
        case_11(),
        case_12(),
        roll_over(before),
        roll_over(less_than),
        stops(false, true),
        stops(true, true),
        stops(false, false),
        stops(true, false),
    ];
    let mut runs: Vec<Run> = lister.into_iter().map(Run::of_lister).collect();
    runs.push(with_allowance(case_6(), 0));
    runs.push(with_allowance(case_3(), 7));
    runs.push(with_allowance(case_3(), 8));
    runs.push(case_9());
    runs.push(with_allowance(case_10(), 0));
    runs
}

pub fn with_allowance(job: Vec<u8>, allowance: u32) -> Run {
    Run {
        allowance,
        ..Run::of_lister(job)
    }
}

pub fn case_1() -> Vec<u8> {
    Vec::new()
}

/// The bytes as the document gives them.
pub fn case_2() -> Vec<u8> {
    let fields: [&[u8]; 8] = [
        b"\x01\x00\x02\x02\x01",
        b"\x01\x00\x02\x02\x00",
        b"\x02\x00\x09\x00\x00\x00\x00\x01\x00\x00\x00\x09",
        b"\x02\x00\x09\x00\x00\x00\x00\x02\x00\x00\x00\x0A",
        b"\x03\x00\x0B\x01\x01\x00\x00\x00\x00\x01\x00\x00\x00\x02",
        b"\x04\x00\x0C\x00\x00\x01\x00\x00\x00\x00\x01\x00\x00\x00\x01",
        b"\x04\x00\x0C\x00\x00\x01\x00\x00\x00\x02\x01\x00\x00\x00\x03",
        b"\x05\x00\x0A\x01\x00\x00\x00\x01\x01\x00\x00\x00\x03",
    ];
    fields.concat()
}

pub fn case_3() -> Vec<u8> {
    let (a, b, d, h) = (0, 1, 2, 3);
    [
        predicate(1, true),
        predicate(1, true),
        predicate(2, true),
        predicate(2, false),
        row(a, &[1]),
        row(a, &[2]),
        row(b, &[7]),
        row(d, &[1, 31]),
        row(d, &[2, 32]),
        head(h, &[v(1), v(2)]),
        positive(a, &[v(0)]),
        positive(b, &[v(1)]),
        positive(d, &[v(0), v(2)]),
    ]
    .concat()
}

pub fn case_4() -> Vec<u8> {
    let h = 2;
    case_4_with(&[head(h, &[v(0)])])
}

pub fn case_5() -> Vec<u8> {
    case_4_with(&[])
}

fn case_4_with(heads: &[Vec<u8>]) -> Vec<u8> {
    let (a, b) = (0, 1);
    [
        predicate(1, true),
        predicate(1, true),
        predicate(1, false),
        row(a, &[1]),
        row(a, &[2]),
        row(b, &[5]),
        row(b, &[6]),
        row(b, &[7]),
        heads.concat(),
        positive(a, &[v(0)]),
        positive(b, &[v(1)]),
    ]
    .concat()
}

pub fn case_6() -> Vec<u8> {
    [predicate(1, false), head(0, &[n(4)])].concat()
}

pub fn case_7() -> Vec<u8> {
    let (p, h) = (0, 1);
    [
        predicate(2, true),
        predicate(1, false),
        row(p, &[1, 2]),
        row(p, &[3, 3]),
        head(h, &[v(0)]),
        positive(p, &[v(0), v(0)]),
    ]
    .concat()
}

pub fn case_9() -> Run {
    Run {
        cells: 7,
        ..Run::of_lister(case_4())
    }
}

pub fn case_10() -> Vec<u8> {
    let (p, h) = (0, 1);
    [
        predicate(1, true),
        predicate(1, false),
        head(h, &[v(0)]),
        positive(p, &[v(0)]),
    ]
    .concat()
}

pub fn case_11() -> Vec<u8> {
    let (a, b, c, h) = (0, 1, 2, 3);
    [
        predicate(1, true),
        predicate(1, true),
        predicate(1, true),
        predicate(2, false),
        row(a, &[1]),
        row(a, &[2]),
        row(b, &[5]),
        row(b, &[6]),
        row(c, &[2]),
        head(h, &[v(0), v(1)]),
        positive(a, &[v(0)]),
        positive(b, &[v(1)]),
        positive(c, &[v(0)]),
    ]
    .concat()
}

pub fn case_12() -> Vec<u8> {
    let (p, q) = (0, 1);
    [
        predicate(1, true),
        predicate(1, true),
        negated(p, &[v(0)]),
        positive(q, &[v(0)]),
    ]
    .concat()
}

/// Case 2 at the moment when the counter starts again.
pub fn roll_over(comparison: fn(Term, Term) -> Field) -> Vec<u8> {
    let (event, h) = (0, 1);
    [
        predicate(2, true),
        predicate(2, false),
        row(event, &[1, 4_294_967_290]),
        row(event, &[2, 5]),
        head(h, &[v(0), v(2)]),
        positive(event, &[v(0), v(1)]),
        positive(event, &[v(2), v(3)]),
        comparison(v(1), v(3)),
    ]
    .concat()
}

/// `h(V0)`, or no head, if `e(V0)` and `not m(V0)`, with the row of m that would
/// kill V0 = 1.
pub fn stops(solved: bool, headed: bool) -> Vec<u8> {
    let (e, m, h) = (0, 1, 2);
    let heads = if headed {
        head(h, &[v(0)])
    } else {
        Field::new()
    };
    [
        predicate(1, true),
        predicate(1, solved),
        predicate(1, false),
        row(e, &[1]),
        row(e, &[2]),
        row(m, &[1]),
        heads,
        positive(e, &[v(0)]),
        negated(m, &[v(0)]),
    ]
    .concat()
}
