//! Jobs with one or two faults in one field, to see which one wins.

use crate::fields::{before, head, less_than, n, negated, positive, predicate, row, v, Field};

/// The ways in which each fault is made.
const WAYS: usize = 4;

/// Every fault, and every pair of faults, that a field of each tag can have.
pub fn jobs() -> Vec<Vec<u8>> {
    let mut jobs = Vec::new();
    for tag in 1..=6 {
        for first in 2..=9 {
            for second in first..=9 {
                if can_have(tag, first) && can_have(tag, second) {
                    jobs.extend((0..WAYS).map(|way| Faulty::new(tag, [first, second], way).job()));
                }
            }
        }
    }
    jobs.extend(rule_faults());
    jobs
}

fn can_have(tag: u8, fault: u32) -> bool {
    match fault {
        4 => tag <= 3,
        6 => (2..=4).contains(&tag),
        8 => tag != 2,
        9 => tag >= 4,
        _ => true,
    }
}

/// A field with two faults, which may be the same one.
struct Faulty {
    tag: u8,
    faults: [u32; 2],
    way: usize,
}

impl Faulty {
    fn new(tag: u8, faults: [u32; 2], way: usize) -> Self {
        Faulty { tag, faults, way }
    }

    fn has(&self, fault: u32) -> bool {
        self.faults.contains(&fault)
    }

    /// A sound job of the four groups around the faulty field. More predicates
    /// come with each way, so that the places differ.
    fn job(&self) -> Vec<u8> {
        let mut groups = self.sound_groups();
        let group = usize::from(self.tag).min(4) - 1;
        if self.has(5) {
            let limit = [16, 1_024, 4, 8][group];
            let filler = filler(group);
            groups[group].resize(limit, filler);
        }
        let at = if self.has(4) { 3 } else { group };
        let before = groups[..=at].concat().concat();
        let after = groups[at + 1..].concat().concat();
        let declared = groups[0].len() as u8;
        let mut field = self.field(declared);
        if self.has(2) {
            self.cut_short(&mut field, after.len());
        }
        let ends_here = field.len() < 3;
        let after = if ends_here { Vec::new() } else { after };
        [before, field, after].concat()
    }

    fn sound_groups(&self) -> [Vec<Field>; 4] {
        let mut predicates = vec![predicate(1, true), predicate(2, false)];
        predicates.resize(3 + self.way, predicate(0, true));
        [
            predicates,
            vec![row(0, &[3])],
            vec![head(0, &[v(0)])],
            vec![positive(0, &[v(0)])],
        ]
    }

    fn field(&self, declared: u8) -> Field {
        let mut field = self.sound_field();
        if self.has(9) {
            let variable = if self.tag == 4 { 9 } else { 7 };
            field[variable] = 9;
        }
        if self.has(8) {
            self.out_of_range(&mut field);
        }
        if self.has(6) {
            let predicate = if self.tag == 4 { 4 } else { 3 };
            field[predicate] = [declared, 255][self.way % 2];
        }
        if self.has(7) {
            self.wrong_length(&mut field);
        }
        if self.has(3) {
            field[0] = [0, 7, 128, 255][self.way];
        }
        field
    }

    fn sound_field(&self) -> Field {
        match self.tag {
            1 => predicate(2, true),
            2 => row(1, &[5, 6]),
            3 => head(1, &[v(0), v(0)]),
            4 if self.has(9) || self.way < 2 => negated(1, &[v(0), v(0)]),
            4 => positive(1, &[v(0), v(0)]),
            5 => less_than(v(0), v(0)),
            _ => before(v(0), v(0)),
        }
    }

    /// Spoils the arity, mark or sign, or the last term's kind or variable.
    fn out_of_range(&self, field: &mut Field) {
        let end = field.len();
        let (byte, value) = match (self.tag, self.way) {
            (1, 0) => (3, 5),
            (1, 1) => (3, 255),
            (1, 2) => (4, 2),
            (1, _) => (4, 255),
            (4, 0) => (3, 2),
            (_, 0) => (end - 5, 255),
            (_, 1) => (end - 5, 2),
            (_, 2) => (end - 1, 16),
            _ => (end - 4, 128),
        };
        field[byte] = value;
    }

    fn wrong_length(&self, field: &mut Field) {
        match self.way {
            0 => field.push(0),
            1 => field.truncate(field.len() - 1),
            2 => field.truncate(3),
            _ => field.truncate(4),
        }
        let length = field.len() as u16 - 3;
        field[1..3].copy_from_slice(&length.to_be_bytes());
    }

    /// Cuts the field down to 1 or 2 bytes or makes its length say too much.
    fn cut_short(&self, field: &mut Field, after: usize) {
        let remain = field.len() as u16 - 3 + after as u16;
        match self.way {
            0 => field.truncate(1),
            1 => field.truncate(2),
            2 => field[1..3].copy_from_slice(&(remain + 1).to_be_bytes()),
            _ => field[1..3].copy_from_slice(&u16::MAX.to_be_bytes()),
        }
    }
}

fn filler(group: usize) -> Field {
    match group {
        0 => predicate(0, true),
        1 => row(2, &[]),
        2 => head(2, &[]),
        _ => positive(2, &[]),
    }
}

/// Refusals 9, 10 and 11, alone and where two of them could be given.
fn rule_faults() -> Vec<Vec<u8>> {
    let declared = || vec![predicate(1, true), predicate(2, false), row(0, &[4])];
    let bound = positive(0, &[v(0)]);
    let rules: Vec<Vec<Field>> = vec![
        vec![],
        vec![head(0, &[v(0)])],
        vec![head(0, &[n(0)]), head(0, &[v(0)])],
        vec![head(0, &[v(0)]), bound.clone()],
        vec![head(0, &[v(0)]), head(0, &[v(1)]), bound.clone()],
        vec![head(0, &[v(1)]), head(0, &[v(2)]), bound.clone()],
        vec![head(1, &[v(0), v(1)]), bound.clone(), bound.clone()],
        vec![head(0, &[v(1)]), bound.clone(), negated(0, &[v(1)])],
        vec![head(0, &[v(1)]), bound.clone(), less_than(v(1), n(3))],
        vec![head(0, &[v(1)]), bound.clone(), positive(1, &[v(0), v(1)])],
        vec![bound.clone(), negated(1, &[v(0), v(1)])],
        vec![bound.clone(), negated(1, &[v(0), v(1)]), field_of_tag_9()],
        vec![less_than(v(0), n(7)), bound.clone()],
        vec![less_than(n(7), v(0)), bound.clone()],
        vec![less_than(n(7), n(8))],
        vec![head(0, &[v(1)]), bound.clone(), before(n(3), v(1))],
        vec![before(v(0), n(7)), bound.clone()],
        vec![before(n(7), v(0)), bound.clone()],
        vec![bound.clone(), before(v(0), n(7)), field_of_tag_7()],
        vec![negated(0, &[v(0)]), bound.clone()],
        vec![negated(0, &[n(4)])],
        vec![head(0, &[n(4)]), negated(0, &[n(5)])],
    ];
    let mut jobs: Vec<Vec<u8>> = Vec::new();
    for rule in rules {
        jobs.push([declared(), rule.clone()].concat().concat());
        let earlier = [declared(), vec![row(1, &[4, 5]); 3], rule];
        jobs.push(earlier.concat().concat());
    }
    jobs
}

fn field_of_tag_9() -> Field {
    vec![9, 0, 0]
}

/// Like a comparison in all but its tag.
fn field_of_tag_7() -> Field {
    let mut field = before(n(7), n(8));
    field[0] = 7;
    field
}
