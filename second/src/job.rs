//! From bytes to a refusal or the job: the sections "The job's fields" and
//! "Refusals and their order", with tag 6 of request 1/14.

use crate::rule::{variables, Comparison, Item, Job, Literal, Predicate, Term};
use crate::variables::{Variables, VARIABLES};

const LONGEST_JOB: usize = 32_768;
const HIGHEST_ARITY: u8 = 4;
const TAG_AND_LENGTH: usize = 3;
const CELL_BYTES: usize = 4;
const TERM_BYTES: usize = 5;

/// How many fields of each group a job may hold, groups from 1.
const LIMITS: [usize; 4] = [16, 1_024, 4, 8];

/// What is wrong, under its number in the table of refusals.
#[derive(Clone, Copy, Debug, PartialEq, Eq)]
pub enum Fault {
    JobTooLong = 1,
    CutShort = 2,
    UnknownTag = 3,
    LowerGroup = 4,
    OverLimit = 5,
    NotDeclared = 6,
    WrongLength = 7,
    OutOfRange = 8,
    NotBoundEarlier = 9,
    HeadNotBound = 10,
    NoRule = 11,
}

#[derive(Clone, Copy, Debug, PartialEq, Eq)]
pub struct Refusal {
    pub fault: Fault,
    pub place: usize,
}

impl Fault {
    fn at(self, place: usize) -> Refusal {
        Refusal { fault: self, place }
    }
}

impl Refusal {
    pub fn number(self) -> u32 {
        self.fault as u32
    }
}

/// "Reading goes field by field over the job's bytes."
pub fn read(bytes: &[u8]) -> Result<Job, Refusal> {
    if bytes.len() > LONGEST_JOB {
        return Err(Fault::JobTooLong.at(0));
    }
    let mut reading = Reading::default();
    let mut place = 0;
    while place < bytes.len() {
        let refused = |fault: Fault| fault.at(place);
        let (tag, content) = split(&bytes[place..]).map_err(refused)?;
        reading.field(place, tag, content).map_err(refused)?;
        place += TAG_AND_LENGTH + content.len();
    }
    reading.finish(place)
}

/// "A field is a one-byte tag, a two-byte length and that many bytes."
fn split(rest: &[u8]) -> Result<(u8, &[u8]), Fault> {
    let [tag, high, low, after @ ..] = rest else {
        return Err(Fault::CutShort);
    };
    let length = usize::from(u16::from_be_bytes([*high, *low]));
    let content = after.get(..length).ok_or(Fault::CutShort)?;
    Ok((*tag, content))
}

fn group(tag: u8) -> Option<usize> {
    match tag {
        1..=3 => Some(usize::from(tag)),
        4..=6 => Some(4),
        _ => None,
    }
}

/// The job as far as it is read, and what judging the next field asks for.
#[derive(Default)]
struct Reading {
    job: Job,
    group: usize,
    counts: [usize; 4],
    head_places: Vec<usize>,
    /// The variables of the positive literals so far.
    bound: Variables,
}

impl Reading {
    /// Judges in the order 3, 4, 5, then what the tag's own fields ask for.
    fn field(&mut self, place: usize, tag: u8, content: &[u8]) -> Result<(), Fault> {
        let group = group(tag).ok_or(Fault::UnknownTag)?;
        if group < self.group {
            return Err(Fault::LowerGroup);
        }
        if self.counts[group - 1] == LIMITS[group - 1] {
            return Err(Fault::OverLimit);
        }
        self.group = group;
        self.counts[group - 1] += 1;
        match tag {
            1 => self.predicate(content),
            2 => self.row(content),
            3 => self.head(place, content),
            4 => self.literal(content),
            5 => self.compared(Comparison::LessThan, content),
            _ => self.compared(Comparison::Before, content),
        }
    }

    fn predicate(&mut self, content: &[u8]) -> Result<(), Fault> {
        let &[arity, mark] = content else {
            return Err(Fault::WrongLength);
        };
        if arity > HIGHEST_ARITY || mark > 1 {
            return Err(Fault::OutOfRange);
        }
        self.job.predicates.push(Predicate {
            arity: usize::from(arity),
            solved: mark == 1,
            rows: Vec::new(),
        });
        Ok(())
    }

    fn row(&mut self, content: &[u8]) -> Result<(), Fault> {
        let (predicate, cells) = self.declared(content, CELL_BYTES)?;
        let row = cells.chunks_exact(CELL_BYTES).map(number).collect();
        self.job.predicates[predicate].rows.push(row);
        Ok(())
    }

    fn head(&mut self, place: usize, content: &[u8]) -> Result<(), Fault> {
        let (predicate, bytes) = self.declared(content, TERM_BYTES)?;
        let terms = terms(bytes)?;
        self.job.heads.push(Literal { predicate, terms });
        self.head_places.push(place);
        Ok(())
    }

    fn literal(&mut self, content: &[u8]) -> Result<(), Fault> {
        let (sign, after) = content.split_first().ok_or(Fault::WrongLength)?;
        let (predicate, bytes) = self.declared(after, TERM_BYTES)?;
        if *sign > 1 {
            return Err(Fault::OutOfRange);
        }
        let terms = terms(bytes)?;
        let item = if *sign == 0 {
            self.bound = self.bound.joined(variables(&terms));
            Item::Positive(Literal { predicate, terms })
        } else {
            self.bound_earlier(&terms)?;
            Item::Negated(Literal { predicate, terms })
        };
        self.job.body.push(item);
        Ok(())
    }

    fn compared(&mut self, comparison: Comparison, content: &[u8]) -> Result<(), Fault> {
        if content.len() != 2 * TERM_BYTES {
            return Err(Fault::WrongLength);
        }
        let sides = [term(&content[..TERM_BYTES])?, term(&content[TERM_BYTES..])?];
        self.bound_earlier(&sides)?;
        self.job.body.push(Item::Compared(comparison, sides));
        Ok(())
    }

    /// Judges a predicate's byte and what follows it, in the order "7 where the
    /// length can't hold the bytes up to the predicate's, 6, 7".
    fn declared<'a>(&self, bytes: &'a [u8], each: usize) -> Result<(usize, &'a [u8]), Fault> {
        let (&predicate, after) = bytes.split_first().ok_or(Fault::WrongLength)?;
        let predicate = usize::from(predicate);
        let declared = self.job.predicates.get(predicate);
        let arity = declared.ok_or(Fault::NotDeclared)?.arity;
        if after.len() != arity * each {
            return Err(Fault::WrongLength);
        }
        Ok((predicate, after))
    }

    fn bound_earlier(&self, terms: &[Term]) -> Result<(), Fault> {
        if variables(terms).is_within(self.bound) {
            Ok(())
        } else {
            Err(Fault::NotBoundEarlier)
        }
    }

    /// "10 and 11 come after the last field."
    fn finish(self, job_length: usize) -> Result<Job, Refusal> {
        for (head, place) in self.job.heads.iter().zip(self.head_places) {
            if !variables(&head.terms).is_within(self.bound) {
                return Err(Fault::HeadNotBound.at(place));
            }
        }
        if self.job.heads.is_empty() && self.job.body.is_empty() {
            return Err(Fault::NoRule.at(job_length));
        }
        Ok(self.job)
    }
}

fn number(bytes: &[u8]) -> u32 {
    bytes
        .iter()
        .fold(0, |number, byte| number << 8 | u32::from(*byte))
}

fn terms(bytes: &[u8]) -> Result<Vec<Term>, Fault> {
    bytes.chunks_exact(TERM_BYTES).map(term).collect()
}

/// "A term is a kind byte (0 number, 1 variable) and 4 bytes".
fn term(bytes: &[u8]) -> Result<Term, Fault> {
    let number = number(&bytes[1..]);
    match bytes[0] {
        0 => Ok(Term::Number(number)),
        1 if number < VARIABLES as u32 => Ok(Term::Variable(number as usize)),
        _ => Err(Fault::OutOfRange),
    }
}
