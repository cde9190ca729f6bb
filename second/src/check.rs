//! Each engine held against the meaning, on random jobs.

use crate::count::plain_count;
use crate::engine::{Answer, Ending, Engine};
use crate::job::read;
use crate::list::entry_cells;
use crate::meaning::{self, Instance};
use crate::random::Random;
use crate::rule::Job;
use crate::{damage, generate};

#[derive(Default)]
pub struct Tally {
    pub jobs: usize,
    pub refused: usize,
    pub compared: usize,
    pub differences: usize,
}

/// Every second job is damaged; a sound one that is refused is a difference.
pub fn check(jobs: usize, seed: u64) -> Tally {
    let random = &mut Random::new(seed);
    let mut tally = Tally::default();
    for number in 0..jobs {
        let fields = generate::sound(random);
        let sound = number % 2 == 0;
        let bytes = if sound {
            fields.concat()
        } else {
            damage::damaged(random, fields)
        };
        tally.jobs += 1;
        let difference = match read(&bytes) {
            Ok(job) => tally.held_against_meaning(&job, random),
            Err(_) => {
                tally.refused += 1;
                sound.then(|| String::from("a sound job is refused"))
            }
        };
        if let Some(difference) = difference {
            tally.differences += 1;
            eprintln!("{difference}: {bytes:02x?}");
        }
    }
    tally
}

impl Tally {
    fn held_against_meaning(&mut self, job: &Job, random: &mut Random) -> Option<String> {
        let list = meaning::list(job)?;
        self.compared += 1;
        Engine::BOTH.into_iter().find_map(|engine| {
            let difference = difference(engine, job, &list, random)?;
            Some(format!("{engine:?}: {difference}"))
        })
    }
}

/// The list that the meaning asks for, as the engine leaves it in cells.
struct Listed<'a> {
    engine: Engine,
    job: &'a Job,
    entry_cells: usize,
    cells: Vec<u32>,
    tests: u32,
}

fn difference(
    engine: Engine,
    job: &Job,
    list: &[Instance],
    random: &mut Random,
) -> Option<&'static str> {
    let entry_cells = entry_cells(job);
    let mut cells = vec![0; list.len() * entry_cells];
    let answer = engine.list(job, u32::MAX, &mut cells);
    if answer.ending != Ending::Complete || answer.entries != list.len() {
        return Some("another number of instances is listed");
    }
    let mut entries = cells.chunks_exact(entry_cells).zip(list);
    if !entries.all(|(entry, instance)| is_entry_of(entry, instance)) {
        return Some("other entries are listed");
    }
    if !may_make(engine, answer.tests.into(), plain_count(job)) {
        return Some("the tests go against the plain count");
    }
    let listed = Listed {
        engine,
        job,
        entry_cells,
        cells,
        tests: answer.tests,
    };
    listed
        .stopped_difference(random)
        .or_else(|| listed.full_difference(random))
}

/// The walk makes the plain search's tests "but skips"; the plain engine makes
/// all of them.
fn may_make(engine: Engine, tests: u128, plain_count: u128) -> bool {
    match engine {
        Engine::Walk => tests <= plain_count,
        Engine::Plain => tests == plain_count,
    }
}

fn is_entry_of(entry: &[u32], instance: &Instance) -> bool {
    let support = instance.first_support.iter().map(|&row| row as u32);
    let expected = instance.values.iter().copied().chain(support);
    entry[1..].iter().copied().eq(expected)
}

impl Listed<'_> {
    /// A smaller allowance gives the entries found within it.
    fn stopped_difference(&self, random: &mut Random) -> Option<&'static str> {
        if self.tests == 0 {
            return None;
        }
        let allowance = random.below(self.tests as usize) as u32;
        let entries = self.cells.chunks_exact(self.entry_cells);
        let expected = Answer {
            ending: Ending::Stopped,
            entries: entries.take_while(|entry| entry[0] <= allowance).count(),
            tests: allowance,
        };
        let same = self.is_beginning(allowance, self.cells.len(), expected);
        (!same).then_some("a stopped list is no beginning")
    }

    /// One cell too few for some entry gives the entries before it.
    fn full_difference(&self, random: &mut Random) -> Option<&'static str> {
        let entries = self.cells.len() / self.entry_cells;
        if entries == 0 {
            return None;
        }
        let before = random.below(entries);
        let expected = Answer {
            ending: Ending::Full,
            entries: before,
            tests: self.cells[before * self.entry_cells],
        };
        let lent = (before + 1) * self.entry_cells - 1;
        let same = self.is_beginning(u32::MAX, lent, expected);
        (!same).then_some("a full list is no beginning")
    }

    /// Whether a shorter run gives this answer, its list begins the whole one,
    /// and the cells after it keep what they held.
    fn is_beginning(&self, allowance: u32, lent: usize, expected: Answer) -> bool {
        const HELD: u32 = 0xABCD_EF01;
        let mut cells = vec![HELD; lent];
        let answer = self.engine.list(self.job, allowance, &mut cells);
        let (written, later) = cells.split_at(expected.entries * self.entry_cells);
        answer == expected
            && self.cells.starts_with(written)
            && later.iter().all(|cell| *cell == HELD)
    }
}
