//! The corpus: by each engine every run that the document's sentences ask for,
//! then random ones; and the fresh runs of a long comparison.

use crate::engine::Engine;
use crate::fields::before;
use crate::random::Random;
use crate::run::Run;
use crate::sweeps::Whole;
use crate::{cases, damage, faults, generate, limits, shapes, sweeps};

/// How many random jobs of each kind are run.
struct RandomJobs {
    swept: usize,
    sound: usize,
    damaged: usize,
}

const WALKED: RandomJobs = RandomJobs {
    swept: 30,
    sound: 1_500,
    damaged: 2_500,
};

/// Fewer, and mostly sound: the engines share the refusals.
const SEARCHED: RandomJobs = RandomJobs {
    swept: 10,
    sound: 550,
    damaged: 250,
};

pub fn runs(seed: u64) -> Vec<Run> {
    let random = &mut Random::new(seed);
    let mut runs = runs_by(Engine::Walk, random, WALKED);
    runs.extend(runs_by(Engine::Plain, random, SEARCHED));
    let long_searches = limits::long_searches().map(Run::of_lister);
    runs.extend(long_searches.map(|run| run.by(Engine::Plain)));
    runs
}

fn runs_by(engine: Engine, random: &mut Random, jobs: RandomJobs) -> Vec<Run> {
    let swept = |job: &Vec<u8>| sweeps::runs(engine, job);
    let mut runs = cases::runs();
    runs.extend(listed_jobs().into_iter().map(Run::of_lister));
    runs.extend(cases::runs().iter().flat_map(|run| swept(&run.job)));
    runs.extend(shapes::jobs().iter().flat_map(swept));
    for _ in 0..jobs.swept {
        runs.extend(swept(&worth_sweeping(engine, random)));
    }
    runs.extend((0..jobs.sound).map(|_| fresh_sound(random)));
    runs.extend((0..jobs.damaged).map(|_| fresh_damaged(random)));
    runs.into_iter().map(|run| run.by(engine)).collect()
}

/// The jobs that are run once, as the lister runs them.
fn listed_jobs() -> Vec<Vec<u8>> {
    let mut jobs = limits::inside();
    jobs.extend(limits::outside());
    jobs.extend(limits::lengths());
    jobs.extend(faults::jobs());
    jobs.extend(shapes::comparisons());
    jobs.push(shapes::more_than_fits());
    jobs.extend(damage::each_byte(&cases::case_2()));
    jobs.extend(damage::each_byte(&cases::roll_over(before)));
    jobs
}

/// A random sound job with some entries and not too many tests.
fn worth_sweeping(engine: Engine, random: &mut Random) -> Vec<u8> {
    loop {
        let job = generate::sound(random).concat();
        let whole = Whole::by(engine, &job).expect("a sound job is accepted");
        let entries = whole.answer.entries;
        if (2..=8).contains(&entries) && whole.answer.tests <= 400 && whole.entry_cells >= 3 {
            return job;
        }
    }
}

pub fn fresh_sound(random: &mut Random) -> Run {
    let job = generate::sound(random).concat();
    fresh(random, job)
}

pub fn fresh_damaged(random: &mut Random) -> Run {
    let fields = generate::sound(random);
    let job = damage::damaged(random, fields);
    fresh(random, job)
}

fn fresh(random: &mut Random, job: Vec<u8>) -> Run {
    let allowance = match random.below(4) {
        0 => random.below(30),
        1 => random.below(500),
        _ => 20_000,
    };
    let cells = match random.below(4) {
        0 => random.below(20),
        1 => random.below(100),
        _ => 300,
    };
    Run {
        allowance: allowance as u32,
        cells: cells as u32,
        ..Run::of_lister(job)
    }
}
