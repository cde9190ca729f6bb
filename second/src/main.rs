//! The independent second program: the grounder of one rule, written from the
//! document "Rules and scope of the build" and the requests that have landed, to
//! hold the proved one against.
//!
//! second list FILE                  the lister's lines for a job's raw bytes
//! second run FILE ALLOWANCE CELLS   the same with that allowance and lent cells
//! second check N SEED               N random jobs: each engine against the meaning
//! second corpus FOLDER SEED         writes the corpus: files `jobs` and `stdout`
//! second fresh N SEED FOLDER        writes N fresh jobs in the same two files
//!
//! `list` and `run` walk; with `--plain` before FILE they use the plain engine.
//!
//! Build with `cargo build --release --offline`. The same seed gives the same bytes.

mod cases;
mod check;
mod corpus;
mod count;
mod damage;
mod engine;
mod faults;
mod fields;
mod generate;
mod job;
mod jumps;
mod laying;
mod limits;
mod lines;
mod list;
mod meaning;
mod plain;
mod random;
mod rule;
mod run;
mod shapes;
mod sweeps;
#[cfg(test)]
mod tests;
mod variables;
mod walk;
#[cfg(test)]
mod witnesses;

use engine::Engine;
use run::{Packed, Run};
use std::env;
use std::error::Error;
use std::fs;
use std::path::Path;
use std::process::ExitCode;

const USAGE: &str = "second list [--plain] FILE | run [--plain] FILE ALLOWANCE CELLS | \
                     check N SEED | corpus FOLDER SEED | fresh N SEED FOLDER";

fn main() -> ExitCode {
    let words: Vec<String> = env::args().skip(1).collect();
    match command(&words.iter().map(String::as_str).collect::<Vec<_>>()) {
        Ok(()) => ExitCode::SUCCESS,
        Err(error) => {
            eprintln!("{error}");
            ExitCode::FAILURE
        }
    }
}

fn command(words: &[&str]) -> Result<(), Box<dyn Error>> {
    match *words {
        ["list", file] => print(&listed(file)?),
        ["list", "--plain", file] => print(&listed(file)?.by(Engine::Plain)),
        ["run", file, allowance, cells] => print(&run(file, allowance, cells)?),
        ["run", "--plain", file, allowance, cells] => {
            print(&run(file, allowance, cells)?.by(Engine::Plain))
        }
        ["check", jobs, seed] => return check(jobs.parse()?, seed.parse()?),
        ["corpus", folder, seed] => corpus(folder, seed.parse()?)?,
        ["fresh", jobs, seed, folder] => fresh(jobs.parse()?, seed.parse()?, folder)?,
        _ => return Err(USAGE.into()),
    }
    Ok(())
}

fn listed(file: &str) -> Result<Run, Box<dyn Error>> {
    Ok(Run::of_lister(fs::read(file)?))
}

fn run(file: &str, allowance: &str, cells: &str) -> Result<Run, Box<dyn Error>> {
    Ok(Run {
        allowance: allowance.parse()?,
        cells: cells.parse()?,
        ..listed(file)?
    })
}

fn print(run: &Run) {
    let (lines, _) = run.answer();
    print!("{lines}");
}

fn check(jobs: usize, seed: u64) -> Result<(), Box<dyn Error>> {
    let tally = check::check(jobs, seed);
    println!(
        "jobs {} refused {} compared {} differences {}",
        tally.jobs, tally.refused, tally.compared, tally.differences
    );
    if tally.differences > 0 {
        return Err("an engine differs from the meaning".into());
    }
    Ok(())
}

fn corpus(folder: &str, seed: u64) -> Result<(), Box<dyn Error>> {
    let mut packed = Packed::create(Path::new(folder))?;
    for run in corpus::runs(seed) {
        packed.write(&run)?;
    }
    println!("jobs {}", packed.finish()?);
    Ok(())
}

fn fresh(jobs: usize, seed: u64, folder: &str) -> Result<(), Box<dyn Error>> {
    let random = &mut random::Random::new(seed);
    let mut packed = Packed::create(Path::new(folder))?;
    for number in 0..jobs {
        let engine = random.pick(&Engine::BOTH);
        let run = if number % 2 == 0 {
            corpus::fresh_sound(random)
        } else {
            corpus::fresh_damaged(random)
        };
        packed.write(&run.by(engine))?;
    }
    println!("jobs {}", packed.finish()?);
    Ok(())
}
