//! A job with its engine, allowance and lent cells, and the packed files that
//! hold many of them beside their answers.

use crate::engine::Engine;
use crate::lines::lines;
use std::fs::{create_dir_all, File};
use std::io::{self, BufWriter, Write};
use std::path::Path;

/// What the lister runs with.
pub const LISTER_ALLOWANCE: u32 = 1_000_000;
pub const LISTER_CELLS: u32 = 4_096;

#[derive(Clone, Debug, PartialEq, Eq)]
pub struct Run {
    pub engine: Engine,
    pub allowance: u32,
    pub cells: u32,
    pub job: Vec<u8>,
}

impl Run {
    pub fn of_lister(job: Vec<u8>) -> Self {
        Run {
            engine: Engine::Walk,
            allowance: LISTER_ALLOWANCE,
            cells: LISTER_CELLS,
            job,
        }
    }

    /// The same run by this engine.
    pub fn by(self, engine: Engine) -> Self {
        Run { engine, ..self }
    }

    /// The lines of the answer and the lent cells after the run.
    pub fn answer(&self) -> (String, Vec<u32>) {
        let mut cells: Vec<u32> = (0..self.cells).map(held_before).collect();
        let lines = lines(self.engine, &self.job, self.allowance, &mut cells);
        (lines, cells)
    }
}

/// What a lent cell holds before a run, so that untouched cells are seen too.
fn held_before(cell: u32) -> u32 {
    cell.wrapping_mul(2_654_435_761).wrapping_add(12_345)
}

/// The sum of each cell times its number from 1, round 32 bits.
fn sum(cells: &[u32]) -> u32 {
    (1u32..)
        .zip(cells)
        .map(|(number, cell)| number.wrapping_mul(*cell))
        .fold(0, u32::wrapping_add)
}

/// The files `jobs` and `stdout` of one folder.
pub struct Packed {
    jobs: BufWriter<File>,
    stdout: BufWriter<File>,
    written: usize,
}

impl Packed {
    pub fn create(folder: &Path) -> io::Result<Self> {
        create_dir_all(folder)?;
        Ok(Packed {
            jobs: BufWriter::new(File::create(folder.join("jobs"))?),
            stdout: BufWriter::new(File::create(folder.join("stdout"))?),
            written: 0,
        })
    }

    pub fn write(&mut self, run: &Run) -> io::Result<()> {
        let length = u32::try_from(run.job.len()).expect("a made job's length has four bytes");
        for number in [run.allowance, run.cells, length, run.engine.number()] {
            self.jobs.write_all(&number.to_be_bytes())?;
        }
        self.jobs.write_all(&run.job)?;
        let (lines, cells) = run.answer();
        let sum = sum(&cells);
        write!(self.stdout, "# {}\n{lines}cells {sum}\n", self.written)?;
        self.written += 1;
        Ok(())
    }

    /// Writes what is still held back and tells how many jobs there are.
    pub fn finish(mut self) -> io::Result<usize> {
        self.jobs.flush()?;
        self.stdout.flush()?;
        Ok(self.written)
    }
}
