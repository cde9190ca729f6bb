//! The lister's lines for a job.

use crate::engine::{Answer, Ending, Engine};
use crate::job::read;
use crate::list::entry_cells;
use crate::rule::Job;

/// The engine's answer to a job's bytes, in lines as case 2 shows.
pub fn lines(engine: Engine, bytes: &[u8], allowance: u32, cells: &mut [u32]) -> String {
    match read(bytes) {
        Ok(job) => {
            let answer = engine.list(&job, allowance, cells);
            accepted(&job, answer, cells)
        }
        Err(refusal) => format!("refused {} {}\n", refusal.number(), refusal.place),
    }
}

fn accepted(job: &Job, answer: Answer, cells: &[u32]) -> String {
    let ending = match answer.ending {
        Ending::Complete => "complete",
        Ending::Stopped => "stopped",
        Ending::Full => "full",
    };
    let mut lines = String::from("vars");
    for variable in job.relevant().rising() {
        lines.push_str(&format!(" {variable}"));
    }
    lines.push('\n');
    for entry in cells.chunks_exact(entry_cells(job)).take(answer.entries) {
        let cells: Vec<String> = entry.iter().map(u32::to_string).collect();
        lines.push_str(&cells.join(" "));
        lines.push('\n');
    }
    lines.push_str(&format!("{ending} {} {}\n", answer.entries, answer.tests));
    lines
}
