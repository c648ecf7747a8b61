use super::bare;
use crate::border;
use crate::inputs::{job, Job};
use crate::race::{least, print, race};
use second::cases::journals::FULL;
use second::data::Ran;
use second::peer;
use std::hint::black_box;

pub fn run() {
    let long = job(FULL);
    let jobs = std::slice::from_ref(&long);
    race("run-21845", jobs, (), |job, ()| ours(job), |job, ()| peer::run(&job.graph, job.marking, &job.journal));
    race("run-21845/bare", jobs, (), |job, ()| ours(job), |job, ()| bare::run(&job.graph, job.marking, &job.journal));
    growth(&long);
}

fn ours(job: &Job) -> Ran {
    border::run(&job.graph, job.marking, &job.journal)
}

/// Nanoseconds per entry of a long journal and of an eighth of it: the same, if time grows with the entries alone.
fn growth(long: &Job) {
    let short =
        Job { graph: long.graph.clone(), marking: long.marking, journal: long.journal[..3 * (FULL / 8)].to_vec() };
    let per_entry = |time: f64, job: &Job| time / (job.journal.len() / 3) as f64;
    let run = |job: &Job| _ = black_box(ours(black_box(job)));
    let [of_long, of_short] = least(|| run(long), || run(&short));
    print("run-entry/shorter", per_entry(of_long, long), per_entry(of_short, &short));
}
