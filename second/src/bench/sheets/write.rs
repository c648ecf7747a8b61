use super::Job;
use crate::{border, race::race};
use second::peer;

pub fn run(name: &str, job: &Job) {
    race(
        name,
        &[job],
        vec![0; job.sheet.len()],
        |job, room| border::write(&job.graph, job.marking, room),
        |job, room| peer::sheet::write(&job.graph, job.marking, room),
    );
}
