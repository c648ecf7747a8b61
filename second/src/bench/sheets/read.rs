use super::Job;
use crate::{border, race::race};
use second::data::{Graph, Marking};
use second::peer;

pub fn run(name: &str, job: &Job) {
    race(
        name,
        &[job],
        (Graph::bare(0, 0, 0), Marking::default()),
        |job, (graph, marking)| border::read(&job.sheet, graph, marking),
        |job, (graph, marking)| peer::sheet::read(&job.sheet, graph, marking),
    );
}
