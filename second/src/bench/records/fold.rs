use crate::inputs::job;
use crate::{border, race::race};
use second::cases::journals::FULL;
use second::peer;

pub fn run() {
    race(
        "fold-21845",
        &[job(FULL)],
        [0; 65],
        |job, out| border::fold(&job.graph, &job.journal, out),
        |job, out| peer::record::fold(&job.graph, &job.journal, out),
    );
}
