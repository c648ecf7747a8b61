use super::{halves, Halves};
use crate::{border, race::race};
use second::peer;

/// A record of 100 entries, then 100 entries.
pub fn run() {
    race(
        "restore",
        &halves(),
        (),
        |Halves { job, first, cut, .. }, ()| border::restore(&job.graph, first, &job.journal[*cut..], job.marking),
        |Halves { job, first, cut, .. }, ()| {
            peer::record::restore(&job.graph, first, &job.journal[*cut..], job.marking)
        },
    );
}
