use super::{halves, Halves};
use crate::{border, race::race};
use second::peer;

pub fn run() {
    race(
        "apply",
        &halves(),
        (),
        |Halves { job, first, .. }, ()| border::apply(64, first, job.marking),
        |Halves { job, first, .. }, ()| peer::record::apply(64, first, job.marking),
    );
}
