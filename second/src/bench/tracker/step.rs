use super::track;
use crate::{border, inputs::full, race::race};
use second::{cases::make_moved, peer};

pub fn run() {
    race(
        "track_step",
        &full(make_moved),
        (),
        |case, ()| border::track_step(&case.graph, track(case), case.entry),
        |case, ()| peer::track_step(&case.graph, track(case), case.entry),
    );
}
