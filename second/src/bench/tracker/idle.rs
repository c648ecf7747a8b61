use super::track;
use crate::{border, inputs::full, race::race};
use second::peer;

pub fn run() {
    race(
        "track_idle",
        &full(|_, _, _, _| ()),
        (),
        |case, ()| border::track_idle(&case.graph, track(case)),
        |case, ()| peer::track_idle(&case.graph, track(case)),
    );
}
