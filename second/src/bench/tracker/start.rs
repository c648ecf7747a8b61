use crate::{border, inputs::full, race::race};
use second::peer;

pub fn run() {
    race(
        "track_start",
        &full(|_, _, _, _| ()),
        (),
        |case, ()| border::track_start(&case.graph, case.marking),
        |case, ()| peer::track_start(&case.graph, case.marking),
    );
}
