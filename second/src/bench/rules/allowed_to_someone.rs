use crate::inputs::{greying, named, SIZES};
use crate::{border, race::race};
use second::peer;

pub fn run() {
    for steps in SIZES {
        race(
            &named("allowed_to_someone", steps),
            &greying(steps),
            (),
            |case, ()| border::allowed_to_someone(&case.graph, case.marking),
            |case, ()| peer::allowed_to_someone(&case.graph, case.marking),
        );
    }
}
