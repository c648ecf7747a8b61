use crate::inputs::{named, of_steps, SIZES};
use crate::{border, race::race};
use second::peer;

pub fn run() {
    for steps in SIZES {
        let cases = of_steps(steps, |_, _, _, _| ());
        race(
            &named("finished", steps),
            &cases,
            (),
            |case, ()| border::finished(&case.graph, case.marking),
            |case, ()| peer::finished(&case.graph, case.marking),
        );
    }
}
