use crate::inputs::{named, of_steps, SIZES};
use crate::{border, race::race};
use second::peer;

pub fn run() {
    for steps in SIZES {
        let cases = of_steps(steps, |_, _, _, _| ());
        race(
            &named("check", steps),
            &cases,
            (),
            |case, ()| border::check(&case.graph),
            |case, ()| peer::check(&case.graph),
        );
    }
}
