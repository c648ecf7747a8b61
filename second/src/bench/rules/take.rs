use crate::inputs::{named, of_steps, Bend, SIZES};
use crate::{border, race::race};
use second::cases::{make_moved, make_waiting, Case};
use second::peer;

pub fn run() {
    for (name, cases) in lines("take", "moved") {
        race(
            &name,
            &cases,
            (),
            |case, ()| border::take(&case.graph, case.marking, case.entry),
            |case, ()| peer::take(&case.graph, case.marking, case.entry),
        );
    }
}

/// The lines of a call that asks for a step or takes it: of each size one where every entry is allowed, by this name, and one
/// where every entry waits.
pub fn lines(call: &str, allowed: &str) -> Vec<(String, Vec<Case>)> {
    let ways: [(&str, u64, Bend); 2] = [(allowed, 0, make_moved), ("waits", 15, make_waiting)];
    let line = |steps, (how, number, bend)| {
        let (name, cases) = (named(&format!("{call}-{how}"), steps), of_steps(steps, bend));
        let right = |case: &Case| peer::ask(&case.graph, case.marking, case.entry).number == number;
        assert!(cases.iter().all(right), "{name}: not every answer is {number}");
        (name, cases)
    };
    SIZES.iter().flat_map(|steps| ways.map(|way| line(*steps, way))).collect()
}
