use super::take::lines;
use crate::{border, race::race};
use second::cases::Case;
use second::data::{Kept, Marking};
use second::peer;

/// Each call starts from the case's marking, since a move alters it where it lies.
pub fn run() {
    for (name, cases) in lines("keep", "moved") {
        race(&name, &cases, Marking::default(), ours, |case, marking| {
            *marking = case.marking;
            peer::keep(&case.graph, marking, case.entry)
        });
    }
}

fn ours(case: &Case, marking: &mut Marking) -> Kept {
    *marking = case.marking;
    border::keep(&case.graph, marking, case.entry)
}
