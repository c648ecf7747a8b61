use crate::inputs::{greying, named, SIZES};
use crate::{border, race::race};
use second::cases::Case;
use second::data::{Allowed, Entry};
use second::peer;

pub fn run() {
    for steps in SIZES {
        race(
            &named("allowed_to", steps),
            &greying(steps),
            (),
            |case, ()| ours(case),
            |case, ()| peer::allowed_to(&case.graph, case.marking, case.entry.person.into()),
        );
    }
    race("allowed_to/asks", &greying(64), (), |case, ()| ours(case).steps, |case, ()| by_asking(case));
}

fn ours(case: &Case) -> Allowed {
    border::allowed_to(&case.graph, case.marking, case.entry.person.into())
}

/// The same set by the box's single questions: each step in one role after the other, until it is allowed.
fn by_asking(Case { graph, marking, entry }: &Case) -> u64 {
    let allowed = |step, role| border::ask(graph, *marking, Entry { step, role, ..*entry }).number == 0;
    let steps = (0..graph.steps as u8).filter(|step| (0..graph.roles as u8).any(|role| allowed(*step, role)));
    steps.fold(0, |set, step| set | 1 << step)
}
