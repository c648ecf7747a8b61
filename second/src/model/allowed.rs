use super::{ask::ask_entry, check::refused, graph::stored, Graph, Marking};
use crate::data::{self, Allowed, Entry};

/// The steps that the person may take.
pub fn allowed_to(g: &Graph, m: data::Marking, person: u64) -> Allowed {
    let m = Marking::read(m);
    match refused(g, &[(8, m.names_beyond(g.steps)), (11, person >= g.people)]) {
        0 => steps(g, |step| allowed_in_some_role(g, &m, person, step)),
        number => Allowed { number, steps: 0 },
    }
}

/// The steps that some person may take.
pub fn allowed_to_someone(g: &Graph, m: data::Marking) -> Allowed {
    let m = Marking::read(m);
    match refused(g, &[(8, m.names_beyond(g.steps))]) {
        0 => steps(g, |step| (0..g.people).any(|person| allowed_in_some_role(g, &m, person, step))),
        number => Allowed { number, steps: 0 },
    }
}

fn steps(g: &Graph, is_allowed: impl Fn(&u64) -> bool) -> Allowed {
    Allowed { number: 0, steps: stored(&(0..g.steps).filter(is_allowed).collect()) }
}

fn allowed_in_some_role(g: &Graph, m: &Marking, person: u64, step: &u64) -> bool {
    (0..g.roles).any(|role| {
        let [person, step, role] = [person, *step, role].map(|number| u8::try_from(number).expect("below its count"));
        ask_entry(g, m, Entry { person, step, role }).number == 0
    })
}
