use super::check::sound;
use crate::data::{Ending, Graph, Marking};

pub fn finished(g: &Graph, m: Marking) -> Ending {
    match sound(g, m) {
        Ok(()) => Ending { number: 0, finished: (m.due & m.included == 0).into() },
        Err(refusal) => Ending { number: refusal.number(), finished: 0 },
    }
}
