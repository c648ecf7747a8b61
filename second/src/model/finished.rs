use super::{check::refused, Graph, Marking};
use crate::data::{self, Ending};

/// A job is finished where nothing that is due is included.
pub fn finished(g: &Graph, m: data::Marking) -> Ending {
    let m = Marking::read(m);
    match refused(g, &[(8, m.names_beyond(g.steps))]) {
        0 => Ending { number: 0, finished: m.pending().is_empty().into() },
        number => Ending { number, finished: 0 },
    }
}
