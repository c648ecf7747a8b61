use super::take::lines;
use crate::{border, race::race};
use second::peer;

pub fn run() {
    for (name, cases) in lines("ask", "allowed") {
        race(
            &name,
            &cases,
            (),
            |case, ()| border::ask(&case.graph, case.marking, case.entry),
            |case, ()| peer::ask(&case.graph, case.marking, case.entry),
        );
    }
}
