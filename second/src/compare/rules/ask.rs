use super::Input;
use crate::border;
use crate::floor::{Call, Table};
use crate::seen::Seen;
use crate::words::{by_crowd, ENTRY, GRAPH, OUTSIDE};
use second::cases::Case;
use second::{model, peer};

pub const CALL: Call<Input> =
    Call { table: Table { name: "ask", answers: &[&[(0, "allowed")], GRAPH, &[OUTSIDE], ENTRY] }, run };

fn run(input: &Input) -> Seen {
    let &Case { ref graph, marking, entry } = &input.case;
    let right = model::ask(&input.graph, marking, entry);
    let mut seen = Seen::new(by_crowd(right.number, right.waiting));
    seen.ask(graph, &right, |g| border::ask(g, marking, entry), |g| peer::ask(g, marking, entry));
    seen
}
