use super::Input;
use crate::border;
use crate::floor::{Call, Table};
use crate::seen::Seen;
use crate::words::{by_crowd, Kind, ENTRY, GRAPH, OUTSIDE};
use second::cases::Case;
use second::{model, peer};

pub const CALL: Call<Input> = Call { table: Table { name: "take", answers: ANSWERS }, run };

/// Of the calls that take a step, which refuse what the question refuses.
pub const ANSWERS: &[&[Kind]] = &[&[(0, "moved")], GRAPH, &[OUTSIDE], ENTRY];

fn run(input: &Input) -> Seen {
    let &Case { ref graph, marking, entry } = &input.case;
    let right = model::take(&input.graph, marking, entry);
    let mut seen = Seen::new(by_crowd(right.number, right.waiting));
    seen.ask(graph, &right, |g| border::take(g, marking, entry), |g| peer::take(g, marking, entry));
    seen
}
