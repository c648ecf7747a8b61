use super::Input;
use crate::border;
use crate::floor::{Call, Table};
use crate::seen::Seen;
use crate::words::{by_share, GRAPH, OUTSIDE, SHARES};
use second::{model, peer};

pub const CALL: Call<Input> =
    Call { table: Table { name: "allowed_to_someone", answers: &[SHARES, GRAPH, &[OUTSIDE]] }, run };

fn run(input: &Input) -> Seen {
    let (graph, marking) = (&input.case.graph, input.case.marking);
    let right = model::allowed_to_someone(&input.graph, marking);
    let mut seen = Seen::new(by_share(right, graph.steps));
    seen.ask(graph, &right, |g| border::allowed_to_someone(g, marking), |g| peer::allowed_to_someone(g, marking));
    seen
}
