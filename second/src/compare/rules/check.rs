use super::Input;
use crate::border;
use crate::floor::{Call, Table};
use crate::seen::Seen;
use crate::words::{Kind, BEYOND, COUNTS, GRAPH};
use second::data::Graph;
use second::{model, peer};

/// Where the graph would not have the number but for its actions, that is told apart.
const ACTIONS: &[Kind] = &[(256 + COUNTS.0, "  the actions alone"), (256 + BEYOND.0, "  the actions of steps alone")];

pub const CALL: Call<Input> =
    Call { table: Table { name: "check", answers: &[&[(0, "well-formed")], GRAPH, ACTIONS] }, run };

fn run(input: &Input) -> Seen {
    let right = model::check(&input.graph);
    let graph = input.case.graph.clone();
    let else_right = match right {
        2 => peer::check(&Graph { actions: 64, ..graph }),
        4 => peer::check(&Graph { labels: [0; 64], ..graph }),
        number => number,
    };
    let mut seen = Seen::new(right + 256 * u64::from(else_right != right));
    seen.ask(&input.case.graph, &right, |g| border::check(g), peer::check);
    seen
}
