use super::Input;
use crate::border;
use crate::floor::{Call, Table};
use crate::seen::Seen;
use crate::words::{GRAPH, OUTSIDE};
use second::{model, peer};

pub const CALL: Call<Input> = Call {
    table: Table { name: "finished", answers: &[&[(0, "not finished"), (256, "finished")], GRAPH, &[OUTSIDE]] },
    run,
};

fn run(input: &Input) -> Seen {
    let marking = input.case.marking;
    let right = model::finished(&input.graph, marking);
    let mut seen = Seen::new(right.number + 256 * right.finished);
    seen.ask(&input.case.graph, &right, |g| border::finished(g, marking), |g| peer::finished(g, marking));
    seen
}
