use super::Input;
use crate::border;
use crate::floor::{Call, Table};
use crate::seen::Seen;
use crate::words::{by_flag, FLAGS, GRAPH, OUTSIDE};
use second::{model, peer};

pub const CALL: Call<Input> = Call { table: Table { name: "track_start", answers: &[FLAGS, GRAPH, &[OUTSIDE]] }, run };

fn run(input: &Input) -> Seen {
    let marking = input.case.track.marking;
    let right = model::track_start(&input.graph, marking);
    let mut seen = Seen::new(by_flag(right));
    seen.ask(&input.case.graph, &right, |g| border::track_start(g, marking), |g| peer::track_start(g, marking));
    seen
}
