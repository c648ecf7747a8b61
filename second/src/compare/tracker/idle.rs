use super::Input;
use crate::border;
use crate::floor::{Call, Table};
use crate::seen::Seen;
use crate::words::{by_flag, FLAGS, GRAPH, NO_RANK, OUTSIDE};
use second::{model, peer};

pub const CALL: Call<Input> =
    Call { table: Table { name: "track_idle", answers: &[FLAGS, GRAPH, &[OUTSIDE, NO_RANK]] }, run };

fn run(input: &Input) -> Seen {
    let track = input.case.track;
    let right = model::track_idle(&input.graph, track);
    let mut seen = Seen::new(by_flag(right));
    seen.ask(&input.case.graph, &right, |g| border::track_idle(g, track), |g| peer::track_idle(g, track));
    seen
}
