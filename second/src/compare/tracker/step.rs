use super::Input;
use crate::border;
use crate::floor::{Call, Table};
use crate::seen::Seen;
use crate::words::{by_flag, Kind, ENTRY, GRAPH, NO_RANK, OUTSIDE};
use second::cases::tracks::Track;
use second::{model, peer};

const MOVED: &[Kind] = &[(0, "flag down"), (256, "flag up, rank stays"), (512, "flag up, rank moves")];

pub const CALL: Call<Input> =
    Call { table: Table { name: "track_step", answers: &[MOVED, GRAPH, &[OUTSIDE, NO_RANK], ENTRY] }, run };

fn run(input: &Input) -> Seen {
    let &Track { ref graph, track, entry, .. } = &input.case;
    let right = model::track_step(&input.graph, track, entry);
    let moves = right.number == 0 && right.track.rank != track.rank;
    let mut seen = Seen::new(by_flag(right) + 256 * u64::from(moves));
    seen.ask(graph, &right, |g| border::track_step(g, track, entry), |g| peer::track_step(g, track, entry));
    seen
}
