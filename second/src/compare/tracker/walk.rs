use super::Input;
use crate::border;
use crate::floor::{Call, Table};
use crate::seen::Seen;
use crate::words::{GRAPH, OUTSIDE};
use second::cases::tracks::Track;
use second::data;
use second::{model, peer};

/// The three calls together, from the start on, each move from where the one before it has led.
pub const CALL: Call<Input> = Call {
    table: Table {
        name: "track walk",
        answers: &[&[(0, "flag never up"), (256, "flag up at times"), (512, "flag up throughout")], GRAPH, &[OUTSIDE]],
    },
    run,
};

fn run(input: &Input) -> Seen {
    let Track { graph, track, moves, .. } = &input.case;
    let start = model::track_start(&input.graph, track.marking);
    let mut seen = Seen::new(start.number);
    if start.number != 0 {
        return seen;
    }
    let (mut at, mut flags) = (start.track, vec![start.track.flag]);
    for next in moves {
        let right = go(at, *next, |t| model::track_idle(&input.graph, t), |t, e| model::track_step(&input.graph, t, e));
        let ours = go(at, *next, |t| border::track_idle(graph, t), |t, e| border::track_step(graph, t, e));
        let peer = go(at, *next, |t| peer::track_idle(graph, t), |t, e| peer::track_step(graph, t, e));
        seen.expect("ours on the way", &right, &ours);
        seen.expect("peer on the way", &right, &peer);
        // A refused move stays.
        at = right.track;
        flags.push(at.flag);
    }
    seen.kinds = vec![256 * (u64::from(flags.contains(&1)) + u64::from(!flags.contains(&0)))];
    seen
}

/// An entry, or an idle move.
fn go(
    at: data::Track,
    next: Option<data::Entry>,
    idle: impl FnOnce(data::Track) -> data::Tracked,
    step: impl FnOnce(data::Track, data::Entry) -> data::Tracked,
) -> data::Tracked {
    match next {
        None => idle(at),
        Some(entry) => step(at, entry),
    }
}
