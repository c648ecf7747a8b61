use super::Input;
use crate::border;
use crate::floor::{Call, Table};
use crate::seen::Seen;
use crate::words::{by_share, GRAPH, OUTSIDE, SHARES, UNKNOWN};
use second::cases::Case;
use second::{model, peer};

pub const CALL: Call<Input> =
    Call { table: Table { name: "allowed_to", answers: &[SHARES, GRAPH, &[OUTSIDE, UNKNOWN]] }, run };

fn run(input: &Input) -> Seen {
    Seen::all(people(&input.case).into_iter().map(|person| (format!("person {person}"), asked(input, person))))
}

/// Everyone, the first who is not there, and others beyond, of whom some would be known by their lowest byte or their
/// lowest 32 bits.
fn people(case: &Case) -> Vec<u64> {
    const MOST: u64 = 16;
    let (count, known) = (case.graph.people, u64::from(case.entry.person));
    let beyond = [count, MOST, 255, 256, 257, 256 + known, 1 << 32, u64::MAX];
    (0..count.min(MOST)).chain(beyond).collect()
}

fn asked(input: &Input, person: u64) -> Seen {
    let &Case { ref graph, marking, .. } = &input.case;
    let right = model::allowed_to(&input.graph, marking, person);
    let mut seen = Seen::new(by_share(right, graph.steps));
    seen.ask(graph, &right, |g| border::allowed_to(g, marking, person), |g| peer::allowed_to(g, marking, person));
    seen
}
