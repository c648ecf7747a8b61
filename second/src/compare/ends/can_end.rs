use super::Input;
use crate::floor::{Call, Table};
use crate::seen::Seen;
use crate::words::{Kind, GRAPH, OUTSIDE};
use crate::{border, lent};
use second::cases::ends::End;
use second::data::{Bytes, Ends, NONE, REACHABLE, UNDECIDED};
use second::{model, peer};

const VERDICTS: &[Kind] = &[
    (256, "undecided, one looked at"),
    (512, "undecided, more looked at"),
    (768, "  with 2,048 found"),
    (1024, "none, one looked at"),
    (1280, "none, more looked at"),
    (1536, "  more than 1,000"),
    (1792, "reachable by no entry"),
    (2048, "reachable by one entry"),
    (2304, "reachable by 2 to 4"),
    (2560, "reachable by 5 or more"),
    (FILLED, "  either, with the store filled"),
];

/// Goes with one of the two that decide: there were just as many as the store has room for.
const FILLED: u64 = 2816;

const STORE: &[Kind] =
    &[(22, "store of no byte"), (256 + 22, "  of a part of a marking"), (512 + 22, "  of more than 2,048 markings")];

pub const CALL: Call<Input> =
    Call { table: Table { name: "can_end", answers: &[VERDICTS, GRAPH, &[OUTSIDE], STORE] }, run };

fn run(input: &Input) -> Seen {
    let &End { ref graph, marking, ref store } = &input.case;
    let (right, found) = model::can_end(&input.graph, marking, store.len());
    let after = [&found, &store[found.len()..]].concat();
    let mut seen = Seen::new(kind(right, store.len()));
    if [NONE, REACHABLE].contains(&right.verdict) && found.len() == store.len() {
        seen.kinds.push(FILLED);
    }
    let (mut ours, mut peers) = (lent::Bytes::new(store), store.clone());
    seen.ask(graph, &right, |g| border::can_end(g, marking, ours.part()), |g| peer::can_end(g, marking, &mut peers.0));
    ours.expect(&mut seen, "the store of ours", &after);
    let after = Bytes(after);
    seen.expect("the store of peer", &after, &peers);
    let mut slots = store.clone();
    seen.expect("by slots", &right, &peer::can_end_by_slots(graph, marking, &mut slots.0));
    seen.expect("the store by slots", &after, &slots);
    seen
}

fn kind(Ends { number, verdict, fewest, looked }: Ends, store: usize) -> u64 {
    let further = match (number, verdict) {
        (0, UNDECIDED) if store == 24 * 2_048 => 3,
        (0, UNDECIDED) => 1 + u64::from(looked > 1),
        (0, NONE) => 4 + u64::from(looked > 1) + u64::from(looked > 1_000),
        (0, REACHABLE) => [7, 8, 9, 9, 9, 10][fewest.min(5) as usize],
        (22, _) if !store.is_multiple_of(24) => 1,
        (22, _) if store != 0 => 2,
        _ => 0,
    };
    number + 256 * further
}
