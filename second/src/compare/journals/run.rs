use super::Input;
use crate::floor::{Call, Table};
use crate::seen::Seen;
use crate::words::{by_lateness, ENTRIES, GRAPH, LENGTH, OUTSIDE, WAITING_ENTRIES};
use crate::{border, lent};
use second::cases::journals::Journal;
use second::{model, peer};

pub const CALL: Call<Input> = Call {
    table: Table {
        name: "run",
        answers: &[
            &[(0, "an empty journal passes"), (256, "all entries pass")],
            GRAPH,
            &[LENGTH, OUTSIDE],
            ENTRIES,
            WAITING_ENTRIES,
        ],
    },
    run,
};

fn run(input: &Input) -> Seen {
    let &Journal { ref graph, marking, ref journal, .. } = &input.case;
    let right = model::run(&input.graph, marking, journal);
    let mut seen = Seen::new(by_lateness(right));
    let mut lent = lent::Bytes::new(journal);
    seen.ask(graph, &right, |g| border::run(g, marking, lent.part()), |g| peer::run(g, marking, journal));
    lent.expect(&mut seen, "the journal lent to ours", journal);
    seen
}
