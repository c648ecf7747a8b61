use super::Input;
use crate::floor::{Call, Table};
use crate::seen::Seen;
use crate::words::{by_lateness, ENTRIES, GRAPH, ILL_FORMED, LENGTH, NOT_APPLIED, OUTSIDE, WAITING_ENTRIES};
use crate::{border, lent};
use second::cases::folds::Fold;
use second::{model, peer};

pub const CALL: Call<Input> = Call {
    table: Table {
        name: "restore",
        answers: &[
            &[(0, "applied, and no entry"), (256, "applied, all entries pass")],
            GRAPH,
            &[LENGTH, OUTSIDE, ILL_FORMED, NOT_APPLIED],
            ENTRIES,
            WAITING_ENTRIES,
        ],
    },
    run,
};

fn run(input: &Input) -> Seen {
    let &Fold { ref graph, marking, ref journal, ref record, recorded, .. } = &input.case;
    let rest = &journal[3 * recorded.min(journal.len() / 3)..];
    let right = model::record::restore(&input.graph, record, rest, marking);
    let mut seen = Seen::new(by_lateness(right));
    let (mut bytes, mut entries) = (lent::Bytes::new(record), lent::Bytes::new(rest));
    seen.ask(
        graph,
        &right,
        |g| border::restore(g, bytes.part(), entries.part(), marking),
        |g| peer::record::restore(g, record, rest, marking),
    );
    bytes.expect(&mut seen, "the record lent to ours", record);
    entries.expect(&mut seen, "the journal lent to ours", rest);
    seen
}
