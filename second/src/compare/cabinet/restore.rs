use super::Input;
use crate::border;
use crate::floor::{Call, Table};
use crate::seen::Seen;
use crate::words::{by_lateness, ENTRIES, NOT_APPLIED};
use second::data::{Graph, Marking, Ran};
use second::{model, peer};

/// A record of the beginning, and then the rest, lead where the journal leads.
pub const CALL: Call<Input> = Call {
    table: Table {
        name: "cabinet restore",
        answers: &[&[(0, "applied, and no entry"), (256, "applied, all entries pass"), NOT_APPLIED], ENTRIES],
    },
    run,
};

type Fold = fn(&Graph, &[u8], &mut [u8; 65]) -> u64;
type Restore = fn(&Graph, &[u8], &[u8], Marking) -> Ran;

const OURS: (Fold, Restore) = (border::fold, border::restore);
const PEERS: (Fold, Restore) = (peer::record::fold, peer::record::restore);

fn run(input: &Input) -> Seen {
    let Input { case, graph, start, ours, peers } = input;
    let (beginning, rest) = case.journal.split_at(3 * case.recorded);
    let right = rest_of(model::run(graph, *start, &case.journal), case.recorded as u64, *start);
    let mut seen = Seen::new(by_lateness(right));
    let record = model::record::fold(graph, beginning);
    seen.expect("model", &Ok(right), &record.map(|record| model::record::restore(graph, &record, rest, *start)));
    for (who, job, (fold, restore)) in [("ours", ours, OURS), ("peer", peers, PEERS)] {
        let mut record = [0xff; 65];
        let folded = fold(&job.graph, beginning, &mut record);
        seen.expect(who, &(0, right), &(folded, restore(&job.graph, &record, rest, job.start)));
    }
    seen
}

/// By the run of the whole journal. Where that stops in the beginning, the record does not apply.
fn rest_of(ran: Ran, recorded: u64, start: Marking) -> Ran {
    if ran.entries < recorded {
        return Ran { number: NOT_APPLIED.0, marking: start, ..Ran::default() };
    }
    Ran { entries: ran.entries - recorded, ..ran }
}
