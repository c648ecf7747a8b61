use super::{Input, Job};
use crate::floor::{Call, Table};
use crate::seen::Seen;
use crate::words::{by_lateness, Kind, ENTRIES};
use crate::{border, lent};
use second::data::{Entry, Ran};
use second::{model, peer};

const RAN: &[Kind] = &[(0, "ran through, not finished"), (256, "ran through, finished")];

/// One for each of the publishes that passed.
const PUBLISHED: &[Kind] = &[
    (SINCE_START, "  publishes, no reboot before"),
    (SINCE_REBOOT, "  publishes after a reboot"),
    (AGAIN, "  publishes, one more"),
];

const SINCE_START: u64 = 512;
const SINCE_REBOOT: u64 = 768;
const AGAIN: u64 = 1024;

pub const CALL: Call<Input> = Call { table: Table { name: "cabinet run", answers: &[RAN, PUBLISHED, ENTRIES] }, run };

fn run(input: &Input) -> Seen {
    let Input { case, graph, start, ours, peers } = input;
    let right = model::run(graph, *start, &case.journal);
    let mut lent = lent::Bytes::new(&case.journal);
    let ran = border::run(&ours.graph, ours.start, lent.part());
    let mut seen = Seen::new(kind(graph, right));
    seen.expect("ours", &right, &ran);
    seen.expect("peer", &right, &peer::run(&peers.graph, peers.start, &case.journal));
    lent.expect(&mut seen, "the journal lent to ours", &case.journal);
    let passed = &case.journal[..3 * ran.entries.min(case.journal.len() as u64 / 3) as usize];
    expect_by_the_steps(&mut seen, case.mast, ours, passed);
    seen
}

fn kind(graph: &model::Graph, ran: Ran) -> u64 {
    match ran.number {
        0 => 256 * model::finished(graph, ran.marking).finished,
        _ => by_lateness(ran),
    }
}

/// What is asked of every journal that runs through: the entries that passed are one, and so is each of its beginnings. No
/// marking tells what is right here, only the steps that were taken.
fn expect_by_the_steps(seen: &mut Seen, arms: u64, job: &Job, passed: &[u8]) {
    let steps: Vec<u64> = passed.chunks(3).map(|entry| entry[1].into()).collect();
    seen.expect("ours, all checks in order before each publish", &true, &model::cabinet::in_order(arms, &steps));
    let finished = finished_along(job, passed);
    let wrong = (0..=steps.len()).find(|&place| finished[place] != model::cabinet::all_checked(arms, &steps[..place]));
    seen.expect("ours, wrongly finished or not after so many entries", &None, &wrong);
    seen.kinds.extend(publishes(arms, &steps));
}

/// Is the job finished at the start, and after each entry?
fn finished_along(Job { graph, start }: &Job, passed: &[u8]) -> Vec<bool> {
    let mut at = *start;
    let finished = |marking| border::finished(graph, marking).finished == 1;
    let entries = passed.chunks(3).map(|entry| Entry { person: entry[0], step: entry[1], role: entry[2] });
    let after = |entry| {
        border::keep(graph, &mut at, entry);
        finished(at)
    };
    std::iter::once(finished(*start)).chain(entries.map(after)).collect()
}

fn publishes(arms: u64, steps: &[u64]) -> Vec<u64> {
    let mut next = SINCE_START;
    let mut publishes = Vec::new();
    for &step in steps {
        if step == 0 {
            next = SINCE_REBOOT;
        } else if step == arms + 1 {
            publishes.push(next);
            next = AGAIN;
        }
    }
    publishes
}
