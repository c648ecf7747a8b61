use super::Input;
use crate::floor::{Call, Table};
use crate::records::Places;
use crate::seen::Seen;
use crate::words::{GRAPH, LENGTH};
use crate::{border, lent};
use second::cases::folds::Fold;
use second::{model, peer};

pub const CALL: Call<Input> = Call {
    table: Table {
        name: "fold",
        answers: &[&[(0, "a record"), (256, "never"), (512, "the identity")], GRAPH, &[LENGTH]],
    },
    run,
};

fn run(input: &Input) -> Seen {
    let Fold { graph, journal, .. } = &input.case;
    let right = model::record::fold(&input.graph, journal);
    let number = right.err().unwrap_or(0);
    let mut seen = Seen::new(right.map_or(number, kind));
    let (mut lent, mut places) = (lent::Bytes::new(journal), Places::new());
    seen.ask(
        graph,
        &number,
        |g| border::fold(g, lent.part(), places.ours.array()),
        |g| peer::record::fold(g, journal, &mut places.peers),
    );
    lent.expect(&mut seen, "the journal lent to ours", journal);
    places.expect(&mut seen, right);
    if let Ok(record) = right {
        seen.expect("ours, in parts", &record, &in_parts(&input.case));
        acts_as_the_run(&mut seen, input, &record);
    }
    seen
}

fn kind(record: [u8; 65]) -> u64 {
    match record[0] {
        1 => 256,
        _ if record == [0; 65] => 512,
        _ => 0,
    }
}

/// The parts' records, joined one after the other.
fn in_parts(case: &Fold) -> [u8; 65] {
    let (mut all, mut from) = ([0; 65], 0);
    for &to in case.cuts.iter().chain([&(case.journal.len() / 3)]) {
        let (mut part, so_far) = ([0xff; 65], all);
        border::fold(&case.graph, &case.journal[3 * from..3 * to], &mut part);
        border::join(case.graph.steps, &so_far, &part, &mut all);
        from = to;
    }
    all
}

/// The record applies exactly when the run allows every entry, and then gives the run's end marking.
fn acts_as_the_run(seen: &mut Seen, input: &Input, record: &[u8; 65]) {
    let &Fold { ref graph, marking, ref journal, .. } = &input.case;
    let ran = model::run(&input.graph, marking, journal);
    if ran.number != 8 {
        let applied = border::apply(graph.steps, record, marking);
        let right = (ran.number == 0).then_some(ran.marking);
        seen.expect("ours, applied", &right, &(applied.number == 0).then_some(applied.marking));
    }
}
