use super::Input;
use crate::floor::{Call, Table};
use crate::seen::Seen;
use crate::words::{by_crowd, Kind, ENTRY, GRAPH, LENGTH, OUTSIDE, WAITS_FOR_MOST, WAITS_FOR_ONE, WAITS_FOR_SOME};
use crate::{border, lent};
use second::cases::laps::Lap;
use second::data::{ACCEPTED, STARVED};
use second::{model, peer};

/// An entry of the first lap.
const FIRST: &[Kind] = &[
    (256 + 11, "  in the first lap"),
    (256 + 12, "  in the first lap"),
    (256 + 13, "  in the first lap"),
    (256 + 14, "  in the first lap"),
    (256 + WAITS_FOR_ONE.0, "  in the first lap, for one"),
    (256 + WAITS_FOR_SOME.0, "  in the first lap, for 2 to 62"),
    (256 + WAITS_FOR_MOST.0, "  in the first lap, for 63 or 64"),
];

/// Of the second, where only what depends on the marking can be new. Its step has been done by then, and is not among those that
/// are waited for. No later lap is refused.
const SECOND: &[Kind] = &[
    (512 + 14, "  in the second lap"),
    (512 + WAITS_FOR_ONE.0, "  in the second lap, for one"),
    (512 + WAITS_FOR_SOME.0, "  in the second lap, for 2 to 62"),
    (512 + WAITS_FOR_MOST.0, "  in the second lap, for 63"),
];

pub const CALL: Call<Input> = Call {
    table: Table {
        name: "lap",
        answers: &[
            &[(256 * ACCEPTED, "accepted"), (256 * STARVED, "starved")],
            GRAPH,
            &[LENGTH, OUTSIDE, (17, "lap empty")],
            ENTRY,
            FIRST,
            SECOND,
        ],
    },
    run,
};

fn run(input: &Input) -> Seen {
    let &Lap { ref graph, marking, ref stem, ref lap } = &input.case;
    let right = model::lap(&input.graph, marking, stem, lap);
    let mut seen = Seen::new(by_crowd(right.number, right.waiting) + 256 * (right.verdict + right.pass));
    let [mut stem_lent, mut lap_lent] = [stem, lap].map(|journal| lent::Bytes::new(journal));
    seen.ask(
        graph,
        &right,
        |g| border::lap(g, marking, stem_lent.part(), lap_lent.part()),
        |g| peer::lap(g, marking, stem, lap),
    );
    stem_lent.expect(&mut seen, "the stem lent to ours", stem);
    lap_lent.expect(&mut seen, "the lap lent to ours", lap);
    seen
}
