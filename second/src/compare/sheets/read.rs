use super::{expect_read, Input, GRAPH, MARKING};
use crate::border;
use crate::floor::{Call, Table};
use crate::seen::Seen;
use crate::words::{BEYOND, BOTH, COUNTS};
use second::data::{Bytes, Graph, Marking, Written};
use second::{model, peer};

pub const CALL: Call<Input> = Call {
    table: Table {
        name: "read",
        answers: &[
            &[
                (0, "read, six bodies"),
                (1, "not laid out as a sheet"),
                COUNTS,
                (3, "a body that does not match"),
                BEYOND,
                (5, "an arrow wrong or out of order"),
                BOTH,
            ],
            &[
                (ACTIONS + 2, "  by the actions alone"),
                (ACTIONS + 3, "  by the actions alone"),
                (ACTIONS + 4, "  by the actions alone"),
            ],
            &[
                (FIVE, "read, five bodies"),
                (FIVE + 1, "  five bodies"),
                (FIVE + 2, "  five bodies"),
                (FIVE + 3, "  five bodies"),
                (FIVE + 4, "  five bodies"),
                (FIVE + 5, "  five bodies"),
                (FIVE + 6, "  five bodies"),
            ],
            &[(NEITHER + 1, "  neither, by byte 0")],
        ],
    },
    run,
};

/// Of a sheet that is in five bodies by its byte 0, and of one that is in neither form.
const FIVE: u64 = 256;
const NEITHER: u64 = 512;

/// Of one in six bodies that would not have the number if every step had action 0, and there were as many as there are role sets.
const ACTIONS: u64 = 768;

fn form(sheet: &[u8]) -> u64 {
    match sheet {
        [6, ..] => 0,
        [5, ..] => FIVE,
        _ => NEITHER,
    }
}

fn kind(sheet: &[u8], number: u64) -> u64 {
    let form = form(sheet);
    let by_actions = form == 0 && (2..=4).contains(&number) && number_but_for_actions(sheet) != number;
    number + if by_actions { ACTIONS } else { form }
}

/// Of a sheet that is laid out as one.
fn number_but_for_actions(sheet: &[u8]) -> u64 {
    let [role_sets, labels] = [14, 27].map(|at| u16::from_le_bytes([sheet[at], sheet[at + 1]]));
    let steps = sheet[31];
    let mut right = [&sheet[..labels.into()], &vec![0; steps.into()]].concat();
    (right[29], right[30], right[34]) = (steps, 0, (role_sets / 2) as u8);
    let (mut graph, mut marking) = (GRAPH, MARKING);
    peer::sheet::read(&right, &mut graph, &mut marking)
}

fn run(input: &Input) -> Seen {
    let sheet = &input.case.sheet;
    let (number, graph, marking) = match model::sheet::read(sheet) {
        Ok((graph, marking)) => (0, graph.write(), marking.write()),
        Err(number) => (number, GRAPH, MARKING),
    };
    let mut seen = Seen::new(kind(sheet, number));
    expect_read(&mut seen, sheet, number, &graph, marking);
    let (mut block, mut first) = (GRAPH, MARKING);
    let peer = peer::sheet::read(sheet, &mut block, &mut first);
    seen.expect("peer", &(number, &graph, marking), &(peer, &block, first));
    if number == 0 {
        expect_back(&mut seen, sheet, &graph, marking);
    }
    seen
}

/// What was read is written back: in six bodies, so that a sheet of six is the same again, and one of five is then read as before.
fn expect_back(seen: &mut Seen, sheet: &Bytes, graph: &Graph, marking: Marking) {
    let back = match form(sheet) {
        0 => sheet.clone(),
        _ => Bytes(model::sheet::write(&model::Graph::read(graph), marking, usize::MAX).unwrap_or_default()),
    };
    let mut room = Bytes(vec![0; back.len()]);
    let right = Written { number: 0, length: back.len() as u64 };
    seen.expect("ours, written back", &right, &border::write(graph, marking, &mut room.0));
    seen.expect("the sheet that ours has written back", &back, &room);
    expect_read(seen, &room, 0, graph, marking);
}
