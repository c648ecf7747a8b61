use super::Input;
use crate::floor::{Call, Table};
use crate::seen::Seen;
use crate::sheets::{expect_read, placed};
use crate::words::{Kind, ROOM};
use crate::{border, lent};
use second::cases::cabinet::Cabinet;
use second::data::Bytes;
use second::{model, peer};

const WRITTEN: &[Kind] = &[(0, "written, and the room is full"), (256, "written, with room left")];

const NO_ROOM: &[Kind] = &[ROOM, (256 + ROOM.0, "  by one byte"), (512 + ROOM.0, "  no room at all")];

const ARMS: &[Kind] = &[
    (30, "no arm or one"),
    (256 + 30, "17 to 40 arms"),
    (512 + 30, "more arms"),
    (768 + 30, "  lawful in the lowest 32 bits"),
    (SHORT, "  any, and room for no sheet"),
];

/// Goes with one of the other refusals for the arms: the room would be refused, too.
const SHORT: u64 = 1024 + 30;

/// The shortest sheet, of two arms.
const SHORTEST: usize = 102;

pub const CALL: Call<Input> = Call { table: Table { name: "cabinet", answers: &[WRITTEN, ARMS, NO_ROOM] }, run };

fn run(input: &Input) -> Seen {
    let &Cabinet { arms, ref room, .. } = &input.case;
    let sheet = model::cabinet::write(arms, room.len());
    let (right, after) = placed(&sheet, room);
    let mut seen = Seen::new(right.number + 256 * further(input, right.number));
    if right.number == 30 && room.len() < SHORTEST {
        seen.kinds.push(SHORT);
    }
    let (mut ours, mut peers, mut seconds) = (lent::Bytes::new(room), room.clone(), room.clone());
    seen.expect("ours", &right, &border::cabinet(arms, ours.part()));
    seen.expect("peer", &right, &peer::cabinet(arms, &mut peers.0));
    seen.expect("peer, by a graph", &right, &peer::cabinet_by_graph(arms, &mut seconds.0));
    let written = ours.part()[..right.length as usize].to_vec();
    ours.expect(&mut seen, "the room of ours", &after);
    let after = Bytes(after);
    seen.expect("the room of peer", &after, &peers);
    seen.expect("the room of peer, by a graph", &after, &seconds);
    if right.number == 0 {
        expect_read(&mut seen, &written, 0, &input.graph.write(), input.start);
    }
    seen
}

/// Tells answers of one number apart.
fn further(Input { case: Cabinet { arms, room, .. }, .. }: &Input, number: u64) -> u64 {
    let needed = 72 + 15 * arms.min(&40);
    match (number, room.len() as u64) {
        (0, length) => u64::from(length > needed),
        (18, 0) => 2,
        (18, length) => u64::from(length + 1 == needed),
        _ if *arms < 2 => 0,
        _ if *arms <= 40 => 1,
        _ if (2..=16).contains(&(*arms as u32)) => 3,
        _ => 2,
    }
}
