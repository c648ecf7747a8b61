use super::{expect_read, placed, Input};
use crate::floor::{Call, Table};
use crate::seen::Seen;
use crate::words::{BEYOND, GRAPH, ROOM};
use crate::{border, lent};
use second::cases::sheets::Sheet;
use second::data::Bytes;
use second::{model, peer};

/// Number 4 of the marking alone is told apart from that of the graph.
pub const CALL: Call<Input> = Call {
    table: Table { name: "write", answers: &[&[(0, "written")], GRAPH, &[(256 + BEYOND.0, "  the marking"), ROOM]] },
    run,
};

fn run(input: &Input) -> Seen {
    let &Sheet { ref graph, marking, ref room, .. } = &input.case;
    let sheet = model::sheet::write(&input.graph, marking, room.len());
    let (right, after) = placed(&sheet, room);
    let marking_alone = right.number == BEYOND.0 && model::check(&input.graph) != BEYOND.0;
    let mut seen = Seen::new(right.number + 256 * u64::from(marking_alone));
    let (mut ours, mut peers) = (lent::Bytes::new(room), room.clone());
    seen.ask(
        graph,
        &right,
        |g| border::write(g, marking, ours.part()),
        |g| peer::sheet::write(g, marking, &mut peers.0),
    );
    ours.expect(&mut seen, "the room of ours", &after);
    seen.expect("the room of peer", &Bytes(after), &peers);
    if let Ok(sheet) = sheet {
        expect_read(&mut seen, &sheet, 0, graph, marking);
    }
    seen
}
