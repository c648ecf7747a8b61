use crate::{border, race::race};
use second::peer;

/// For the fewest arms, for some and for the most, into a room that is just long enough; beside a peer that writes each byte from
/// the arms alone, and beside one that makes the graph first, as ours does.
pub fn run() {
    for arms in [2, 9, 16] {
        let room = vec![0; 72 + 15 * arms as usize];
        race(
            &format!("cabinet/{arms}"),
            &[arms],
            room.clone(),
            |arms, room| border::cabinet(*arms, room),
            |arms, room| peer::cabinet(*arms, room),
        );
        race(
            &format!("cabinet/{arms}/graph"),
            &[arms],
            room,
            |arms, room| border::cabinet(*arms, room),
            |arms, room| peer::cabinet_by_graph(*arms, room),
        );
    }
}
