use super::Input;
use crate::floor::{Call, Table};
use crate::seen::Seen;
use crate::words::LENGTH;
use crate::{border, lent};
use second::{model, peer};

pub const CALL: Call<Input> =
    Call { table: Table { name: "walk", answers: &[&[(0, "an entry"), (256, "the end"), LENGTH]] }, run };

fn run(input: &Input) -> Seen {
    let (journal, place) = (&input.case.journal, input.case.place);
    let (mut walk, mut lent) = (model::Walk::new(journal), lent::Bytes::new(journal));
    let right = walk.at(place);
    let mut seen = Seen::new(right.number + 256 * right.ended);
    seen.expect("ours at the place", &right, &border::walk(lent.part(), place));
    seen.expect("peer at the place", &right, &peer::walk(journal, place));
    // From the start to the end, and twice more there.
    for _ in 0..journal.len() / 3 + 2 {
        let (place, right) = (walk.place(), walk.hand_out());
        seen.expect("ours on the way", &right, &border::walk(lent.part(), place));
        seen.expect("peer on the way", &right, &peer::walk(journal, place));
    }
    lent.expect(&mut seen, "the journal lent to ours", journal);
    seen
}
