use super::Places;
use crate::floor::{Call, Table};
use crate::seen::Seen;
use crate::words::{COUNTS, ILL_FORMED};
use crate::{border, lent};
use second::cases::records::Records;
use second::data::Marking;
use second::{model, peer};

pub const CALL: Call<Records> =
    Call { table: Table { name: "join", answers: &[&[(0, "a record"), (256, "never"), COUNTS, ILL_FORMED]] }, run };

fn run(&Records { n, ref first, ref second, .. }: &Records) -> Seen {
    let right = model::record::join(n, first, second);
    let number = right.err().unwrap_or(0);
    let mut seen = Seen::new(right.map_or(number, |record| 256 * u64::from(record[0])));
    let ([mut a, mut b], mut places) = ([first, second].map(|record| lent::Bytes::new(record)), Places::new());
    seen.expect("ours", &number, &border::join(n, a.part(), b.part(), places.ours.array()));
    seen.expect("peer", &number, &peer::record::join(n, first, second, &mut places.peers));
    a.expect(&mut seen, "the first record lent to ours", first);
    b.expect(&mut seen, "the second record lent to ours", second);
    places.expect(&mut seen, right);
    if let (Ok(joined), 0..=3) = (right, n) {
        for marking in every_marking(n) {
            seen.expect(
                "ours, first then second",
                &in_turn(n, &[first, second], marking),
                &in_turn(n, &[&joined], marking),
            );
        }
    }
    seen
}

fn every_marking(n: u64) -> impl Iterator<Item = Marking> {
    let set = (1 << n) - 1;
    (0..1 << (3 * n)).map(move |all| Marking::new(all & set, all >> n & set, all >> (2 * n) & set))
}

/// What the box makes of a marking by applying one record after the other, if all apply.
fn in_turn(n: u64, records: &[&[u8]], marking: Marking) -> Option<Marking> {
    records.iter().try_fold(marking, |marking, record| {
        let moved = border::apply(n, record, marking);
        (moved.number == 0).then_some(moved.marking)
    })
}
