use crate::floor::{Call, Table};
use crate::seen::Seen;
use crate::words::{COUNTS, ILL_FORMED, NOT_APPLIED, OUTSIDE};
use crate::{border, lent};
use second::cases::records::Records;
use second::{model, peer};

pub const CALL: Call<Records> = Call {
    table: Table { name: "apply", answers: &[&[(0, "applied"), COUNTS, OUTSIDE, ILL_FORMED, NOT_APPLIED]] },
    run,
};

fn run(&Records { n, ref first, marking, .. }: &Records) -> Seen {
    let right = model::record::apply(n, first, marking);
    let mut seen = Seen::new(right.number);
    let mut lent = lent::Bytes::new(first);
    seen.expect("ours", &right, &border::apply(n, lent.part(), marking));
    seen.expect("peer", &right, &peer::record::apply(n, first, marking));
    lent.expect(&mut seen, "the record lent to ours", first);
    seen
}
