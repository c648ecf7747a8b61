use crate::floor::{Call, Table};
use crate::seen::Seen;
use crate::words::{COUNTS, ILL_FORMED};
use crate::{border, lent};
use second::cases::records::Records;
use second::data::Record;
use second::{model, peer};

pub const CALL: Call<Records> =
    Call { table: Table { name: "record_read", answers: &[&[(0, "read"), COUNTS, ILL_FORMED]] }, run };

/// What stands where the record is to be written.
const BEFORE: Record = Record::new([0x3c3c_3c3c_3c3c_3c3c; 9]);

fn run(&Records { n, ref first, .. }: &Records) -> Seen {
    let right = model::record::read(n, first);
    let (number, after) = (right.err().unwrap_or(0), right.unwrap_or(BEFORE));
    let mut seen = Seen::new(number);
    let (mut bytes, mut ours, mut peers) = (lent::Bytes::new(first), lent::Words::new(BEFORE), BEFORE);
    seen.expect("ours", &number, &border::record_read(n, bytes.part(), &mut ours.content));
    seen.expect("peer", &number, &peer::record::read(n, first, &mut peers));
    bytes.expect(&mut seen, "the bytes lent to ours", first);
    ours.expect(&mut seen, "the record read by ours", &after);
    seen.expect("the record read by peer", &after, &peers);
    seen
}
