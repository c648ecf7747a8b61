use crate::floor::{Call, Table};
use crate::seen::Seen;
use crate::words::{COUNTS, ILL_FORMED, ROOM};
use crate::{border, lent};
use second::cases::records::Records;
use second::data::{Bytes, Written};
use second::{model, peer};

pub const CALL: Call<Records> =
    Call { table: Table { name: "record_write", answers: &[&[(0, "written"), COUNTS, ILL_FORMED, ROOM]] }, run };

fn run(&Records { n, ref record, ref room, .. }: &Records) -> Seen {
    let (right, after) = match model::record::write(n, record, room.len()) {
        Ok(bytes) => (Written { number: 0, length: 65 }, [&bytes, &room[65..]].concat()),
        Err(number) => (Written { number, length: 0 }, room.to_vec()),
    };
    let mut seen = Seen::new(right.number);
    let (lent, mut ours, mut peers) = (lent::Words::new(*record), lent::Bytes::new(room), room.clone());
    seen.expect("ours", &right, &border::record_write(n, &lent.content, ours.part()));
    seen.expect("peer", &right, &peer::record::write(n, record, &mut peers.0));
    lent.expect(&mut seen, "the record lent to ours", record);
    ours.expect(&mut seen, "the room of ours", &after);
    seen.expect("the room of peer", &Bytes(after), &peers);
    seen
}
