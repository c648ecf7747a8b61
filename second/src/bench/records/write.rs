use super::halves;
use crate::{border, race::race};
use second::{model, peer};

pub fn run() {
    let records: Vec<_> =
        halves().iter().map(|halves| model::record::read(64, &halves.first).expect("a record")).collect();
    race(
        "record_write",
        &records,
        [0; 65],
        |record, room| border::record_write(64, record, room),
        |record, room| peer::record::write(64, record, room),
    );
}
