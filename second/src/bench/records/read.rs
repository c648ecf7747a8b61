use super::halves;
use crate::{border, race::race};
use second::{data::Record, peer};

pub fn run() {
    race(
        "record_read",
        &halves(),
        Record::default(),
        |halves, record| border::record_read(64, &halves.first, record),
        |halves, record| peer::record::read(64, &halves.first, record),
    );
}
