//! Records: joined, applied, read and written.

mod apply;
mod join;
mod read;
mod write;

use crate::floor::{Floor, ANY_SIZE};
use crate::lent;
use crate::seen::Seen;
use second::cases::records::{make, Records};

pub const FLOOR: Floor<Records> = Floor {
    name: "records",
    make,
    full: None,
    size: |case| (1..=64).contains(&case.n).then_some(case.n),
    sizes: ANY_SIZE,
    calls: &[join::CALL, apply::CALL, read::CALL, write::CALL],
};

/// What stands where a record is to be written.
const BEFORE: [u8; 65] = [0x3c; 65];

/// Where the two are to write a record.
pub struct Places {
    pub ours: lent::Bytes,
    pub peers: [u8; 65],
}

impl Places {
    pub fn new() -> Self {
        Places { ours: lent::Bytes::new(&BEFORE), peers: BEFORE }
    }

    /// They hold the right record, or are left alone where there is none.
    pub fn expect(self, seen: &mut Seen, right: Result<[u8; 65], u64>) {
        let after = right.unwrap_or(BEFORE);
        self.ours.expect(seen, "the record written by ours", &after);
        seen.expect("the record written by peer", &after, &self.peers);
    }
}
