//! Sheets: read and written.

mod read;
mod write;

use crate::floor::{Floor, ANY_SIZE};
use crate::{
    border, lent,
    seen::{self, Seen},
};
use second::cases::sheets::{make, Sheet};
use second::data::{Graph, Marking, Written};

type Input = seen::Input<Sheet>;

pub const FLOOR: Floor<Input> = Floor {
    name: "sheets",
    make: |dice| Input::new(make(dice), |case| &case.graph),
    full: None,
    size: |input| input.size,
    sizes: ANY_SIZE,
    calls: &[read::CALL, write::CALL],
};

/// What stands where the marking is to be written.
const MARKING: Marking = Marking::new(WORD, WORD, WORD);
const WORD: u64 = 0x3c3c_3c3c_3c3c_3c3c;

/// What stands where the graph is to be written.
const GRAPH: Graph = Graph {
    conditions: [WORD; 64],
    responses: [WORD; 64],
    includes: [WORD; 64],
    excludes: [WORD; 64],
    allows: [WORD; 64],
    holds: [WORD; 16],
    labels: [WORD; 64],
    actions: 204,
    ..Graph::bare(201, 202, 203)
};

/// What the answer is and what the room then holds, where this is to be written into it.
pub fn placed(sheet: &Result<Vec<u8>, u64>, room: &[u8]) -> (Written, Vec<u8>) {
    match sheet {
        Ok(sheet) => (Written { number: 0, length: sheet.len() as u64 }, [sheet, &room[sheet.len()..]].concat()),
        Err(number) => (Written { number: *number, length: 0 }, room.to_vec()),
    }
}

/// Looks at what the box reads.
pub fn expect_read(seen: &mut Seen, sheet: &[u8], number: u64, graph: &Graph, marking: Marking) {
    let (mut read, mut block, mut first) =
        (lent::Bytes::new(sheet), lent::Words::new(GRAPH), lent::Words::new(MARKING));
    seen.expect("ours", &number, &border::read(read.part(), &mut block.content, &mut first.content));
    block.expect(seen, "the graph read by ours", graph);
    first.expect(seen, "the marking read by ours", &marking);
    read.expect(seen, "the sheet lent to ours", sheet);
}
