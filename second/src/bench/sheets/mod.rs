mod read;
mod write;

use second::cases::{self, sheets::written_in_five, Density, Dice};
use second::data::{Graph, Marking};
use second::peer;

pub fn run() {
    let full = Job::new(Density::Full);
    assert_eq!(full.sheet.len(), 37_147, "the full sheet is the longest");
    let sparse = Job::new(Density::Sparse);
    let five = Job { sheet: written_in_five(&full.graph, full.marking), ..full.clone() };
    assert_eq!(five.sheet.len(), 37_077, "the longest in five bodies");
    read::run("read-full", &full);
    read::run("read-sparse", &sparse);
    read::run("read-five", &five);
    write::run("write-full", &full);
    write::run("write-sparse", &sparse);
}

/// A graph of 64 steps, 16 people, 16 roles and 64 actions, with all 12,288 arrows or one of 32 of them.
#[derive(Clone)]
struct Job {
    graph: Graph,
    marking: Marking,
    sheet: Vec<u8>,
}

impl Job {
    fn new(arrows: Density) -> Self {
        let dice = &mut Dice::new(64, 1);
        let densities = [Density::Half, Density::Half, arrows, arrows, arrows, arrows];
        let graph = cases::sized(dice, [64, 16, 16, 64], densities);
        let marking = cases::inside(dice, 64);
        let mut sheet = vec![0; 40_000];
        let written = peer::sheet::write(&graph, marking, &mut sheet);
        assert_eq!(written.number, 0, "a well-formed graph");
        sheet.truncate(written.length as usize);
        Job { graph, marking, sheet }
    }
}
