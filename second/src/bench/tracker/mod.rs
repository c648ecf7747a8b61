mod idle;
mod start;
mod step;

use second::cases::Case;
use second::data::Track;

pub fn run() {
    start::run();
    idle::run();
    step::run();
}

/// In the middle of the ranks.
fn track(case: &Case) -> Track {
    Track { marking: case.marking, rank: 32, flag: 1 }
}
