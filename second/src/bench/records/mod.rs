mod apply;
mod fold;
mod join;
mod read;
mod restore;
mod threads;
mod write;

use crate::count;
use crate::inputs::{job, Job};
use second::peer;

pub fn run() {
    fold::run();
    // How often a thread that waits goes round is never the same.
    if !count::ASKED {
        threads::run();
    }
    join::run();
    apply::run();
    read::run();
    write::run();
    restore::run();
}

/// A job whose journal is in two halves, each folded: the two can follow one another.
struct Halves {
    job: Job,
    first: [u8; 65],
    second: [u8; 65],
    /// Where the second half of the journal begins.
    cut: usize,
}

fn halves() -> Vec<Halves> {
    (200..208)
        .map(|entries| {
            let job = job(entries);
            let cut = 3 * (entries / 2);
            let [first, second] = [&job.journal[..cut], &job.journal[cut..]].map(|half| {
                let mut record = [0; 65];
                assert_eq!(peer::record::fold(&job.graph, half, &mut record), 0, "a lawful journal");
                record
            });
            Halves { job, first, second, cut }
        })
        .collect()
}
