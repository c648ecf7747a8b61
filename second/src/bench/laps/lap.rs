use crate::border;
use crate::inputs::{job, Job};
use crate::race::{least, print, race};
use second::data::Lapped;
use second::peer;
use std::hint::black_box;

/// Entries of the stem, and of the lap, about.
const ENTRIES: usize = 2_000;

/// A job whose journal is the stem and then, from the cut on, the lap.
struct Lap {
    job: Job,
    cut: usize,
}

pub fn run() {
    let lap = find();
    race("lap", &[&lap], (), |lap, ()| ours(lap), |lap, ()| peer(lap));
    let [of_lap, of_runs] = least(|| _ = black_box(ours(black_box(&lap))), || runs(black_box(&lap)));
    print("lap/stem+lap+lap", of_lap, of_runs);
}

/// The first of many jobs whose lap goes on for ever.
fn find() -> Lap {
    let laps = (2 * ENTRIES..).map(|entries| Lap { job: job(entries), cut: 3 * ENTRIES });
    laps.take(1_000).find(|lap| peer(lap).number == 0).expect("a lap that goes on for ever")
}

fn ours(Lap { job, cut }: &Lap) -> Lapped {
    border::lap(&job.graph, job.marking, &job.journal[..*cut], &job.journal[*cut..])
}

fn peer(Lap { job, cut }: &Lap) -> Lapped {
    peer::lap(&job.graph, job.marking, &job.journal[..*cut], &job.journal[*cut..])
}

/// The stem and two laps, run by the box.
fn runs(Lap { job, cut }: &Lap) {
    let (stem, lap) = job.journal.split_at(*cut);
    let mut marking = job.marking;
    for journal in [stem, lap, lap] {
        marking = black_box(border::run(&job.graph, marking, journal)).marking;
    }
}
