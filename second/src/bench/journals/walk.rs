use crate::{border, inputs::job, race::race};
use second::peer;

/// A journal is walked from its start to its end, an entry a call.
pub fn run() {
    let journal = job(200).journal;
    let places: Vec<u64> = (0..=200).collect();
    race("walk", &places, (), |place, ()| border::walk(&journal, *place), |place, ()| peer::walk(&journal, *place));
}
