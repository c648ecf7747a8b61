//! A long journal folded in two halves at the same time, against the whole by one thread. The second thread is there all along
//! and waits without sleeping, since to start it would take about as long as the fold.

use crate::border;
use crate::inputs::{job, Job};
use crate::race::{least, print};
use second::cases::journals::FULL;
use std::hint::{black_box, spin_loop};
use std::sync::atomic::{AtomicU64, Ordering};
use std::sync::Mutex;
use std::thread;

/// The last round that was asked for, and the last that the second thread has done.
#[derive(Default)]
struct Track {
    asked: AtomicU64,
    done: AtomicU64,
    record: Mutex<Option<[u8; 65]>>,
}

/// The round that ends the race.
const LAST: u64 = u64::MAX;

pub fn run() {
    let job = job(FULL);
    let (front, back) = job.journal.split_at(3 * (FULL / 2));
    let track = Track::default();
    let two = || track.together(&job, front);
    let one = || fold(&job, &job.journal);
    // A panic while the second thread waits would leave it waiting: what can fail is tried before it starts, or told after.
    let [_, _, whole] = [front, back, &job.journal].map(|journal| fold(&job, journal));
    let (joined, [of_two, of_one]) = thread::scope(|scope| {
        scope.spawn(|| track.follow(&job, back));
        let joined = two();
        let times = least(|| _ = black_box(two()), || _ = black_box(one()));
        track.asked.store(LAST, Ordering::Release);
        (joined, times)
    });
    assert_eq!(joined, whole, "the halves join to another record");
    print("fold-2-threads/1", of_two, of_one);
}

fn fold(job: &Job, journal: &[u8]) -> [u8; 65] {
    let mut out = [0; 65];
    assert_eq!(border::fold(&job.graph, journal, &mut out), 0);
    out
}

impl Track {
    /// Folds the front while the other thread folds the back, and joins the two.
    fn together(&self, job: &Job, front: &[u8]) -> [u8; 65] {
        let round = self.asked.load(Ordering::Relaxed) + 1;
        self.asked.store(round, Ordering::Release);
        let first = fold(job, front);
        while self.done.load(Ordering::Acquire) != round {
            spin_loop();
        }
        let second = self.record.lock().expect("no panic").expect("folded");
        let mut all = [0; 65];
        border::join(job.graph.steps, &first, &second, &mut all);
        all
    }

    /// The second thread.
    fn follow(&self, job: &Job, back: &[u8]) {
        loop {
            let round = self.asked.load(Ordering::Acquire);
            if round == LAST {
                return;
            }
            if round == self.done.load(Ordering::Relaxed) {
                spin_loop();
                continue;
            }
            *self.record.lock().expect("no panic") = Some(fold(job, back));
            self.done.store(round, Ordering::Release);
        }
    }
}
