//! Instructions in place of nanoseconds, for `scripts/count`: its plugin counts what is executed between one `pause` and the next,
//! and writes that to the standard input.

use std::hint::spin_loop;
use std::io::stdin;

/// Fixed when it is built, so that what is timed has nothing of this in it.
pub const ASKED: bool = cfg!(feature = "count");

/// The instructions of one pass, after two that warm up.
pub fn pass(mut runner: impl FnMut()) -> f64 {
    let mut count = String::new();
    for _ in 0..3 {
        // Compiled to `pause`, which nothing else executes where no thread waits for another.
        spin_loop();
        runner();
        spin_loop();
        count.clear();
        stdin().read_line(&mut count).expect("a line of the plugin's");
    }
    count.trim().parse().expect("the plugin's count")
}
