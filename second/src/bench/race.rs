//! The two runners on one track.

use crate::count;
use std::fmt::Debug;
use std::hint::black_box;
use std::time::{Duration, Instant};

const ROUNDS: usize = 500;

/// How long each runner runs in one round, about.
const ROUND: Duration = Duration::from_micros(150);

/// Runs both over all inputs, after seeing that they answer alike and leave the same in the memory that is lent to them, and
/// prints the line.
pub fn race<I, O: Clone + PartialEq + Debug, A: PartialEq + Debug>(
    name: &str,
    inputs: &[I],
    lent: O,
    ours: impl Fn(&I, &mut O) -> A,
    peer: impl Fn(&I, &mut O) -> A,
) {
    let [mut of_ours, mut of_peer] = [lent.clone(), lent];
    for input in inputs {
        let answers = (ours(input, &mut of_ours), peer(input, &mut of_peer));
        assert_eq!((answers.0, &of_ours), (answers.1, &of_peer), "{name}: the answers differ");
    }
    let [ours, peer] = least(|| each(inputs, &mut of_ours, &ours), || each(inputs, &mut of_peer, &peer));
    let calls = inputs.len() as f64;
    print(name, ours / calls, peer / calls);
}

fn each<I, O, A>(inputs: &[I], lent: &mut O, call: impl Fn(&I, &mut O) -> A) {
    for input in inputs {
        // Looked at where it lies: a struct that is moved would cost both the same, and hide what they cost themselves.
        black_box(&call(black_box(input), black_box(lent)));
    }
}

pub fn print(name: &str, ours: f64, other: f64) {
    println!("{name:22} {ours:12.1} {other:12.1} {:8.3}", ours / other);
}

/// The nanoseconds that each of the two takes, the least of many rounds; or else the instructions.
pub fn least(mut one: impl FnMut(), mut other: impl FnMut()) -> [f64; 2] {
    if count::ASKED {
        return [count::pass(one), count::pass(other)];
    }
    let (passes_of_one, passes_of_other) = (passes(&mut one), passes(&mut other));
    let mut least = [f64::INFINITY; 2];
    for round in 0..ROUNDS {
        // Who goes first changes, so that neither always finds the other's warm caches.
        for runner in [round % 2, 1 - round % 2] {
            let time = if runner == 0 { lap(&mut one, passes_of_one) } else { lap(&mut other, passes_of_other) };
            least[runner] = least[runner].min(time);
        }
    }
    least
}

/// How often a runner goes round in one round.
fn passes(runner: &mut impl FnMut()) -> u32 {
    let mut passes = 1;
    while lap(runner, passes) * f64::from(passes) < ROUND.as_nanos() as f64 {
        passes *= 2;
    }
    passes
}

/// Nanoseconds per pass.
fn lap(runner: &mut impl FnMut(), passes: u32) -> f64 {
    let start = Instant::now();
    for _ in 0..passes {
        runner();
    }
    start.elapsed().as_nanos() as f64 / f64::from(passes)
}
