//! `bench`: one line per call: name, nanoseconds ours, nanoseconds peer, ratio. Each is the least of many rounds in which the
//! two take turns, on the same inputs and with the same answers.

mod cabinet;
mod count;
mod ends;
mod inputs;
mod journals;
mod laps;
mod race;
mod records;
mod rules;
mod sheets;
mod tracker;

use ulzhartep::border;

fn main() {
    rules::run();
    journals::run();
    records::run();
    sheets::run();
    laps::run();
    tracker::run();
    ends::run();
    cabinet::run();
}
