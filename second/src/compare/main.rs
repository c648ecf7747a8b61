//! `compare [--seed S] [--cases N] [--full M] [--first I] [--only FLOOR]`: makes N random and damaged inputs for each floor, and
//! M with journals of full length or nearly full stores, from case I on; calls the box, the model and the peer, and says
//! how often each answer came and where they differ. Fails (status 1) where they differ, or where in 20,000 cases or more
//! an answer that a call can give never came up.

mod cabinet;
mod ends;
mod floor;
mod folds;
mod journals;
mod laps;
mod lent;
mod records;
mod report;
mod rules;
mod seen;
mod sheets;
mod tracker;
mod words;

use floor::Play;
use report::Report;
use second::cases::Dice;
use std::process::ExitCode;
use ulzhartep::border;

const FLOORS: &[&dyn Play] = &[
    &rules::FLOOR,
    &journals::FLOOR,
    &records::FLOOR,
    &folds::FLOOR,
    &sheets::FLOOR,
    &laps::FLOOR,
    &tracker::FLOOR,
    &ends::FLOOR,
    &cabinet::FLOOR,
];

struct Options {
    seed: u64,
    cases: u64,
    full: u64,
    first: u64,
    floors: Vec<&'static dyn Play>,
}

fn options() -> Option<Options> {
    let mut options = Options { seed: 1, cases: 20_000, full: 0, first: 0, floors: FLOORS.to_vec() };
    let mut words = std::env::args().skip(1);
    while let Some(word) = words.next() {
        let value = words.next()?;
        let place = match word.as_str() {
            "--seed" => &mut options.seed,
            "--cases" => &mut options.cases,
            "--full" => &mut options.full,
            "--first" => &mut options.first,
            "--only" => {
                options.floors.retain(|floor| floor.name() == value);
                continue;
            }
            _ => return None,
        };
        *place = value.parse().ok()?;
    }
    (!options.floors.is_empty()).then_some(options)
}

fn main() -> ExitCode {
    let Some(Options { seed, cases, full, first, floors }) = options() else {
        let names: Vec<_> = FLOORS.iter().map(|floor| floor.name()).collect();
        eprintln!("compare [--seed S] [--cases N] [--full M] [--first I] [--only {}]", names.join("|"));
        return ExitCode::from(2);
    };
    let mut report = Report::new(&floors);
    for floor in &floors {
        for (is_full, number, how) in [(false, cases, "--cases 1"), (true, full, "--cases 0 --full 1")] {
            for index in first..first.saturating_add(number) {
                let again = format!("--seed {seed} --only {} --first {index} {how}", floor.name());
                floor.play(Dice::new(seed, index), is_full, &again, &mut report);
            }
        }
    }
    if report.close(&floors, cases, full) {
        ExitCode::SUCCESS
    } else {
        ExitCode::FAILURE
    }
}
