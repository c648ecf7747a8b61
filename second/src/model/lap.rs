use super::{check::refused, journal::entries, take::take_entry, Graph, Marking};
use crate::data::{self, Asked, Entry, Lapped, ACCEPTED, STARVED};

/// One point of the run: the marking there, and the step that is then done.
struct Point {
    marking: Marking,
    step: u64,
}

/// The stem once, then the lap again and again. An empty lap is asked for after graph, journals and marking, and before any
/// entry.
pub fn lap(g: &Graph, m: data::Marking, stem: &[u8], lap: &[u8]) -> Lapped {
    let m = Marking::read(m);
    let journals = (entries(stem), entries(lap));
    let bad_length = journals.0.is_none() || journals.1.is_none();
    match refused(g, &[(7, bad_length), (8, m.names_beyond(g.steps)), (17, lap.is_empty())]) {
        0 => endless(g, m, &journals.0.unwrap_or_default(), &journals.1.unwrap_or_default()),
        number => Lapped { number, ..Lapped::default() },
    }
}

/// Goes on until a marking at a lap's start has been there before: from then on the run repeats what it did since.
fn endless(g: &Graph, mut at: Marking, stem: &[Entry], lap: &[Entry]) -> Lapped {
    let mut run = Vec::new();
    if let Err(stopped) = go(g, &mut at, stem, &mut run) {
        return stopped;
    }
    let mut starts: Vec<(Marking, usize)> = Vec::new();
    loop {
        if let Some((_, place)) = starts.iter().find(|(marking, _)| *marking == at) {
            return verdict(g.steps, &run, *place);
        }
        starts.push((at.clone(), run.len()));
        if let Err(stopped) = go(g, &mut at, lap, &mut run) {
            // The stem is pass 0, and every lap from the third on is 3.
            return Lapped { pass: starts.len().min(3) as u64, ..stopped };
        }
    }
}

/// Runs the entries and adds their points, or tells where it stopped.
fn go(g: &Graph, at: &mut Marking, entries: &[Entry], run: &mut Vec<Point>) -> Result<(), Lapped> {
    for (index, entry) in (0..).zip(entries) {
        match take_entry(g, at, *entry) {
            Ok(after) => run.push(Point { marking: std::mem::replace(at, after), step: entry.step.into() }),
            Err(Asked { number, waiting }) => return Err(Lapped { number, waiting, index, ..Lapped::default() }),
        }
    }
    Ok(())
}

/// Of a run whose points from `period` on come again and again.
fn verdict(steps: u64, run: &[Point], period: usize) -> Lapped {
    let starved = (0..steps).find(|s| run[period..].iter().all(|point| waits(point, *s)));
    assert_eq!(accepted(run, period), starved.is_none(), "accepted and starved are opposites");
    match starved {
        None => Lapped { verdict: ACCEPTED, ..Lapped::default() },
        Some(step) => Lapped { verdict: STARVED, step, ..Lapped::default() },
    }
}

/// Definition 4: whenever a step is due, then or later comes a point where it is done, or where it is not included.
fn accepted(run: &[Point], period: usize) -> bool {
    let relieved = |point: &Point, s| point.step == s || !point.marking.included.contains(&s);
    (0..run.len()).all(|i| {
        let mut due = run[i].marking.due.iter();
        due.all(|s| run[i..].iter().chain(&run[period..]).any(|later| relieved(later, *s)))
    })
}

/// Due and included, and not the step that is done. Where it is excluded it is not included at the next point.
fn waits(point: &Point, s: u64) -> bool {
    point.marking.due.contains(&s) && point.marking.included.contains(&s) && point.step != s
}
