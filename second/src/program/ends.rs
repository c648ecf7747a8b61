//! Can the job still end after a journal?

use super::{
    findings,
    journals::{begun, told},
    lines::Lines,
    Answer, Given, Reply, Said,
};
use crate::data::{Ends, NONE, REACHABLE};
use crate::model;

/// The largest store, which is taken where none is asked for.
const MOST: u64 = 2_048;

/// The bytes of a marking.
const BYTES: usize = 24;

pub fn ends(given: &Given) -> Reply {
    let [sheet, journal] = given.files();
    let (g, start) = begun(given, sheet, &[journal])?;
    let ran = model::run(&g, start, journal);
    let (lines, end) = told(&g, ran, journal)?;
    let markings = given.markings.unwrap_or(MOST);
    if let Some(finding) = findings::store(markings) {
        return Err(Lines::refused(22).finding(Some(finding)).marking(&end));
    }
    let (ends, _) = model::can_end(&g, ran.marking, BYTES * markings as usize);
    let (said, lines) = answered(lines, ends, markings);
    Ok(Answer { said, ..Answer::new(lines) })
}

fn answered(lines: Lines, Ends { verdict, fewest, looked, .. }: Ends, markings: u64) -> (Said, Lines) {
    match verdict {
        REACHABLE => {
            let lines = lines.say("can end", "yes").say("fewest entries", fewest);
            (Said::Yes, lines.say("looked at", looked))
        }
        NONE => (Said::No, lines.say("can end", "no").say("looked at", looked)),
        _ => {
            let more = if markings == MOST { "and it may not have more" } else { "a larger one could tell" };
            let lines = lines.say("can end", "undecided").say("looked at", looked);
            (Said::Undecided, lines.say("store", format_args!("{markings} markings are too few, {more}")))
        }
    }
}
