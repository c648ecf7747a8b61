//! Who may take which step after a journal: everyone, or one person.

use super::{
    entries::AnyEntry,
    findings,
    journals::{begun, told},
    lines::{set, Lines},
    Answer, Given, Reply,
};
use crate::data::Asked;
use crate::model::{self, members, Graph, Marking};

pub fn may(given: &Given) -> Reply {
    let [sheet, journal] = given.files();
    let (g, start) = begun(given, sheet, &[journal])?;
    let (lines, end) = told(&g, model::run(&g, start, journal), journal)?;
    if let Some(finding) = given.person.and_then(|person| findings::person(&g, person)) {
        return Err(Lines::refused(11).finding(Some(finding)).marking(&end));
    }
    let lines = (0..g.steps).fold(lines, |lines, step| may_take(lines, &g, &end, given.person, step));
    Ok(Answer::new(lines.ending(&end)))
}

/// Each is asked in every role. Where all are refused, the highest number is the one that the best suited meet.
fn may_take(lines: Lines, g: &Graph, m: &Marking, person: Option<u64>, step: u64) -> Lines {
    let people = person.map_or(0..g.people, |person| person..person + 1);
    let entries = people.flat_map(|person| (0..g.roles).map(move |role| AnyEntry { person, step, role }));
    let asked = entries.map(|entry| (entry, model::ask_entry(g, m, entry.stored())));
    let (allowed, refused): (Vec<_>, Vec<_>) = asked.partition(|(_, asked)| asked.number == 0);
    if allowed.is_empty() {
        let why = match refused.iter().map(|(_, asked)| *asked).max_by_key(|asked| asked.number) {
            Some(Asked { number: 15, waiting }) => format!("waits for {}", set(&members(waiting))),
            Some(Asked { number: 14, .. }) => "not included".into(),
            _ => person.map_or("nobody holds a role that it has".into(), |person| {
                format!("person {person} holds no role that it has")
            }),
        };
        return lines.say("blocked", format_args!("step {step}, {why}"));
    }
    allowed.iter().fold(lines, |lines, (AnyEntry { person, role, .. }, _)| {
        lines.say("may", format_args!("step {step}, person {person}, role {role}"))
    })
}
