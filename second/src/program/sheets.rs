use super::{
    files::Input,
    findings,
    lines::{set, Lines},
    Answer, Given, Reply,
};
use crate::model::{self, targets, Graph, Marking};

/// More than any sheet is long.
const ROOM: usize = 40_000;

pub fn read(sheet: &Input) -> Result<(Graph, Marking), Lines> {
    model::sheet::read(sheet).map_err(|number| Lines::refused_for(number, sheet, findings::sheet(sheet, number)))
}

pub fn check(given: &Given) -> Reply {
    let [sheet] = given.files();
    let (g, _) = read(sheet)?;
    let lines = counts(Lines::default().say("sheet", "ok"), &g);
    Ok(Answer::new(lines.say("arrows", arrows(&g))))
}

pub fn show(given: &Given) -> Reply {
    let [sheet] = given.files();
    let (g, m) = read(sheet)?;
    let lines = actions(people(counts(Lines::default(), &g), &g), &g);
    let lines = arrow_by_arrow(steps(lines, &g, &m), &g);
    Ok(Answer::new(lines.say("arrows", arrows(&g)).ending(&m)))
}

pub fn write(given: &Given) -> Reply {
    let [sheet] = given.files();
    let (g, m) = read(sheet)?;
    let bytes = model::sheet::write(&g, m.write(), ROOM).map_err(Lines::refused)?;
    Ok(Answer { bytes, ..Answer::new(Lines::default()) })
}

/// The sheet of a mast with so many arms.
pub fn cabinet(given: &Given) -> Reply {
    let sheet = model::cabinet::write(given.arms, ROOM);
    let bytes = sheet.map_err(|number| Lines::refused(number).finding(findings::arms(given.arms)))?;
    Ok(Answer { bytes, ..Answer::new(Lines::default()) })
}

fn counts(lines: Lines, g: &Graph) -> Lines {
    lines.say("steps", g.steps).say("people", g.people).say("roles", g.roles).say("actions", g.actions)
}

fn arrows(g: &Graph) -> usize {
    [&g.conditions, &g.responses, &g.includes, &g.excludes].iter().map(|arrows| arrows.len()).sum()
}

fn people(lines: Lines, g: &Graph) -> Lines {
    (0..g.people).fold(lines, |lines, person| {
        let roles = set(&targets(&g.holds, person));
        lines.say(format_args!("person {person}"), format_args!("roles {roles}"))
    })
}

fn actions(lines: Lines, g: &Graph) -> Lines {
    (0..g.actions).fold(lines, |lines, action| {
        let roles = set(&targets(&g.allows, action));
        lines.say(format_args!("action {action}"), format_args!("roles {roles}"))
    })
}

fn steps(lines: Lines, g: &Graph, m: &Marking) -> Lines {
    (0..g.steps).fold(lines, |lines, step| {
        let action = g.labels[&step];
        let roles = set(&targets(&g.allows, action));
        let included = if m.included.contains(&step) { "included" } else { "excluded" };
        let done = if m.done.contains(&step) { ", done" } else { "" };
        let due = if m.due.contains(&step) { ", due" } else { "" };
        lines.say(format_args!("step {step}"), format_args!("action {action}, roles {roles}, {included}{done}{due}"))
    })
}

/// What each arrow means, in the sheet's order.
fn arrow_by_arrow(mut lines: Lines, g: &Graph) -> Lines {
    for (a, b) in &g.conditions {
        let meaning = format_args!("if step {a} is included, it must have been done before step {b}");
        lines = lines.say(format_args!("condition {a} {b}"), meaning);
    }
    for (a, b) in &g.responses {
        lines = lines.say(format_args!("response {a} {b}"), format_args!("doing step {a} makes step {b} due"));
    }
    for (a, b) in &g.includes {
        lines = lines.say(format_args!("include {a} {b}"), format_args!("doing step {a} includes step {b}"));
    }
    for (a, b) in &g.excludes {
        lines = lines.say(format_args!("exclude {a} {b}"), format_args!("doing step {a} excludes step {b}"));
    }
    lines
}
