use super::{all, beyond, length, marking_sets, number, see, Finding, Look};
use crate::program::lines::set;
use std::collections::BTreeSet;
use std::ops::Range;

/// Why a sheet has a number from 1 to 6. The lower numbers do not hold.
pub fn sheet(sheet: &[u8], refused: u64) -> Option<Finding> {
    let look = match refused {
        1 => layout(sheet),
        2 => counts(sheet),
        3 => sizes(sheet),
        4 => members_beyond(sheet),
        5 => arrows(sheet),
        6 => both(sheet),
        _ => Ok(()),
    };
    look.err()
}

/// What a sheet is like by its number of bodies.
struct Form {
    bodies: usize,
    /// The bytes of the counts.
    counts: usize,
    /// The shortest sheet that is read, and the longest.
    least: usize,
    most: usize,
    /// What has the role sets of body 3: one, and all.
    allowed: [&'static str; 2],
}

const FIVE: Form = Form { bodies: 5, counts: 3, least: 57, most: 37_077, allowed: ["step", "steps"] };
const SIX: Form = Form { bodies: 6, counts: 4, least: 64, most: 37_147, allowed: ["action", "actions"] };

impl Form {
    /// By byte 0; one of six where that says nothing.
    fn of(sheet: &[u8]) -> Form {
        match sheet {
            [5, ..] => FIVE,
            _ => SIX,
        }
    }

    /// Where the bodies begin.
    fn start(&self) -> usize {
        1 + 5 * self.bodies
    }
}

/// Where a body lies, by line `body` of the contents, the first for 1.
fn place(sheet: &[u8], body: usize) -> Range<usize> {
    let line = &sheet[5 * body - 4..][..5];
    let (offset, length) = (number(&line[1..3]) as usize, number(&line[3..5]) as usize);
    offset..offset + length
}

fn layout(sheet: &[u8]) -> Look {
    let form = Form::of(sheet);
    // Of no bytes the length is told, and not the first of them.
    let first = sheet.first().copied().unwrap_or(6);
    see([5, 6].contains(&first), format_args!("byte 0 is {first}"), "6 or 5, the number of bodies")?;
    let lengths = form.start() + form.counts..=form.most;
    see(lengths.contains(&sheet.len()), length(sheet), format_args!("{} to {}", form.least, form.most))?;
    let mut end = form.start();
    for body in 1..=form.bodies {
        let named = usize::from(sheet[5 * body - 4]);
        let line = format!("line {body} of the contents names body {named}");
        see(named == body, line, format_args!("body {body}"))?;
        let place = place(sheet, body);
        see(place.start == end, format_args!("body {body} begins at {}", place.start), format_args!("at {end}"))?;
        end = place.end;
    }
    let ends = format!("body {} ends at {end}, the sheet at {}", form.bodies, sheet.len());
    see(end == sheet.len(), ends, "one end for both")?;
    let has = |body| format!("body {body} has {} bytes", place(sheet, body).len());
    see(place(sheet, 1).len() == form.counts, has(1), form.counts)?;
    see(place(sheet, 2).len() == 24, has(2), 24)?;
    see(place(sheet, 5).len().is_multiple_of(3), has(5), "a multiple of 3")
}

/// Steps, people, roles and actions. In five bodies there are as many actions as steps.
fn counted(sheet: &[u8]) -> [u64; 4] {
    let form = Form::of(sheet);
    let counts = &sheet[form.start()..][..form.counts];
    [0, 1, 2, 3].map(|i| u64::from(*counts.get(i).unwrap_or(&counts[0])))
}

fn counts(sheet: &[u8]) -> Look {
    let names = [("steps", 64), ("people", 16), ("roles", 16), ("actions", 64)];
    counted(sheet).into_iter().zip(names).try_for_each(|(count, (what, most))| {
        see((1..=most).contains(&count), format_args!("{count} {what}"), format_args!("1 to {most}"))
    })
}

fn sizes(sheet: &[u8]) -> Look {
    let ([steps, people, _, actions], form) = (counted(sheet), Form::of(sheet));
    let fits = |body, size: u64, each: &str| {
        let bytes = place(sheet, body).len() as u64;
        see(bytes == size, format_args!("body {body} has {bytes} bytes"), format_args!("{size}, {each}"))
    };
    fits(3, 2 * actions, &format!("two for each of the {}", all(form.allowed[1], actions)))?;
    fits(4, 2 * people, &format!("two for each of the {}", all("people", people)))?;
    match form.bodies {
        6 => fits(6, steps, &format!("one for each of the {}", all("steps", steps))),
        _ => Ok(()),
    }
}

fn members_beyond(sheet: &[u8]) -> Look {
    let ([steps, _, roles, actions], form) = (counted(sheet), Form::of(sheet));
    let sets: Vec<u64> = sheet[place(sheet, 2)].chunks(8).map(number).collect();
    marking_sets([sets[0], sets[1], sets[2]], steps, " of the first marking")?;
    for (body, whose) in [(3, form.allowed[0]), (4, "person")] {
        for (i, stored) in sheet[place(sheet, body)].chunks(2).enumerate() {
            let beyond = beyond(number(stored), roles);
            see(beyond.is_empty(), format_args!("roles {} of {whose} {i}", set(&beyond)), all("roles", roles))?;
        }
    }
    let labels = if form.bodies == 6 { &sheet[place(sheet, 6)] } else { &[] };
    labels.iter().enumerate().try_for_each(|(step, action)| {
        let known = u64::from(*action) < actions;
        see(known, format_args!("action {action} of step {step}"), all("actions", actions))
    })
}

fn triples(sheet: &[u8]) -> Vec<[u8; 3]> {
    sheet[place(sheet, 5)].chunks(3).map(|arrow| [arrow[0], arrow[1], arrow[2]]).collect()
}

fn arrows(sheet: &[u8]) -> Look {
    let [steps, ..] = counted(sheet);
    let spelt = |[kind, from, to]: [u8; 3]| format!("{kind} {from} {to}");
    let mut before = None;
    for (i, arrow) in triples(sheet).into_iter().enumerate() {
        let found = format!("arrow {i} is {}", spelt(arrow));
        see(arrow[0] <= 3, &found, "a kind from 0 to 3")?;
        see(arrow[1..].iter().all(|step| u64::from(*step) < steps), &found, all("steps", steps))?;
        let after = before.map(spelt).unwrap_or_default();
        see(before < Some(arrow), format_args!("{found}, after {after}"), "arrows in ascending order, no arrow twice")?;
        before = Some(arrow);
    }
    Ok(())
}

fn both(sheet: &[u8]) -> Look {
    let arrows: BTreeSet<[u8; 3]> = triples(sheet).into_iter().collect();
    arrows.iter().filter(|arrow| arrow[0] == 2).try_for_each(|&[_, from, to]| {
        let found = format!("step {from} includes and excludes step {to}");
        see(!arrows.contains(&[3, from, to]), found, "one of the two")
    })
}
