use super::start;
use crate::data::{Graph, Marking, Written};
use crate::peer::{
    check::{inside, well_formed},
    Refusal,
};

/// How many bodies are written.
pub const BODIES: usize = 6;

/// Writes the sheet to the beginning of the room.
pub fn write(g: &Graph, m: Marking, room: &mut [u8]) -> Written {
    match placed(g, m, room) {
        Ok(length) => Written { number: 0, length: length as u64 },
        Err(refusal) => Written { number: refusal.number(), length: 0 },
    }
}

fn placed(g: &Graph, m: Marking, room: &mut [u8]) -> Result<usize, Refusal> {
    // A marking beyond the counts is as bad as a graph beyond them, and comes before a pair that includes and excludes.
    let checked = well_formed(g);
    if matches!(checked, Ok(()) | Err(Refusal::Both)) && inside(g.steps, m).is_err() {
        return Err(Refusal::Beyond);
    }
    checked?;
    let [steps, people, actions] = [g.steps, g.people, g.actions].map(|count| count as usize);
    let lengths = [4, 24, 2 * actions, 2 * people, 3 * count(g), steps];
    let length = start(BODIES) + lengths.iter().sum::<usize>();
    let sheet = room.get_mut(..length).ok_or(Refusal::Room)?;
    let (contents, bodies) = sheet.split_at_mut(start(BODIES));
    write_contents(contents, lengths);
    let (counts, bodies) = bodies.split_at_mut(4);
    counts.copy_from_slice(&[g.steps, g.people, g.roles, g.actions].map(|count| count as u8));
    let (marking, bodies) = bodies.split_at_mut(24);
    let sets = [m.done, m.due, m.included];
    marking.as_chunks_mut().0.iter_mut().zip(sets).for_each(|(bytes, set)| *bytes = set.to_le_bytes());
    let (roles, bodies) = bodies.split_at_mut(2 * (actions + people));
    let sets = g.allows[..actions].iter().chain(&g.holds[..people]);
    roles.as_chunks_mut().0.iter_mut().zip(sets).for_each(|(bytes, set)| *bytes = (*set as u16).to_le_bytes());
    let (arrows, labels) = bodies.split_at_mut(lengths[4]);
    write_arrows(arrows, g);
    labels.iter_mut().zip(&g.labels).for_each(|(byte, label)| *byte = *label as u8);
    Ok(length)
}

/// How many arrows there are.
fn count(g: &Graph) -> usize {
    let tables = [&g.conditions, &g.responses, &g.includes, &g.excludes];
    tables.iter().flat_map(|rows| rows.iter()).map(|row| row.count_ones() as usize).sum()
}

pub fn write_contents(contents: &mut [u8], lengths: [usize; BODIES]) {
    contents[0] = BODIES as u8;
    let mut offset = start(BODIES);
    for (i, line) in contents[1..].as_chunks_mut().0.iter_mut().enumerate() {
        let ([o0, o1], [l0, l1]) = ((offset as u16).to_le_bytes(), (lengths[i] as u16).to_le_bytes());
        *line = [i as u8 + 1, o0, o1, l0, l1];
        offset += lengths[i];
    }
}

fn write_arrows(arrows: &mut [u8], g: &Graph) {
    let mut turned = [0u64; 64];
    for (to, &row) in g.conditions.iter().enumerate() {
        members(row).for_each(|from| turned[usize::from(from)] |= 1 << to);
    }
    let mut places = arrows.as_chunks_mut().0.iter_mut();
    for (kind, rows) in (0..).zip([&turned, &g.responses, &g.includes, &g.excludes]) {
        for (from, &row) in (0..).zip(rows) {
            for (to, place) in members(row).zip(&mut places) {
                *place = [kind, from, to];
            }
        }
    }
}

/// The members of a set, in ascending order.
fn members(mut set: u64) -> impl Iterator<Item = u8> {
    std::iter::from_fn(move || {
        let lowest = (set != 0).then(|| set.trailing_zeros() as u8)?;
        set &= set - 1;
        Some(lowest)
    })
}
