use super::{
    sheet::{self, start, write_contents, BODIES},
    Refusal,
};
use crate::data::{Graph, Marking, Written};

/// Writes the sheet of a mast with so many arms to the beginning of the room. There is no graph: each byte follows from the
/// arms.
pub fn cabinet(arms: u64, room: &mut [u8]) -> Written {
    match placed(arms, room) {
        Ok(length) => Written { number: 0, length: length as u64 },
        Err(refusal) => Written { number: refusal.number(), length: 0 },
    }
}

fn placed(arms: u64, room: &mut [u8]) -> Result<usize, Refusal> {
    if !(2..=16).contains(&arms) {
        return Err(Refusal::Arms);
    }
    let (arms, steps) = (arms as usize, arms as usize + 2);
    let lengths = [4, 24, 2 * steps, 4, 3 * (4 * arms + 1), steps];
    let length = start(BODIES) + lengths.iter().sum::<usize>();
    let sheet = room.get_mut(..length).ok_or(Refusal::Room)?;
    let (contents, bodies) = sheet.split_at_mut(start(BODIES));
    write_contents(contents, lengths);
    let (counts, bodies) = bodies.split_at_mut(lengths[0]);
    counts.copy_from_slice(&[steps as u8, 2, 2, steps as u8]);
    let (marking, bodies) = bodies.split_at_mut(lengths[1]);
    let sets: [u64; 3] = [0, ((1 << arms) - 1) << 1, 0b11];
    marking.as_chunks_mut().0.iter_mut().zip(sets).for_each(|(bytes, set)| *bytes = set.to_le_bytes());
    let (roles, bodies) = bodies.split_at_mut(lengths[2] + lengths[3]);
    write_roles(roles.as_chunks_mut().0, steps);
    let (arrows, labels) = bodies.split_at_mut(lengths[4]);
    write_arrows(arrows.as_chunks_mut().0, arms);
    labels.iter_mut().zip(0..).for_each(|(label, step)| *label = step);
    Ok(length)
}

/// Of the actions, the first for both roles and the last for the second, and of the two people.
fn write_roles(roles: &mut [[u8; 2]], steps: usize) {
    roles.fill([0b01, 0]);
    roles[0] = [0b11, 0];
    roles[steps - 1] = [0b10, 0];
    roles[steps + 1] = [0b10, 0];
}

/// Ascending, as they stand in a sheet.
fn write_arrows(arrows: &mut [[u8; 3]], arms: usize) {
    let (due, arrows) = arrows.split_at_mut(arms);
    let (opened, arrows) = arrows.split_at_mut(arms + 1);
    let (shut, closed) = arrows.split_at_mut(arms);
    due.iter_mut().zip(1..).for_each(|(arrow, check)| *arrow = [1, 0, check]);
    opened.iter_mut().zip(0..).for_each(|(arrow, step)| *arrow = [2, step, step + 1]);
    shut.iter_mut().zip(2..).for_each(|(arrow, step)| *arrow = [3, 0, step]);
    closed.iter_mut().zip(1..).for_each(|(arrow, check)| *arrow = [3, check, check]);
}

/// The same by way of the graph, as ours goes: the job is made, and written as any other.
pub fn cabinet_by_graph(arms: u64, room: &mut [u8]) -> Written {
    if !(2..=16).contains(&arms) {
        return Written { number: Refusal::Arms.number(), length: 0 };
    }
    let (graph, marking) = job(arms as usize);
    sheet::write(&graph, marking, room)
}

fn job(arms: usize) -> (Graph, Marking) {
    let publish = arms + 1;
    let checks = ((1 << arms) - 1) << 1;
    let mut g = Graph::bare(arms as u64 + 2, 2, 2);
    g.responses[0] = checks;
    g.excludes[0] = checks << 1;
    g.includes[0] = 0b10;
    g.allows[0] = 0b11;
    for check in 1..publish {
        g.includes[check] = 1 << (check + 1);
        g.excludes[check] = 1 << check;
        g.allows[check] = 0b01;
    }
    g.allows[publish] = 0b10;
    (g.holds[0], g.holds[1]) = (0b01, 0b10);
    (g, Marking { done: 0, due: checks, included: 0b11 })
}
