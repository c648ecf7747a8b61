use super::start;
use crate::data::{Graph, Marking};
use crate::peer::{
    check::{check_counts, first, inside},
    number, Refusal,
};

/// Puts the sheet's graph and first marking where they are to lie, or leaves that as it is.
pub fn read(sheet: &[u8], graph: &mut Graph, marking: &mut Marking) -> u64 {
    number(place(sheet, graph, marking))
}

/// What is read of either form.
struct Bodies<'a> {
    counts: [u8; 4],
    sets: &'a [u8],
    action_roles: &'a [u8],
    person_roles: &'a [u8],
    arrows: &'a [u8],
    labels: &'a [u8],
}

fn place(sheet: &[u8], graph: &mut Graph, marking: &mut Marking) -> Result<(), Refusal> {
    let Bodies { counts, sets, action_roles, person_roles, arrows, labels } = match sheet {
        [6, ..] => of_six(sheet),
        [5, ..] => of_five(sheet),
        _ => None,
    }
    .ok_or(Refusal::Layout)?;
    let &[done, due, included] = sets.as_chunks().0 else { return Err(Refusal::Layout) };
    let [steps, people, roles, actions] = counts.map(u64::from);
    check_counts(steps, people, roles, actions)?;
    let twice = |count: u64| 2 * count as usize;
    if action_roles.len() != twice(actions) || person_roles.len() != twice(people) || labels.len() != steps as usize {
        return Err(Refusal::Bodies);
    }
    let [done, due, included] = [done, due, included].map(u64::from_le_bytes);
    let m = Marking { done, due, included };
    let mut g = Graph { actions, labels: [0; 64], ..Graph::bare(steps, people, roles) };
    let union = read_roles(action_roles, &mut g.allows) | read_roles(person_roles, &mut g.holds);
    let last = read_labels(labels, &mut g.labels);
    if inside(steps, m).is_err() || union & !first(roles) != 0 || last >= counts[3] {
        return Err(Refusal::Beyond);
    }
    read_arrows(arrows, counts[0], &mut g)?;
    if g.includes.iter().zip(&g.excludes).any(|(includes, excludes)| includes & excludes != 0) {
        return Err(Refusal::Both);
    }
    (*graph, *marking) = (g, m);
    Ok(())
}

fn of_six(sheet: &[u8]) -> Option<Bodies<'_>> {
    let [counts, sets, action_roles, person_roles, arrows, labels] = bodies(sheet, 37_147)?;
    let &counts = counts.as_array()?;
    Some(Bodies { counts, sets, action_roles, person_roles, arrows, labels })
}

/// Each step is an action of its own.
fn of_five(sheet: &[u8]) -> Option<Bodies<'_>> {
    const OWN: [u8; 256] = ascending();
    let [counts, sets, action_roles, person_roles, arrows] = bodies(sheet, 37_077)?;
    let &[steps, people, roles] = counts else { return None };
    let labels = &OWN[..usize::from(steps)];
    Some(Bodies { counts: [steps, people, roles, steps], sets, action_roles, person_roles, arrows, labels })
}

const fn ascending() -> [u8; 256] {
    let mut bytes = [0; 256];
    let mut i = 0;
    while i < 256 {
        bytes[i] = i as u8;
        i += 1;
    }
    bytes
}

/// The bodies, if the contents and the lengths that do not depend on form or counts are right.
fn bodies<const COUNT: usize>(sheet: &[u8], longest: usize) -> Option<[&[u8]; COUNT]> {
    let mut at = start(COUNT);
    if !(at..=longest).contains(&sheet.len()) {
        return None;
    }
    let mut bodies = [&[][..]; COUNT];
    for (i, line) in sheet[1..at].as_chunks().0.iter().enumerate() {
        let &[kind, o0, o1, l0, l1] = line;
        let (offset, length) = (u16::from_le_bytes([o0, o1]), u16::from_le_bytes([l0, l1]));
        if usize::from(kind) != i + 1 || usize::from(offset) != at {
            return None;
        }
        at += usize::from(length);
        bodies[i] = sheet.get(usize::from(offset)..at)?;
    }
    (at == sheet.len() && bodies[1].len() == 24 && bodies[4].len().is_multiple_of(3)).then_some(bodies)
}

/// Gives the union of the role sets.
fn read_roles(body: &[u8], sets: &mut [u64]) -> u64 {
    let mut union = 0;
    for (set, bytes) in sets.iter_mut().zip(body.as_chunks().0) {
        *set = u16::from_le_bytes(*bytes).into();
        union |= *set;
    }
    union
}

/// Gives the highest action.
fn read_labels(body: &[u8], labels: &mut [u64]) -> u8 {
    labels.iter_mut().zip(body).for_each(|(label, action)| *label = (*action).into());
    body.iter().fold(0, |last, action| last.max(*action))
}

fn read_arrows(body: &[u8], steps: u8, g: &mut Graph) -> Result<(), Refusal> {
    let mut least = 0;
    for &[kind, from, to] in body.as_chunks().0 {
        let place = u32::from_be_bytes([0, kind, from, to]);
        if from >= steps || to >= steps || place < least {
            return Err(Refusal::Arrows);
        }
        least = place + 1;
        let (a, b) = (usize::from(from % 64), usize::from(to % 64));
        match kind {
            0 => g.conditions[b] |= 1 << a,
            1 => g.responses[a] |= 1 << b,
            2 => g.includes[a] |= 1 << b,
            3 => g.excludes[a] |= 1 << b,
            _ => return Err(Refusal::Arrows),
        }
    }
    Ok(())
}
