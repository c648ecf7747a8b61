use super::{CONDITION, EXCLUDE, INCLUDE, RESPONSE};
use crate::data;
use crate::model::{
    check::refused,
    graph::{stored, Pairs},
    targets, Graph, Marking,
};

/// The sheet, in six bodies, that goes into a room of so many bytes. Refusals 2, 4 (graph or marking), 6, 18.
pub fn write(g: &Graph, m: data::Marking, room: usize) -> Result<Vec<u8>, u64> {
    match refused(g, &[(4, Marking::read(m).names_beyond(g.steps))]) {
        0 => Some(sheet(g, m)).filter(|sheet| sheet.len() <= room).ok_or(18),
        number => Err(number),
    }
}

fn sheet(g: &Graph, m: data::Marking) -> Vec<u8> {
    let bodies = [
        [g.steps, g.people, g.roles, g.actions].map(|count| count as u8).to_vec(),
        m.bytes(),
        role_sets(&g.allows, g.actions),
        role_sets(&g.holds, g.people),
        arrows(g),
        (0..g.steps).map(|step| g.labels[&step] as u8).collect(),
    ];
    let (mut sheet, mut offset) = (vec![6], 31);
    for (kind, body) in (1..).zip(&bodies) {
        sheet.push(kind);
        sheet.extend([offset % 256, offset / 256, body.len() % 256, body.len() / 256].map(|byte| byte as u8));
        offset += body.len();
    }
    sheet.extend(bodies.concat());
    sheet
}

fn role_sets(pairs: &Pairs, count: u64) -> Vec<u8> {
    (0..count).flat_map(|i| (stored(&targets(pairs, i)) as u16).to_le_bytes()).collect()
}

/// By kind, then from, then to.
fn arrows(g: &Graph) -> Vec<u8> {
    let kinds = [(CONDITION, &g.conditions), (RESPONSE, &g.responses), (INCLUDE, &g.includes), (EXCLUDE, &g.excludes)];
    let of_kind = |(kind, arrows): (u8, &Pairs)| -> Vec<u8> {
        arrows.iter().flat_map(|&(from, to)| [kind, from as u8, to as u8]).collect()
    };
    kinds.map(of_kind).concat()
}
