//! Sheets of random graphs of every size, in six bodies and in five, whole and damaged in every field; and graphs to be written into
//! a room.

use super::{
    graphs::{self, roles_of_steps, MOST},
    harm, job, markings,
    parts::Parts,
    Density, Dice,
};
use crate::data::{Bytes, Graph, Marking};
use crate::peer;
use crate::sample;

/// More than any sheet is long.
const ROOM: usize = 40_000;

/// The longest sheet in five bodies, and in six.
const LONGEST: [usize; 2] = [37_077, 37_147];

#[derive(Clone, Debug)]
pub struct Sheet {
    pub sheet: Bytes,
    pub graph: Graph,
    pub marking: Marking,
    /// Room for the graph's sheet, and what is in it before.
    pub room: Bytes,
}

pub fn make(dice: &mut Dice) -> Sheet {
    let (graph, marking) = whole(dice);
    let sheet = in_a_form(dice, &graph, marking);
    let (mut graph, mut marking) = if dice.one_in(2) { (graph, marking) } else { job(dice) };
    let length = written(&graph, marking).len();
    if dice.one_in(2) {
        harm(dice, &mut graph, &mut marking);
    }
    let faults = dice.pick(&[0, 0, 1, 1, 1, 2]);
    Sheet { sheet: Bytes(damaged(dice, sheet, faults)), graph, marking, room: room(dice, length) }
}

/// A well-formed graph with a marking: small ones half of the time, now and then one with all 12,288 arrows.
pub fn whole(dice: &mut Dice) -> (Graph, Marking) {
    let graph = match dice.below(32) {
        0 => graphs::sized(dice, MOST, [Density::Full; 6]),
        1 => sample::graph(),
        2..16 => graphs::well_formed(dice),
        _ => {
            let sizes = [8, 4, 4, 8].map(|most| 1 + dice.below(most));
            let densities = [(); 6].map(|()| dice.density());
            graphs::sized(dice, sizes, densities)
        }
    };
    let marking = markings::inside(dice, graph.steps);
    (graph, marking)
}

/// Its sheet, or nothing where it has none.
pub fn written(graph: &Graph, marking: Marking) -> Vec<u8> {
    let mut room = vec![0; ROOM];
    let length = peer::sheet::write(graph, marking, &mut room).length;
    room.truncate(length as usize);
    room
}

/// The sheet in five bodies of the graph in which every step is an action of its own and has the roles that it has here.
pub fn written_in_five(graph: &Graph, marking: Marking) -> Vec<u8> {
    let [steps, people] = [graph.steps, graph.people].map(|count| count as usize);
    let role_sets = |sets: &[u64]| sets.iter().flat_map(|set| (*set as u16).to_le_bytes()).collect::<Vec<_>>();
    let Parts { lines, bodies, .. } = Parts::new(&written(graph, marking));
    let mut parts = Parts {
        first: 5,
        lines: lines[..5].to_vec(),
        bodies: vec![
            [graph.steps, graph.people, graph.roles].map(|count| count as u8).to_vec(),
            marking.bytes(),
            role_sets(&roles_of_steps(graph)[..steps]),
            role_sets(&graph.holds[..people]),
            bodies[4].clone(),
        ],
    };
    parts.fit();
    parts.sheet()
}

/// In six bodies, and nearly as often in five.
pub fn in_a_form(dice: &mut Dice, graph: &Graph, marking: Marking) -> Vec<u8> {
    match dice.below(5) {
        0 | 1 => written_in_five(graph, marking),
        _ => written(graph, marking),
    }
}

/// Room that is most often just enough, with something in it already.
fn room(dice: &mut Dice, needed: usize) -> Bytes {
    let length = match dice.below(8) {
        0 => dice.below(needed + 1),
        1 | 2 => needed.saturating_sub(1),
        3 => needed + dice.below(100),
        4 => dice.pick(&[0, 1, 26, 31, 56, 63]),
        _ => needed,
    };
    let fill = dice.word() as u8;
    Bytes(vec![fill; length])
}

/// With so many things wrong with it, in any of its fields.
pub fn damaged(dice: &mut Dice, sheet: Vec<u8>, faults: usize) -> Vec<u8> {
    let mut parts = Parts::new(&sheet);
    for _ in 0..faults {
        match dice.below(16) {
            0 | 1 => {
                parts.fit();
                parts.spoil_contents(dice);
                return parts.sheet();
            }
            2 => return spoil_bytes(dice, parts.sheet()),
            3 | 4 => change_count(dice, &mut parts),
            5 | 6 => change_length(dice, &mut parts),
            7 if dice.one_in(4) => lengthen(dice, &mut parts),
            7..10 => name_beyond(dice, &mut parts),
            10 => mislabel(dice, &mut parts),
            11 | 12 => include_and_exclude(dice, &mut parts),
            _ => spoil_arrows(dice, &mut parts),
        }
        parts.fit();
    }
    parts.sheet()
}

/// Cut or lengthened, one byte changed, over-long, or nothing like a sheet.
fn spoil_bytes(dice: &mut Dice, mut sheet: Vec<u8>) -> Vec<u8> {
    match dice.below(6) {
        0 => sheet.truncate(sheet.len() - 1),
        1 => sheet.push(dice.word() as u8),
        2 => sheet.truncate(dice.pick(&[0, 1, 25, 26, 27, 28, 29, 30, 31, 34, 35, 56, 63])),
        3 => {
            let longest = dice.pick(&LONGEST);
            sheet.resize(dice.pick(&[longest, longest + 1, longest + 3, 65_535, 65_536, 65_600]), 0);
        }
        4 => (0..sheet.len()).for_each(|i| sheet[i] = dice.word() as u8),
        _ => {
            let place = dice.between(0, sheet.len());
            sheet[place] = dice.word() as u8;
        }
    }
    sheet
}

fn change_count(dice: &mut Dice, parts: &mut Parts) {
    let counts = &mut parts.bodies[0];
    if counts.is_empty() {
        return;
    }
    let i = dice.below(counts.len());
    let (less, more) = (counts[i].wrapping_sub(1), counts[i].wrapping_add(1));
    counts[i] = dice.pick(&[0, 16, 17, 64, 65, 255, less, more]);
}

/// A body with a few bytes less or more; the contents say so.
fn change_length(dice: &mut Dice, parts: &mut Parts) {
    let last = parts.bodies.len() - 1;
    let body = &mut parts.bodies[dice.pick(&[0, 1, 2, 2, 3, 3, 4, 4, last])];
    let length =
        dice.pick(&[0, body.len().saturating_sub(1), body.len().saturating_sub(2), body.len() + 1, body.len() + 2]);
    body.resize(length, 0);
}

/// A bit in the marking or in a role set, most often one beyond the counts.
fn name_beyond(dice: &mut Dice, parts: &mut Parts) {
    let [steps, _, roles, _] = parts.counts();
    let (body, width, count) = dice.pick(&[(1, 64, steps), (2, 16, roles), (3, 16, roles)]);
    let sets = parts.bodies[body].len() * 8 / width;
    if sets > 0 {
        let bit = width * dice.below(sets) + dice.between(usize::from(count).min(width - 1), width);
        parts.bodies[body][bit / 8] |= 1 << (bit % 8);
    }
}

/// Just as long as a sheet can be, or a byte longer, by one body; the contents say so.
fn lengthen(dice: &mut Dice, parts: &mut Parts) {
    let longest = dice.pick(&LONGEST) + dice.below(2);
    let more = longest.saturating_sub(parts.sheet().len());
    let i = dice.below(parts.bodies.len());
    parts.bodies[i].extend(vec![0; more]);
}

/// A step gets another action, most often one that there is not. In five bodies it has none, and something else is named beyond.
fn mislabel(dice: &mut Dice, parts: &mut Parts) {
    let actions = parts.counts()[3];
    match parts.bodies.get_mut(5) {
        Some(labels) if !labels.is_empty() => {
            let step = dice.between(0, labels.len());
            labels[step] = dice.pick(&[actions, actions, actions.wrapping_add(1), 0, 63, 64, 255]);
        }
        _ => name_beyond(dice, parts),
    }
}

/// A pair that is both, with the arrows still in order.
fn include_and_exclude(dice: &mut Dice, parts: &mut Parts) {
    let steps = usize::from(parts.counts()[0]).max(1);
    let (from, to) = (dice.between(0, steps) as u8, dice.between(0, steps) as u8);
    parts.change_arrows(|arrows| {
        arrows.extend([[2, from, to], [3, from, to]]);
        arrows.sort_unstable();
        arrows.dedup();
    });
}

/// Arrows out of order, one doubled, of a kind above 3, from or to an unknown step; or so many that the sheet is over-long.
fn spoil_arrows(dice: &mut Dice, parts: &mut Parts) {
    let steps = parts.counts()[0].into();
    parts.change_arrows(|arrows| {
        if arrows.is_empty() {
            arrows.push([0, 0, 0]);
        }
        let (i, other) = (dice.between(0, arrows.len()), dice.below(arrows.len()));
        match dice.below(8) {
            0 => arrows.swap(i, i.saturating_sub(1)),
            1 => arrows.swap(i, other),
            2 => arrows.insert(i, arrows[i]),
            3 => arrows.push([dice.pick(&[4, 5, 255]), 0, 0]),
            4 => arrows[i][0] = dice.pick(&[4, 0, 3]),
            5 => arrows[i][1] = dice.between(steps, 256) as u8,
            6 => arrows[i][2] = dice.between(steps, 256) as u8,
            _ if dice.one_in(8) => arrows.resize(dice.pick(&[12_289, 12_400, 21_000]), [3, 63, 63]),
            _ => arrows[i] = [(); 3].map(|()| dice.word() as u8 % 8),
        }
    });
}
