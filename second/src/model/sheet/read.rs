use super::{CONDITION, EXCLUDE, INCLUDE, RESPONSE};
use crate::model::{
    check::{counts_out_of_range, includes_and_excludes},
    graph::{members, Pairs},
    lowest, Graph, Marking,
};

type Arrow = (u8, u8, u8);

/// The bodies of a sheet, of either form.
struct Bodies<'a> {
    counts: &'a [u8],
    marking: &'a [u8],
    action_roles: &'a [u8],
    person_roles: &'a [u8],
    arrows: &'a [u8],
    /// A sheet of five bodies has none: every step is an action of its own.
    labels: Option<&'a [u8]>,
}

/// The graph and the first marking. Refusals 1 to 6.
pub fn read(sheet: &[u8]) -> Result<(Graph, Marking), u64> {
    let bodies = bodies(sheet).ok_or(1u64)?;
    let arrows: Vec<Arrow> = bodies.arrows.chunks(3).map(|arrow| (arrow[0], arrow[1], arrow[2])).collect();
    let of_kind = |kind| arrows.iter().filter(move |arrow| arrow.0 == kind).map(|&(_, a, b)| (a.into(), b.into()));
    let counts: Vec<u64> = bodies.counts.iter().map(|count| (*count).into()).collect();
    let graph = Graph {
        steps: counts[0],
        people: counts[1],
        roles: counts[2],
        actions: counts.get(3).copied().unwrap_or(counts[0]),
        conditions: of_kind(CONDITION).collect(),
        responses: of_kind(RESPONSE).collect(),
        includes: of_kind(INCLUDE).collect(),
        excludes: of_kind(EXCLUDE).collect(),
        allows: pairs(bodies.action_roles),
        holds: pairs(bodies.person_roles),
        labels: match bodies.labels {
            Some(body) => (0..).zip(body.iter().map(|action| (*action).into())).collect(),
            None => (0..counts[0]).map(|step| (step, step)).collect(),
        },
    };
    let marking = first_marking(bodies.marking);
    match lowest(&[
        (2, counts_out_of_range(&graph)),
        (3, sizes_wrong(&graph, &bodies)),
        (4, beyond(&graph) || marking.names_beyond(graph.steps)),
        (5, arrows_wrong(graph.steps, &arrows)),
        (6, includes_and_excludes(&graph)),
    ]) {
        0 => Ok((graph, marking)),
        number => Err(number),
    }
}

/// None is number 1. Byte 0 is the number of bodies, and says by that how many bytes the counts have and how long a sheet can be.
fn bodies(sheet: &[u8]) -> Option<Bodies<'_>> {
    let (count, counted, longest) = match sheet.first()? {
        5 => (5, 3, 37_077),
        6 => (6, 4, 37_147),
        _ => return None,
    };
    let start = 1 + 5 * count;
    if sheet.len() < start + counted || sheet.len() > longest {
        return None;
    }
    let bodies = named(sheet, start)?;
    let lengths = bodies[0].len() == counted && bodies[1].len() == 24 && bodies[4].len() % 3 == 0;
    lengths.then(|| Bodies {
        counts: bodies[0],
        marking: bodies[1],
        action_roles: bodies[2],
        person_roles: bodies[3],
        arrows: bodies[4],
        labels: bodies.get(5).copied(),
    })
}

/// The bodies from this offset on, one after the other to the end, where the lines before it say so: the kind of the body, then its
/// offset and its length.
fn named(sheet: &[u8], start: usize) -> Option<Vec<&[u8]>> {
    let (mut bodies, mut end) = (Vec::new(), start);
    for line in sheet[1..start].chunks(5) {
        let (kind, offset, length) = (line[0], number(&line[1..3]) as usize, number(&line[3..5]) as usize);
        if usize::from(kind) != bodies.len() + 1 || offset != end {
            return None;
        }
        end = offset + length;
        bodies.push(sheet.get(offset..end)?);
    }
    (end == sheet.len()).then_some(bodies)
}

/// Low byte first.
fn number(bytes: &[u8]) -> u64 {
    bytes.iter().rev().fold(0, |number, byte| 256 * number + u64::from(*byte))
}

/// Ex, Re and In have 8 bytes each.
fn first_marking(body: &[u8]) -> Marking {
    let set = |i: usize| members(number(&body[8 * i..8 * i + 8]));
    Marking { done: set(0), due: set(1), included: set(2) }
}

/// One 2-byte role set for each.
fn pairs(body: &[u8]) -> Pairs {
    let of_one = |(i, set)| members(number(set)).into_iter().map(move |role| (i, role));
    (0..).zip(body.chunks(2)).flat_map(of_one).collect()
}

/// Number 3: 2 bytes for each action and each person, and 1 for each step.
fn sizes_wrong(g: &Graph, bodies: &Bodies) -> bool {
    let wrong = |body: &[u8], size: u64| body.len() as u64 != size;
    wrong(bodies.action_roles, 2 * g.actions)
        || wrong(bodies.person_roles, 2 * g.people)
        || bodies.labels.is_some_and(|body| wrong(body, g.steps))
}

/// Number 4, but for the first marking: a role or an action that is not there.
fn beyond(g: &Graph) -> bool {
    let roles_beyond = |pairs: &Pairs| pairs.iter().any(|(_, role)| *role >= g.roles);
    roles_beyond(&g.allows) || roles_beyond(&g.holds) || g.labels.values().any(|action| *action >= g.actions)
}

/// Number 5: one of no kind or of no step here, or one that does not come after the one before it.
fn arrows_wrong(steps: u64, arrows: &[Arrow]) -> bool {
    let unknown = |step: u8| u64::from(step) >= steps;
    arrows.iter().any(|&(kind, from, to)| kind > EXCLUDE || unknown(from) || unknown(to))
        || arrows.windows(2).any(|pair| pair[0] >= pair[1])
}
