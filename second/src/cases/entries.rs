use super::{crowds, graphs::roles_of_steps, Dice};
use crate::data::{Entry, Graph, Marking};

/// An entry, with the marking bent where needed, so that each answer comes up often whatever the graph is like. For a
/// step that waits for nearly all the graph is bent too.
pub fn aimed(dice: &mut Dice, g: &mut Graph, m: &mut Marking) -> Entry {
    let mut entry = fitting(dice, g);
    let this = 1u64.checked_shl(entry.step.into()).unwrap_or(0);
    match dice.below(15) {
        0 => entry = known(dice, g),
        1 | 2 => make_unknown(dice, g, &mut entry),
        3 => entry.person = known(dice, g).person,
        4 => entry.step = known(dice, g).step,
        5 => entry.role = known(dice, g).role,
        6 => m.included &= !this,
        7..=9 => make_waiting(dice, g, m, entry),
        10 | 11 => crowds::gather(dice, g, m, entry),
        _ => make_moved(dice, g, m, entry),
    }
    entry
}

/// A role, a person who holds it and a step that has it, as far as the graph has such.
pub fn fitting(dice: &mut Dice, g: &Graph) -> Entry {
    let union = |rows: &[u64]| rows.iter().fold(0, |union, row| union | row);
    let Entry { person, step, role } = known(dice, g);
    let roles = roles_of_steps(g);
    let role = dice.member(union(&g.holds) & union(&roles)).unwrap_or(role);
    let with_role =
        |rows: &[u64]| (0..rows.len()).filter(|&i| rows[i] >> (role % 64) & 1 == 1).fold(0, |set, i| set | 1 << i);
    Entry {
        person: dice.member(with_role(&g.holds)).unwrap_or(person),
        step: dice.member(with_role(&roles)).unwrap_or(step),
        role,
    }
}

pub fn known(dice: &mut Dice, g: &Graph) -> Entry {
    let [person, step, role] =
        [g.people, g.steps, g.roles].map(|count| dice.between(0, count.clamp(1, 256) as usize) as u8);
    Entry { person, step, role }
}

/// At least one place names something beyond the counts, most often the first number beyond.
pub fn make_unknown(dice: &mut Dice, g: &Graph, entry: &mut Entry) {
    let places = dice.pick(&[1, 1, 2, 2, 4, 4, 3, 5, 6, 7]);
    for (i, (place, count)) in
        [(&mut entry.person, g.people), (&mut entry.step, g.steps), (&mut entry.role, g.roles)].into_iter().enumerate()
    {
        if places >> i & 1 == 1 {
            *place = dice.between(count.min(255) as usize, 256) as u8;
        }
    }
}

/// Includes the step, and one of its conditions, if it has any, that is then not done. Half of the time it is the only one that
/// is waited for, so that every step comes up alone.
pub fn make_waiting(dice: &mut Dice, g: &Graph, m: &mut Marking, entry: Entry) {
    if dice.one_in(2) {
        make_moved(dice, g, m, entry);
    }
    let step = usize::from(entry.step % 64);
    m.included |= 1 << step;
    if let Some(condition) = dice.member(g.conditions[step]) {
        m.included |= 1 << condition;
        m.done &= !(1 << condition);
    }
}

/// Includes the step, and has each waiting condition done or excluded.
pub fn make_moved(dice: &mut Dice, g: &Graph, m: &mut Marking, entry: Entry) {
    let step = usize::from(entry.step % 64);
    m.included |= 1 << step;
    let waiting = g.conditions[step] & m.included & !m.done;
    // A step that waits for itself cannot be excluded, only done.
    let excluded = waiting & dice.pick(&[0, u64::MAX]) & !(1 << step);
    m.included &= !excluded;
    m.done |= waiting & !excluded;
}
