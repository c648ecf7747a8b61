use super::Dice;
use crate::data::Graph;

/// Harms the graph in one way. Where a graph has no room for the harm (a bit beyond 64 steps), it stays as it is.
pub fn damage(dice: &mut Dice, g: &mut Graph) {
    match dice.below(6) {
        0 => change_count(dice, g),
        1 => name_beyond(dice, g),
        2 => store_beyond(dice, g),
        3 => mislabel(dice, g),
        _ => include_and_exclude(dice, g),
    }
}

fn change_count(dice: &mut Dice, g: &mut Graph) {
    let (count, most) = match dice.below(4) {
        0 => (&mut g.steps, 64),
        1 => (&mut g.people, 16),
        2 => (&mut g.roles, 16),
        _ => (&mut g.actions, 64),
    };
    let near = [0, most, most + 1, 255, count.wrapping_sub(1), count.wrapping_add(1)];
    let far = [256, dice.come_round(*count), dice.any_size(), u64::MAX];
    *count = if dice.one_in(3) { dice.pick(&far) } else { dice.pick(&near) };
}

/// One of the six tables of sets: its rows, how many of them are in use, and how many members of a row are known.
struct Table<'a> {
    rows: &'a mut [u64],
    used: usize,
    known: usize,
}

fn table<'a>(dice: &mut Dice, g: &'a mut Graph) -> Table<'a> {
    let [steps, people, roles, actions] = [g.steps, g.people, g.roles, g.actions].map(|count| count.min(64) as usize);
    match dice.below(6) {
        0 => Table { rows: &mut g.conditions, used: steps, known: steps },
        1 => Table { rows: &mut g.responses, used: steps, known: steps },
        2 => Table { rows: &mut g.includes, used: steps, known: steps },
        3 => Table { rows: &mut g.excludes, used: steps, known: steps },
        4 => Table { rows: &mut g.allows, used: actions, known: roles },
        _ => Table { rows: &mut g.holds, used: people.min(16), known: roles },
    }
}

/// A row in use names something beyond the counts.
fn name_beyond(dice: &mut Dice, g: &mut Graph) {
    let Table { rows, used, known } = table(dice, g);
    if used > 0 && known < 64 {
        rows[dice.between(0, used)] |= 1 << dice.between(known, 64);
    }
}

/// A row beyond the counts holds something, most often something that would be known.
fn store_beyond(dice: &mut Dice, g: &mut Graph) {
    let Table { rows, used, known } = table(dice, g);
    if used < rows.len() {
        let bound = if dice.one_in(8) { 64 } else { known.max(1) };
        rows[dice.between(used, rows.len())] |= 1 << dice.between(0, bound);
    }
}

/// A step has an action beyond the count, at times one that comes round to its own; or an action is stored for no step, most often
/// one that there is.
fn mislabel(dice: &mut Dice, g: &mut Graph) {
    let (steps, actions) = (g.steps.min(64) as usize, g.actions);
    if dice.one_in(2) && steps > 0 {
        let label = &mut g.labels[dice.between(0, steps)];
        let near = [actions, actions.wrapping_add(1), 63, 64, 65, 255];
        let far = [256, dice.come_round(*label), dice.any_size(), 1 << 63, u64::MAX];
        *label = if dice.one_in(2) { dice.pick(&far) } else { dice.pick(&near) };
    } else if steps < 64 {
        let last = actions.saturating_sub(1);
        g.labels[dice.between(steps, 64)] = dice.pick(&[1, last, last, actions, 63, 256, 1 << 32, u64::MAX]);
    }
}

fn include_and_exclude(dice: &mut Dice, g: &mut Graph) {
    let steps = g.steps.clamp(1, 64) as usize;
    let (from, to) = (dice.between(0, steps), dice.between(0, steps));
    g.includes[from] |= 1 << to;
    g.excludes[from] |= 1 << to;
}
