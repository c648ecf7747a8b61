//! The job of a mast's cabinet, as a sheet, and what is asked of its journals.

use super::{graph::Pairs, sheet, Graph, Marking, Set};
use std::ops::RangeInclusive;

/// A mast has at least two arms and at most so many.
const MOST: u64 = 16;

const REBOOT: u64 = 0;

/// The roles, and who holds them: person 0 climbs, person 1 is at the desk.
const CLIMBER: u64 = 0;
const DESK: u64 = 1;

/// The sheet that goes into a room of so many bytes. The arms are asked for first, 30, and the room then, 18.
pub fn write(arms: u64, room: usize) -> Result<Vec<u8>, u64> {
    if !(2..=MOST).contains(&arms) {
        return Err(30);
    }
    let (graph, start) = job(arms);
    sheet::write(&graph, start.write(), room)
}

/// The arms by their checks: arm 1 is nearest to the ground, and its check is step 1.
fn checks(arms: u64) -> RangeInclusive<u64> {
    1..=arms
}

/// Behind the last check.
fn publish(arms: u64) -> u64 {
    arms + 1
}

/// The graph, and the marking at the start.
pub fn job(arms: u64) -> (Graph, Marking) {
    let publish = publish(arms);
    let steps = publish + 1;
    let mut graph = Graph {
        steps,
        people: 2,
        roles: 2,
        actions: steps,
        conditions: Pairs::new(),
        responses: Pairs::new(),
        includes: Pairs::new(),
        excludes: Pairs::new(),
        allows: Pairs::new(),
        holds: Pairs::from([(0, CLIMBER), (1, DESK)]),
        labels: (0..steps).map(|step| (step, step)).collect(),
    };
    reboots(&mut graph, arms);
    for arm in checks(arms) {
        let next = if arm == arms { publish } else { arm + 1 };
        graph.excludes.insert((arm, arm));
        graph.includes.insert((arm, next));
        graph.allows.insert((arm, CLIMBER));
    }
    graph.allows.insert((publish, DESK));
    let start = Marking { done: Set::new(), due: checks(arms).collect(), included: Set::from([REBOOT, 1]) };
    (graph, start)
}

/// A reboot has everything begin again: each check is due, and none is open but the first.
fn reboots(graph: &mut Graph, arms: u64) {
    graph.responses.extend(checks(arms).map(|arm| (REBOOT, arm)));
    graph.includes.insert((REBOOT, 1));
    graph.excludes.extend(checks(arms).filter(|arm| *arm != 1).map(|arm| (REBOOT, arm)));
    graph.excludes.insert((REBOOT, publish(arms)));
    graph.allows.extend([(REBOOT, CLIMBER), (REBOOT, DESK)]);
}

/// What is asked of the steps of a journal that runs through, by the steps alone: from the last reboot to each publish, or
/// from the start where there was none, the checks came in their order, and each of them once.
pub fn in_order(arms: u64, steps: &[u64]) -> bool {
    let mut published = (0..steps.len()).filter(|place| steps[*place] == publish(arms));
    published.all(|place| {
        let since = since_reboot(&steps[..place]).iter().copied();
        since.filter(|step| checks(arms).contains(step)).eq(checks(arms))
    })
}

/// After such a journal the job is finished exactly if this is so: from the last reboot on, or from the start, every check
/// has come.
pub fn all_checked(arms: u64, steps: &[u64]) -> bool {
    checks(arms).all(|arm| since_reboot(steps).contains(&arm))
}

/// The steps behind the last reboot, or all of them.
fn since_reboot(steps: &[u64]) -> &[u64] {
    let from = steps.iter().rposition(|step| *step == REBOOT).map_or(0, |place| place + 1);
    &steps[from..]
}
