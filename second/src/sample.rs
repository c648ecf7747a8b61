//! The small sample job: 0 reboot, 1 order check, 2 publish.

use crate::data::{Entry, Graph, Marking};

pub const START: Marking = Marking::new(0b000, 0b000, 0b111);

/// After the reboot (S2).
pub const REBOOTED: Marking = Marking::new(0b001, 0b010, 0b011);

/// After the reboot and the check (S4).
pub const CHECKED: Marking = Marking::new(0b011, 0b000, 0b111);

pub const REBOOT: Entry = Entry { person: 0, step: 0, role: 0 };
pub const CHECK: Entry = Entry { person: 0, step: 1, role: 0 };
pub const PUBLISH: Entry = Entry { person: 1, step: 2, role: 1 };

pub fn graph() -> Graph {
    let mut g = Graph::bare(3, 2, 2);
    g.conditions[2] = 1 << 1;
    g.responses[0] = 1 << 1;
    g.includes[1] = 1 << 2;
    g.excludes[0] = 1 << 2;
    g.allows[..3].copy_from_slice(&[0b11, 0b01, 0b10]);
    g.holds[..2].copy_from_slice(&[0b01, 0b10]);
    g
}
