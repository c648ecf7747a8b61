use crate::inputs::{searches, Search};
use crate::{border, race::race};
use second::data::{Ends, Graph, Marking, NONE, REACHABLE, UNDECIDED};
use second::{peer, sample};

/// The bytes of the largest store.
const STORE: usize = 24 * 2_048;

/// With the largest store: full and undecided; nearly full, and no way out of any marking in it; a way out of one that
/// is found late; and one that is found at once.
pub fn run() {
    line("can_end-undecided", &searches(64, |ends| ends.verdict == UNDECIDED));
    line("can_end-undecided/12", &searches(12, |ends| ends.verdict == UNDECIDED));
    line("can_end-none", &searches(64, |ends| ends.verdict == NONE && ends.looked > 1_800));
    line("can_end-none/10", &searches(10, |ends| ends.verdict == NONE && ends.looked > 1_800));
    line("can_end-reachable/10", &searches(10, |ends| ends.verdict == REACHABLE && ends.looked > 1_000));
    line("can_end-at-once", &[Search { graph: sample::graph(), marking: sample::REBOOTED }]);
}

/// Against the peer, which has a hash map, and against one with an index made for the search.
fn line(name: &str, searches: &[Search]) {
    against(name, searches, peer::can_end);
    against(&format!("{name}/slots"), searches, peer::can_end_by_slots);
}

fn against(name: &str, searches: &[Search], rival: fn(&Graph, Marking, &mut [u8]) -> Ends) {
    race(
        name,
        searches,
        vec![0xa5; STORE],
        |search, store| border::can_end(&search.graph, search.marking, store),
        |search, store| rival(&search.graph, search.marking, store),
    );
}
