use second::data::{Graph, Marking, Ran};

/// The least that a run can do: for each entry the loads (its bytes, the roles, the step's rows) and the four set operations
/// (what the step waits for, Ex, Re, In), and nothing tested on the way. The tests are gathered up and asked once, at the end.
pub fn run(g: &Graph, Marking { mut done, mut due, mut included }: Marking, journal: &[u8]) -> Ran {
    let (entries, _) = journal.as_chunks();
    let (mut waiting, mut roles) = (0, u64::MAX);
    for &[person, step, role] in entries {
        let at = usize::from(step % 64);
        waiting |= g.conditions[at] & included & !done;
        roles &= (g.holds[usize::from(person % 16)] & g.allows[g.labels[at] as usize % 64]) >> (role % 16);
        let this = 1 << at;
        done |= this;
        due = (due & !this) | g.responses[at];
        included = (included | g.includes[at]) & !g.excludes[at];
    }
    assert!(waiting == 0 && roles & 1 == 1, "an entry is not allowed");
    Ran { number: 0, waiting: 0, entries: entries.len() as u64, marking: Marking { done, due, included } }
}
