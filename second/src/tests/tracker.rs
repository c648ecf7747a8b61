use super::{answers, crowd, Both};
use crate::cases::{tracks, Dice};
use crate::data::{Entry, Graph, Marking, Track};
use crate::sample::{self, CHECK, CHECKED, REBOOT, REBOOTED, START};
use std::collections::BTreeSet;

const fn at(marking: Marking, rank: u64, flag: u64) -> Track {
    Track { marking, rank, flag }
}

#[test]
fn sample_13() {
    let job = Both::new(sample::graph());
    let start = job.track_start(START).track;
    assert_eq!(start, at(START, 1, 1));
    let rebooted = job.track_step(start, REBOOT).track;
    assert_eq!(rebooted, at(REBOOTED, 1, 0), "i 1, flag down");
    assert_eq!(job.track_idle(rebooted).track, rebooted);
    assert_eq!(job.track_step(rebooted, CHECK).track, at(CHECKED, 2, 1), "i 2, flag up");
}

/// Fig. 3(a): the doctor prescribes and signs, the nurse gives medicine. Sign has rank 1, as the paper's text says.
mod medicine {
    use super::{Entry, Graph};

    pub const SIGN: Entry = Entry { person: 0, step: 0, role: 0 };
    pub const GIVE: Entry = Entry { person: 1, step: 1, role: 1 };
    pub const PRESCRIBE: Entry = Entry { person: 0, step: 2, role: 0 };

    pub fn graph() -> Graph {
        let mut g = Graph::bare(3, 2, 2);
        g.allows[..3].copy_from_slice(&[0b01, 0b10, 0b01]);
        g.holds[..2].copy_from_slice(&[0b01, 0b10]);
        g.conditions[..2].copy_from_slice(&[0b100, 0b001]);
        g.responses[2] = 0b011;
        g
    }
}

#[test]
fn the_automaton_of_the_paper() {
    use medicine::{GIVE, PRESCRIBE, SIGN};
    let job = Both::new(medicine::graph());
    let go = |track, entry| job.track_step(track, entry).track;
    let rank_and_flag = |track: Track| (track.rank, track.flag);
    let all_done = [PRESCRIBE, SIGN, GIVE].into_iter().fold(at(Marking::new(0, 0, 0b111), 1, 1), go);
    let s7 = go(all_done, PRESCRIBE);
    assert_eq!(s7, at(Marking::new(0b111, 0b011, 0b111), 2, 0), "S7: sign and give are pending");
    assert_eq!(rank_and_flag(go(s7, GIVE)), (2, 0), "S9 is not accepting");
    let s10 = go(s7, SIGN);
    assert_eq!(rank_and_flag(s10), (1, 1), "S10 is accepting");
    let s11 = go(s10, PRESCRIBE);
    assert_eq!(s11, at(s7.marking, 1, 0), "S11: the same marking, another rank");
    assert_eq!(rank_and_flag(go(s11, SIGN)), (1, 0), "S12 is not accepting");
    assert_eq!(rank_and_flag(go(s11, GIVE)), (2, 1), "S16 is accepting");
}

/// Definition 7, items (iii) to (vi) as printed.
fn printed(before: Marking, after: Marking, i: u64, e: u8) -> Track {
    let pending = |m: Marking| -> Vec<u64> { (0..64).filter(|s| m.due & m.included & 1 << s != 0).collect() };
    let (had, has) = (pending(before), pending(after));
    let above: Vec<u64> = had.iter().copied().filter(|s| s + 1 > i).collect();
    let relieved = |s: Option<&u64>| s.is_some_and(|s| !has.contains(s) || *s == e.into());
    let by_above = relieved(above.iter().min());
    let by_all = above.is_empty() && relieved(had.iter().min());
    let rank = |s: Option<&u64>| s.expect("relieved") + 1;
    let next = match () {
        () if by_above => rank(above.iter().min()),
        () if by_all => rank(had.iter().min()),
        () => i,
    };
    at(after, next, u64::from(has.is_empty() || by_above || by_all))
}

#[test]
fn the_bodies_agree_and_every_number_comes_up() {
    let mut came = BTreeSet::new();
    for case in 0..3_000 {
        let tracks::Track { graph, track, entry, .. } = tracks::make(&mut Dice::new(12, case));
        let job = Both::new(graph);
        came.insert(("start", job.track_start(track.marking).number));
        came.insert(("idle", job.track_idle(track).number));
        let next = job.track_step(track, entry);
        came.extend([("step", next.number), ("waits", crowd(next.waiting))]);
        if next.number == 0 {
            assert_eq!(next.track, printed(track.marking, next.track.marking, track.rank, entry.step));
        }
    }
    let mut all = answers("start", &[0, 2, 4, 6, 8]);
    all.append(&mut answers("idle", &[0, 2, 4, 6, 8, 9]));
    all.append(&mut answers("step", &[0, 2, 4, 6, 8, 9, 11, 12, 13, 14, 15]));
    all.append(&mut answers("waits", &[0, 1, 2, 63]));
    assert_eq!(came, all);
}

#[test]
fn the_highest_rank() {
    let mut g = Graph::bare(64, 1, 1);
    (g.allows[63], g.holds[0]) = (1, 1);
    let last = at(Marking::new(0, 1 << 63, 1 << 63), 64, 0);
    let next = Both::new(g).track_step(last, Entry { person: 0, step: 63, role: 0 });
    assert_eq!(next.track, at(Marking::new(1 << 63, 0, 1 << 63), 64, 1));
}
