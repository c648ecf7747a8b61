//! Numbers that do not fit into a byte, or have more bits than there are roles, are refused and not cut short.

use super::Both;
use crate::data::{Marking, Record, Track};
use crate::sample::{self, REBOOT, START};
use crate::{model, peer};

/// Each is 3 where only the lowest bits are looked at.
const ROUND: [u64; 3] = [3 + (1 << 8), 3 + (1 << 16), 3 + (1 << 32)];

#[test]
fn counts() {
    for count in ROUND.into_iter().chain([0, 255, 256, u64::MAX]) {
        for place in 0..4 {
            let mut g = sample::graph();
            *[&mut g.steps, &mut g.people, &mut g.roles, &mut g.actions][place] = count;
            let job = Both::new(g);
            assert_eq!(job.check(), 2, "{count}");
            assert_eq!(job.restore(&[0; 65], &[], START).number, 2, "{count}");
        }
    }
}

#[test]
fn roles_beyond_the_roles() {
    for role in [2, 15, 16, 32, 63] {
        for row in [0, 1, 2, 3, 15] {
            let [mut allowed, mut held] = [sample::graph(), sample::graph()];
            allowed.allows[row] |= 1 << role;
            held.holds[row] |= 1 << role;
            assert_eq!([allowed, held].map(|g| Both::new(g).check()), [4, 4], "role {role} in row {row}");
        }
    }
}

#[test]
fn ranks_and_flags() {
    let job = Both::new(sample::graph());
    for rank in ROUND.into_iter().chain([0, 4, 255, 256, u64::MAX]) {
        let tracked = job.track_idle(Track { marking: START, rank, flag: 1 });
        assert_eq!((tracked.number, tracked.track), (9, Track::default()), "{rank}");
    }
    for flag in [0, 1, 2, 255, 256, u64::MAX] {
        let track = Track { marking: START, rank: 3, flag };
        assert_eq!(job.track_idle(track).track, Track { flag: 1, ..track }, "{flag}");
        assert_eq!(job.track_step(track, REBOOT).track.flag, 0, "{flag}");
        let refused = job.track_step(track, sample::PUBLISH);
        assert_eq!((refused.number, refused.waiting, refused.track), (15, 0b010, track), "{flag}");
    }
}

#[test]
fn a_stated_number_of_steps_and_never() {
    let record = [0; 65];
    for n in ROUND.into_iter().chain([0, 65, 255, 256, u64::MAX]) {
        let (mut out, mut read, mut room) = ([0; 65], Record::default(), [0; 65]);
        assert_eq!(model::record::join(n, &record, &record), Err(2));
        assert_eq!(model::record::apply(n, &record, Marking::default()).number, 2);
        assert_eq!(model::record::read(n, &record), Err(2));
        assert_eq!(model::record::write(n, &read, 65), Err(2));
        assert_eq!(peer::record::join(n, &record, &record, &mut out), 2);
        assert_eq!(peer::record::apply(n, &record, Marking::default()).number, 2);
        assert_eq!(peer::record::read(n, &record, &mut read), 2);
        assert_eq!(peer::record::write(n, &read, &mut room).number, 2);
    }
    for never in [2, 256, 257, u64::MAX] {
        let record = Record { never, ..Record::default() };
        assert_eq!(model::record::write(3, &record, 65), Err(10), "{never}");
        assert_eq!(peer::record::write(3, &record, &mut [0; 65]).number, 10, "{never}");
    }
}
