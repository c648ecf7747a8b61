use super::{
    check::{first, sound},
    take::take_entry,
    Refusal,
};
use crate::data::{Entry, Graph, Marking, Track, Tracked};

pub fn track_start(g: &Graph, m: Marking) -> Tracked {
    told(started(g, m), Track::default())
}

pub fn track_idle(g: &Graph, track: Track) -> Tracked {
    told(idled(g, track), track)
}

/// Moves the marking and goes along.
pub fn track_step(g: &Graph, track: Track, e: Entry) -> Tracked {
    told(stepped(g, track, e), track)
}

#[inline]
fn told(tracked: Result<Track, Refusal>, handed_in: Track) -> Tracked {
    match tracked {
        Ok(track) => Tracked { number: 0, waiting: 0, track },
        Err(refusal) => {
            Tracked { number: refusal.number(), waiting: refusal.waiting(), track: refusal.leaves(handed_in) }
        }
    }
}

#[inline]
fn started(g: &Graph, m: Marking) -> Result<Track, Refusal> {
    sound(g, m)?;
    Ok(Track { marking: m, rank: 1, flag: (pending(m) == 0).into() })
}

#[inline]
fn idled(g: &Graph, track: Track) -> Result<Track, Refusal> {
    ranked(g, track)?;
    Ok(Track { flag: (pending(track.marking) == 0).into(), ..track })
}

#[inline]
fn stepped(g: &Graph, track: Track, e: Entry) -> Result<Track, Refusal> {
    ranked(g, track)?;
    let marking = take_entry(g, track.marking, e)?;
    let (before, left) = (pending(track.marking), pending(marking));
    let above = before & !first(track.rank);
    let next = if above != 0 { above } else { before };
    // The lowest alone, or nothing.
    let x = next & next.wrapping_neg();
    if x & (!left | 1 << e.step) != 0 {
        return Ok(Track { marking, rank: u64::from(x.trailing_zeros()) + 1, flag: 1 });
    }
    Ok(Track { marking, rank: track.rank, flag: (left == 0).into() })
}

#[inline]
fn ranked(g: &Graph, track: Track) -> Result<(), Refusal> {
    sound(g, track.marking)?;
    if !(1..=g.steps).contains(&track.rank) {
        return Err(Refusal::NoRank);
    }
    Ok(())
}

/// The steps due and included.
fn pending(m: Marking) -> u64 {
    m.due & m.included
}
