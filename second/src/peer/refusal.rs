#[derive(Clone, Copy, PartialEq, Eq, Debug)]
pub enum Refusal {
    Layout,
    Counts,
    Bodies,
    Beyond,
    Arrows,
    Both,
    Length,
    Outside,
    NoRank,
    IllFormed,
    Unknown,
    NotHeld,
    NotOnStep,
    Excluded,
    /// With the set of all that is waited for.
    Waits(u64),
    NotApplied,
    EmptyLap,
    Room,
    Store,
    Arms,
}

impl Refusal {
    #[inline]
    pub fn number(self) -> u64 {
        match self {
            Refusal::Layout => 1,
            Refusal::Counts => 2,
            Refusal::Bodies => 3,
            Refusal::Beyond => 4,
            Refusal::Arrows => 5,
            Refusal::Both => 6,
            Refusal::Length => 7,
            Refusal::Outside => 8,
            Refusal::NoRank => 9,
            Refusal::IllFormed => 10,
            Refusal::Unknown => 11,
            Refusal::NotHeld => 12,
            Refusal::NotOnStep => 13,
            Refusal::Excluded => 14,
            Refusal::Waits(_) => 15,
            Refusal::NotApplied => 16,
            Refusal::EmptyLap => 17,
            Refusal::Room => 18,
            Refusal::Store => 22,
            Refusal::Arms => 30,
        }
    }

    #[inline]
    pub fn waiting(self) -> u64 {
        match self {
            Refusal::Waits(steps) => steps,
            _ => 0,
        }
    }

    /// From 11 on what was handed in comes back, below that nothing does.
    #[inline]
    pub fn leaves<T: Default>(self, handed_in: T) -> T {
        if self.number() < 11 {
            T::default()
        } else {
            handed_in
        }
    }
}

/// The number of a call that answers nothing else.
#[inline]
pub fn number(done: Result<(), Refusal>) -> u64 {
    done.map_or_else(Refusal::number, |()| 0)
}
